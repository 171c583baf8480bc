//! Terms, goals and clauses as they stand on a sheet.
//!
//! A sheet's nodes share their parts, so a formula can unfold to more leaves than any memory holds. Everything needed
//! of a node (kinds, free variables, size) is therefore kept in it when it is made.

use std::rc::Rc;

use crate::limits::{MEMBERS, TERM_SIZE};

/// A function symbol or a predicate; both share one numbering.
#[derive(Clone, PartialEq, Eq, Debug)]
pub struct Symbol {
    pub name: Vec<u8>,
    pub arity: usize,
    pub predicate: bool,
}

/// A set of the sheet's variables 0 to 7, one bit each.
#[derive(Clone, Copy, PartialEq, Eq, Debug)]
pub struct VariableSet(u8);

impl VariableSet {
    pub const EMPTY: VariableSet = VariableSet(0);

    pub fn one(variable: u8) -> VariableSet {
        VariableSet(1 << variable)
    }

    pub fn and(self, other: VariableSet) -> VariableSet {
        VariableSet(self.0 | other.0)
    }

    pub fn without(self, variable: u8) -> VariableSet {
        VariableSet(self.0 & !(1 << variable))
    }

    pub fn holds(self, variable: u8) -> bool {
        self.0 & (1 << variable) != 0
    }

    pub fn ascending(self) -> Vec<u8> {
        (0..8).filter(|&variable| self.holds(variable)).collect()
    }
}

pub enum Shape {
    Variable(u8),
    /// A number as a term (W-204): neither a symbol nor an application of one.
    Number(u32),
    /// A function symbol with its arguments.
    Application(usize, Vec<Rc<Node>>),
    /// A predicate with its arguments.
    Atom(usize, Vec<Rc<Node>>),
    True,
    And(Rc<Node>, Rc<Node>),
    Or(Rc<Node>, Rc<Node>),
    Implies(Rc<Node>, Rc<Node>),
    Some(u8, Rc<Node>),
    Every(u8, Rc<Node>),
}

/// A node of the sheet with what is known of the tree below it.
pub struct Node {
    /// The sheet's own number of the node.
    pub number: usize,
    pub shape: Shape,
    pub is_term: bool,
    pub is_goal: bool,
    /// The number of members, if the node is a clause.
    pub members: Option<usize>,
    pub free: VariableSet,
    /// Variables and symbols of a term, "counted as often as they stand"; a number "counts as one symbol" (W-204). 0 for
    /// what is no term.
    pub size: usize,
}

impl Node {
    /// Document 01, "The sheet": the kinds of a node. None if it is neither term, goal nor clause (refusal 9).
    pub fn new(number: usize, shape: Shape) -> Option<Node> {
        let mut node = Node {
            number,
            is_term: false,
            is_goal: false,
            members: None,
            free: free_variables(&shape),
            size: 0,
            shape,
        };
        match &node.shape {
            Shape::Variable(_) | Shape::Number(_) => {
                node.is_term = true;
                node.size = 1;
            }
            Shape::Application(_, arguments) => {
                let size = 1 + arguments.iter().map(|term| term.size).sum::<usize>();
                if arguments.iter().all(|term| term.is_term) && size <= TERM_SIZE {
                    node.is_term = true;
                    node.size = size;
                }
            }
            Shape::Atom(_, arguments) => {
                if arguments.iter().all(|term| term.is_term) {
                    node.is_goal = true;
                    node.members = Some(1);
                }
            }
            Shape::True => node.is_goal = true,
            Shape::And(left, right) => {
                node.is_goal = left.is_goal && right.is_goal;
                node.members = match (left.members, right.members) {
                    (Some(left), Some(right)) if left + right <= MEMBERS => Some(left + right),
                    _ => None,
                };
            }
            Shape::Or(left, right) => node.is_goal = left.is_goal && right.is_goal,
            Shape::Implies(left, right) => {
                node.is_goal = left.is_clause() && right.is_goal;
                if left.is_goal && matches!(right.shape, Shape::Atom(..)) {
                    node.members = Some(1);
                }
            }
            Shape::Some(_, part) => node.is_goal = part.is_goal,
            Shape::Every(_, part) => {
                node.is_goal = part.is_goal;
                node.members = part.members;
            }
        }
        (node.is_term || node.is_goal || node.is_clause()).then_some(node)
    }

    pub fn is_clause(&self) -> bool {
        self.members.is_some()
    }

    /// The arguments of an application or an atom; nothing else has any.
    pub fn arguments(&self) -> &[Rc<Node>] {
        match &self.shape {
            Shape::Application(_, arguments) | Shape::Atom(_, arguments) => arguments,
            _ => &[],
        }
    }

    /// The function symbol or predicate of an application or an atom.
    pub fn symbol(&self) -> Option<usize> {
        match &self.shape {
            Shape::Application(symbol, _) | Shape::Atom(symbol, _) => Some(*symbol),
            _ => None,
        }
    }
}

/// "The innermost E or U binds a variable."
fn free_variables(shape: &Shape) -> VariableSet {
    match shape {
        Shape::Variable(variable) => VariableSet::one(*variable),
        Shape::Application(_, arguments) | Shape::Atom(_, arguments) => arguments
            .iter()
            .fold(VariableSet::EMPTY, |set, term| set.and(term.free)),
        Shape::Number(_) | Shape::True => VariableSet::EMPTY,
        Shape::And(left, right) | Shape::Or(left, right) | Shape::Implies(left, right) => left.free.and(right.free),
        Shape::Some(variable, part) | Shape::Every(variable, part) => part.free.without(*variable),
    }
}

/// A member: a program clause in normal form, "every prefix (body implies head)"; without a body, a fact.
pub struct Member {
    /// Outermost first.
    pub prefix: Vec<u8>,
    pub head: Rc<Node>,
    pub body: Option<Rc<Node>>,
    free: VariableSet,
}

pub type Members = Rc<[Rc<Member>]>;

/// The members of a clause node, from those of the nodes before it (`known`, by node number); none for other nodes.
/// "U adds its variable to the prefix of each member in which it stands free."
pub fn members(node: &Rc<Node>, known: &[Members]) -> Members {
    if !node.is_clause() {
        return Rc::new([]);
    }
    let single = |head: &Rc<Node>, body: Option<&Rc<Node>>| -> Members {
        Rc::new([Rc::new(Member {
            prefix: Vec::new(),
            head: head.clone(),
            body: body.cloned(),
            free: node.free,
        })])
    };
    match &node.shape {
        Shape::Atom(..) => single(node, None),
        Shape::Implies(body, head) => single(head, Some(body)),
        Shape::And(left, right) => {
            let (left, right) = (&known[left.number], &known[right.number]);
            left.iter().chain(right.iter()).cloned().collect()
        }
        Shape::Every(variable, part) => known[part.number]
            .iter()
            .map(|member| member.under(*variable))
            .collect(),
        _ => unreachable!("no other shape is a clause"),
    }
}

impl Member {
    fn under(self: &Rc<Member>, variable: u8) -> Rc<Member> {
        if !self.free.holds(variable) {
            return self.clone();
        }
        let mut prefix = self.prefix.clone();
        prefix.insert(0, variable);
        Rc::new(Member {
            prefix,
            head: self.head.clone(),
            body: self.body.clone(),
            free: self.free.without(variable),
        })
    }
}
