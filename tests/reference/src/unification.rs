//! Document 01, "Matching": labelled unification, act for act.

use std::rc::Rc;

use crate::formula::Node;
use crate::map::Map;
use crate::term::{Environment, Fresh, Term, Variable};

/// The units of a walk: its inference steps, each act being one, counted against the budget.
pub struct Units {
    left: u32,
    pub taken: u32,
    /// How many of them were taken for bindings, and the most for one term: tests ask whether long chains occur.
    pub bindings: u32,
    pub longest_chain: u32,
}

/// No unit was left when an act was due.
#[derive(Debug)]
pub struct OutOfUnits;

impl Units {
    pub fn new(budget: u32) -> Units {
        Units {
            left: budget,
            taken: 0,
            bindings: 0,
            longest_chain: 0,
        }
    }

    /// One act.
    pub fn act(&mut self) -> Result<(), OutOfUnits> {
        if self.left == 0 {
            return Err(OutOfUnits);
        }
        self.left -= 1;
        self.taken += 1;
        Ok(())
    }

    /// A binding looked through, which is an act too. W-206: "each binding looked through takes one unit".
    fn follow(&mut self) -> Result<(), OutOfUnits> {
        self.act()?;
        self.bindings += 1;
        Ok(())
    }
}

/// Bindings and levels of the logic variables. Persistent: a clone is a choice point's copy.
#[derive(Clone)]
pub struct Store {
    bindings: Map<Term>,
    /// The levels of the variables that were lowered.
    lowered: Map<u32>,
}

impl Store {
    pub fn empty() -> Store {
        Store {
            bindings: Map::empty(),
            lowered: Map::empty(),
        }
    }

    pub fn level(&self, variable: Variable) -> u32 {
        self.lowered.get(variable.id).copied().unwrap_or(variable.born)
    }

    /// The term looked through its bindings.
    pub fn look_through(&self, mut term: Term, units: &mut Units) -> Result<Term, OutOfUnits> {
        let mut passed = 0;
        while let Some((_, bound)) = self.binding(&term) {
            units.follow()?;
            passed += 1;
            term = bound;
        }
        units.longest_chain = units.longest_chain.max(passed);
        Ok(term)
    }

    /// The same for writing, when the walk has ended: no act, so no unit. The variables passed are bound to the end of
    /// their chain, which they stand for in any case, so that no long chain is passed often.
    pub fn resolve(&mut self, mut term: Term) -> Term {
        let mut passed = Vec::new();
        while let Some((variable, bound)) = self.binding(&term) {
            passed.push(variable);
            term = bound;
        }
        passed.pop();
        for variable in passed {
            self.bind(variable, term.clone());
        }
        term
    }

    /// If the term is a bound variable, this variable and what it is bound to.
    fn binding(&self, term: &Term) -> Option<(Variable, Term)> {
        let Term::Fresh(Fresh::Variable(variable)) = *term else {
            return None;
        };
        let bound = self.bindings.get(variable.id)?;
        Some((variable, bound.clone()))
    }

    fn bind(&mut self, variable: Variable, term: Term) {
        self.bindings = self.bindings.with(variable.id, term);
    }

    fn lower(&mut self, variable: Variable, level: u32) {
        self.lowered = self.lowered.with(variable.id, level);
    }
}

/// An atom or an application of the sheet, in its environment.
pub struct Applied<'a> {
    node: &'a Rc<Node>,
    environment: &'a Environment<Fresh>,
}

impl<'a> Applied<'a> {
    pub fn new(node: &'a Rc<Node>, environment: &'a Environment<Fresh>) -> Applied<'a> {
        Applied { node, environment }
    }
}

/// Pairs to be compared, goal side and clause side; the next one last.
type Pairs = Vec<(Term, Term)>;

/// Matches a goal atom with a member's head. Says whether they match; if they do not, the store is of no more use.
pub fn unify(goal: Applied, head: Applied, store: &mut Store, units: &mut Units) -> Result<bool, OutOfUnits> {
    if goal.node.symbol() != head.node.symbol() {
        return Ok(false);
    }
    let mut pairs = Pairs::new();
    push_arguments(&mut pairs, goal, head);
    while let Some((goal, clause)) = pairs.pop() {
        if !compare(goal, clause, &mut pairs, store, units)? {
            return Ok(false);
        }
    }
    Ok(true)
}

/// Compares a pair. The arguments of two applications are the next pairs.
fn compare(
    goal: Term,
    clause: Term,
    pairs: &mut Pairs,
    store: &mut Store,
    units: &mut Units,
) -> Result<bool, OutOfUnits> {
    units.act()?;
    let goal = store.look_through(goal, units)?;
    let clause = store.look_through(clause, units)?;
    match (goal, clause) {
        (Term::Fresh(goal), Term::Fresh(clause)) if goal == clause => Ok(true),
        (Term::Fresh(Fresh::Variable(variable)), other) | (other, Term::Fresh(Fresh::Variable(variable))) => {
            let in_range = range_check(variable, other.clone(), store, units)?;
            if in_range {
                store.bind(variable, other);
            }
            Ok(in_range)
        }
        // W-204: "Two of them match if they are equal, and one never matches an application."
        (Term::Number(goal), Term::Number(clause)) => Ok(goal == clause),
        (Term::Application(goal, goal_environment), Term::Application(clause, clause_environment)) => {
            let same = goal.symbol() == clause.symbol();
            if same {
                let goal = Applied::new(&goal, &goal_environment);
                push_arguments(pairs, goal, Applied::new(&clause, &clause_environment));
            }
            Ok(same)
        }
        _ => Ok(false),
    }
}

/// The pairs of arguments, so that the first is popped first.
fn push_arguments(pairs: &mut Pairs, goal: Applied, clause: Applied) {
    let arguments = goal.node.arguments().iter().zip(clause.node.arguments());
    for (left, right) in arguments.rev() {
        pairs.push((Term::new(left, goal.environment), Term::new(right, clause.environment)));
    }
}

/// The range check: occurs check and level check in one, lowering the variables of the term on the way. The term itself
/// is already looked through.
fn range_check(variable: Variable, term: Term, store: &mut Store, units: &mut Units) -> Result<bool, OutOfUnits> {
    let level = store.level(variable);
    let mut left = vec![term];
    while let Some(term) = left.pop() {
        units.act()?;
        match store.look_through(term, units)? {
            Term::Fresh(Fresh::Variable(met)) => {
                if met == variable {
                    return Ok(false);
                }
                if store.level(met) > level {
                    store.lower(met, level);
                }
            }
            Term::Fresh(Fresh::Constant(constant)) => {
                if constant.level > level {
                    return Ok(false);
                }
            }
            // W-204: a number is "of level 0", which no variable is below.
            Term::Number(_) => {}
            Term::Application(node, environment) => {
                let arguments = node.arguments().iter().rev();
                left.extend(arguments.map(|argument| Term::new(argument, &environment)));
            }
        }
    }
    Ok(true)
}
