//! Document 01, "The sheet": from bytes to a sheet, or to a refusal from 6 to 11 with its line.

use std::rc::Rc;

use crate::field::{fields, is_name, lines, number, same_name};
use crate::formula::{members, Members, Node, Shape, Symbol, VariableSet};
use crate::limits::{CLAUSES, LARGEST_ARITY, NODES, SYMBOLS, VARIABLES};
use crate::refusal::Refusal;

/// W-207: the order in which the clauses of a program are tried.
#[derive(Clone, Copy, PartialEq, Eq, Debug, Default)]
pub enum Order {
    /// The sheet's clauses, then the assumptions, oldest first.
    #[default]
    Oldest,
    /// The assumptions, latest first, then the sheet's clauses. "A sheet that relied on the former order says so with a
    /// first line `O latest`."
    Latest,
}

/// A sheet that was read to its end.
pub struct Sheet {
    pub order: Order,
    pub symbols: Vec<Symbol>,
    /// The members of each node, by node number; none for a node that is no clause.
    pub members: Vec<Members>,
    /// The members of all C lines, in order.
    pub program: Members,
    pub goal: Rc<Node>,
}

/// A line of the right form. Numbers are as they stand: what they name may not be there.
enum Form<'a> {
    Latest,
    Symbol {
        name: &'a [u8],
        arity: usize,
        predicate: bool,
    },
    Variable(u8),
    Number(u32),
    Applied {
        symbol: usize,
        nodes: Vec<usize>,
    },
    True,
    And(usize, usize),
    Or(usize, usize),
    Implies(usize, usize),
    Some(u8, usize),
    Every(u8, usize),
    Clause(usize),
    Goal(usize),
}

pub fn read(bytes: &[u8]) -> Result<Sheet, Refusal> {
    let mut reader = Reader::default();
    let mut line_number = 0;
    for line in lines(bytes) {
        line_number += 1;
        if reader.goal.is_some() {
            return Err(Refusal::new(11, line_number));
        }
        // W-207: "An O line elsewhere, or with another word, is refused under 6".
        let form = match line.bytes {
            _ if !line.closed => None,
            b"O\tlatest" if line_number == 1 => Some(Form::Latest),
            bytes => form(bytes),
        };
        let read = form.ok_or(6).and_then(|form| reader.line(form));
        read.map_err(|number| Refusal::new(number, line_number))?;
    }
    reader.sheet().ok_or(Refusal::new(11, line_number + 1))
}

/// Refusal 6: "letter, field count, number, name, arity, variable".
fn form(line: &[u8]) -> Option<Form<'_>> {
    let fields = fields(line);
    let node = |field: &[u8]| number(field).map(|number| number as usize);
    let variable = |field: &[u8]| {
        node(field)
            .filter(|&number| number < VARIABLES)
            .map(|number| number as u8)
    };
    Some(match fields[..] {
        [letter @ (b"F" | b"P"), name, arity] if is_name(name) => Form::Symbol {
            name,
            arity: node(arity).filter(|&arity| arity <= LARGEST_ARITY)?,
            predicate: letter == b"P",
        },
        [b"V", v] => Form::Variable(variable(v)?),
        [b"N", n] => Form::Number(number(n)?),
        [b"A", symbol, ref nodes @ ..] if nodes.len() <= LARGEST_ARITY => Form::Applied {
            symbol: node(symbol)?,
            nodes: nodes.iter().map(|field| node(field)).collect::<Option<_>>()?,
        },
        [b"Y"] => Form::True,
        [b"&", left, right] => Form::And(node(left)?, node(right)?),
        [b"|", left, right] => Form::Or(node(left)?, node(right)?),
        [b">", left, right] => Form::Implies(node(left)?, node(right)?),
        [b"E", v, part] => Form::Some(variable(v)?, node(part)?),
        [b"U", v, part] => Form::Every(variable(v)?, node(part)?),
        [b"C", clause] => Form::Clause(node(clause)?),
        [b"Q", goal] => Form::Goal(node(goal)?),
        _ => return None,
    })
}

#[derive(Default)]
struct Reader {
    order: Order,
    symbols: Vec<Symbol>,
    nodes: Vec<Rc<Node>>,
    members: Vec<Members>,
    /// Node numbers of the C lines.
    clauses: Vec<usize>,
    goal: Option<Rc<Node>>,
}

impl Reader {
    /// The sheet, if its Q line was read.
    fn sheet(self) -> Option<Sheet> {
        let clauses = self.clauses.iter();
        Some(Sheet {
            order: self.order,
            program: clauses.flat_map(|&node| self.members[node].iter().cloned()).collect(),
            symbols: self.symbols,
            members: self.members,
            goal: self.goal?,
        })
    }

    /// Refusals 7 to 10, in this order.
    fn line(&mut self, form: Form) -> Result<(), u32> {
        match form {
            Form::Latest => {
                self.order = Order::Latest;
                Ok(())
            }
            Form::Symbol { name, arity, predicate } => self.declare(name, arity, predicate),
            Form::Clause(clause) => self.clause(clause),
            Form::Goal(goal) => self.goal(goal),
            form => self.make(form),
        }
    }

    fn declare(&mut self, name: &[u8], arity: usize, predicate: bool) -> Result<(), u32> {
        if self.symbols.len() == SYMBOLS {
            return Err(7);
        }
        if self.symbols.iter().any(|symbol| same_name(&symbol.name, name)) {
            return Err(8);
        }
        self.symbols.push(Symbol {
            name: name.to_vec(),
            arity,
            predicate,
        });
        Ok(())
    }

    fn clause(&mut self, clause: usize) -> Result<(), u32> {
        if self.clauses.len() == CLAUSES {
            return Err(7);
        }
        let node = self.node(clause)?;
        if !node.is_clause() {
            return Err(9);
        }
        if node.free != VariableSet::EMPTY {
            return Err(10);
        }
        self.clauses.push(clause);
        Ok(())
    }

    fn goal(&mut self, goal: usize) -> Result<(), u32> {
        let node = self.node(goal)?;
        if !node.is_goal {
            return Err(9);
        }
        self.goal = Some(node);
        Ok(())
    }

    /// The line of a node.
    fn make(&mut self, form: Form) -> Result<(), u32> {
        if self.nodes.len() == NODES {
            return Err(7);
        }
        let shape = self.shape(form)?;
        let node = Rc::new(Node::new(self.nodes.len(), shape).ok_or(9u32)?);
        self.members.push(members(&node, &self.members));
        self.nodes.push(node);
        Ok(())
    }

    fn shape(&self, form: Form) -> Result<Shape, u32> {
        Ok(match form {
            Form::Variable(variable) => Shape::Variable(variable),
            Form::Number(number) => Shape::Number(number),
            Form::Applied { symbol: place, nodes } => {
                let symbol = self.symbols.get(place).ok_or(8u32)?;
                let arguments = nodes
                    .iter()
                    .map(|&node| self.node(node))
                    .collect::<Result<Vec<_>, _>>()?;
                if arguments.len() != symbol.arity {
                    return Err(9);
                }
                if symbol.predicate {
                    Shape::Atom(place, arguments)
                } else {
                    Shape::Application(place, arguments)
                }
            }
            Form::True => Shape::True,
            Form::And(left, right) => Shape::And(self.node(left)?, self.node(right)?),
            Form::Or(left, right) => Shape::Or(self.node(left)?, self.node(right)?),
            Form::Implies(left, right) => Shape::Implies(self.node(left)?, self.node(right)?),
            Form::Some(variable, part) => Shape::Some(variable, self.node(part)?),
            Form::Every(variable, part) => Shape::Every(variable, self.node(part)?),
            Form::Latest | Form::Symbol { .. } | Form::Clause(_) | Form::Goal(_) => {
                unreachable!("these lines make no node")
            }
        })
    }

    fn node(&self, number: usize) -> Result<Rc<Node>, u32> {
        self.nodes.get(number).cloned().ok_or(8)
    }
}
