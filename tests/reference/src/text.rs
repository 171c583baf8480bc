//! Document 01, "The answer text"; with W-202 the proofs in walk order.

use std::collections::HashMap;
use std::rc::Rc;

use crate::formula::Node;
use crate::search::{End, Ended, Proof, Step};
use crate::sheet::Sheet;
use crate::term::{Constant, Environment, Fresh, Term, Variable};
use crate::unification::Store;

/// The text would be longer than the limit (refusal 12).
#[derive(Debug)]
pub struct TooLong;

/// The answer text, if it has at most `limit` bytes. Terms can unfold without end, so writing stops at the limit.
pub fn answer_text(sheet: &Sheet, ended: &Ended, limit: usize) -> Result<Vec<u8>, TooLong> {
    let mut writer = Writer {
        sheet,
        bytes: Vec::new(),
        limit,
        variables: Numbering::default(),
        constants: Numbering::default(),
    };
    for proof in &ended.proofs {
        // W-202: "each numbers its variables and constants from 0".
        writer.variables = Numbering::default();
        writer.constants = Numbering::default();
        writer.outcome("proved", proof.units)?;
        writer.proof(proof)?;
    }
    // W-202: "then an R line with no or spent if fewer were found".
    match ended.end {
        End::Proved => {}
        End::No => writer.outcome("no", ended.units)?,
        End::Spent => writer.outcome("spent", ended.units)?,
    }
    Ok(writer.bytes)
}

/// The numbers of one kind, "numbered from 0 by first showing".
#[derive(Default)]
struct Numbering(HashMap<u32, u32>);

impl Numbering {
    fn number(&mut self, id: u32) -> u32 {
        let next = self.0.len() as u32;
        *self.0.entry(id).or_insert(next)
    }
}

struct Writer<'a> {
    sheet: &'a Sheet,
    bytes: Vec<u8>,
    limit: usize,
    variables: Numbering,
    constants: Numbering,
}

/// What is left to be written of a term.
enum Rest {
    Term(Term),
    Bytes(&'static str),
}

impl Writer<'_> {
    fn put(&mut self, bytes: &[u8]) -> Result<(), TooLong> {
        if bytes.len() > self.limit - self.bytes.len() {
            return Err(TooLong);
        }
        self.bytes.extend(bytes);
        Ok(())
    }

    fn outcome(&mut self, outcome: &str, units: u32) -> Result<(), TooLong> {
        self.put(format!("R\t{outcome}\t{units}\n").as_bytes())
    }

    fn proof(&mut self, proof: &Proof) -> Result<(), TooLong> {
        let mut store = proof.store.clone();
        for &(v, variable) in &proof.answers {
            self.put(format!("B\t{v}").as_bytes())?;
            self.field(Fresh::Variable(variable), &mut store)?;
            self.put(b"\n")?;
        }
        for step in &proof.steps {
            match &**step {
                Step::True => self.put(b"D\ttrue")?,
                Step::And => self.put(b"D\tand")?,
                Step::Left => self.put(b"D\tleft")?,
                Step::Right => self.put(b"D\tright")?,
                Step::Assume => self.put(b"D\tassume")?,
                Step::Some(variable) => {
                    self.put(b"D\tsome")?;
                    self.field(Fresh::Variable(*variable), &mut store)?;
                }
                Step::All(constant) => {
                    self.put(b"D\tall")?;
                    self.field(Fresh::Constant(*constant), &mut store)?;
                }
                Step::Clause { place, prefix } => {
                    self.put(format!("D\tclause\t{place}").as_bytes())?;
                    for &term in prefix {
                        self.field(term, &mut store)?;
                    }
                }
            }
            self.put(b"\n")?;
        }
        Ok(())
    }

    /// A tab and a term.
    fn field(&mut self, term: Fresh, store: &mut Store) -> Result<(), TooLong> {
        self.put(b"\t")?;
        let mut rest = vec![Rest::Term(Term::Fresh(term))];
        while let Some(next) = rest.pop() {
            match next {
                Rest::Bytes(bytes) => self.put(bytes.as_bytes())?,
                Rest::Term(term) => match store.resolve(term) {
                    Term::Fresh(Fresh::Variable(variable)) => self.variable(variable, store.level(variable))?,
                    Term::Fresh(Fresh::Constant(constant)) => self.constant(constant)?,
                    // W-204: "The text writes it in base ten."
                    Term::Number(number) => self.put(number.to_string().as_bytes())?,
                    Term::Application(node, environment) => {
                        self.name(&node)?;
                        push_arguments(&mut rest, node.arguments(), &environment);
                    }
                },
            }
        }
        Ok(())
    }

    fn variable(&mut self, variable: Variable, level: u32) -> Result<(), TooLong> {
        let number = self.variables.number(variable.id);
        self.put(format!("_{number}@{level}").as_bytes())
    }

    fn constant(&mut self, constant: Constant) -> Result<(), TooLong> {
        let number = self.constants.number(constant.id);
        self.put(format!("!{number}@{}", constant.level).as_bytes())
    }

    /// W-201: names "are written as declared".
    fn name(&mut self, node: &Rc<Node>) -> Result<(), TooLong> {
        let sheet = self.sheet;
        let symbol = node.symbol().expect("an application has a symbol");
        self.put(&sheet.symbols[symbol].name)
    }
}

/// The arguments in round brackets, parted by commas, so that the first is popped first; a constant has no brackets.
fn push_arguments(rest: &mut Vec<Rest>, arguments: &[Rc<Node>], environment: &Environment<Fresh>) {
    if arguments.is_empty() {
        return;
    }
    rest.push(Rest::Bytes(")"));
    for (place, argument) in arguments.iter().enumerate().rev() {
        rest.push(Rest::Term(Term::new(argument, environment)));
        rest.push(Rest::Bytes(if place == 0 { "(" } else { "," }));
    }
}
