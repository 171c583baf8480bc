//! Terms of the search: a sheet's term together with what its variables stand for.

use std::rc::Rc;

use crate::formula::{Node, Shape};
use crate::limits::VARIABLES;

/// A logic variable. `born` is the level it was made with; the store knows whether it was lowered since.
#[derive(Clone, Copy, PartialEq, Eq, Debug)]
pub struct Variable {
    pub id: u32,
    pub born: u32,
}

/// A made constant: the eigenvariable of an "every" goal, with its level.
#[derive(Clone, Copy, PartialEq, Eq, Debug)]
pub struct Constant {
    pub id: u32,
    pub level: u32,
}

/// What stands for a sheet's variable: the logic variable or the made constant of its E, U or prefix.
#[derive(Clone, Copy, PartialEq, Eq, Debug)]
pub enum Fresh {
    Variable(Variable),
    Constant(Constant),
}

/// What each of the sheet's variables stands for, at one place of a formula.
pub struct Environment<T>(Rc<[Option<T>; VARIABLES]>);

impl<T> Clone for Environment<T> {
    fn clone(&self) -> Environment<T> {
        Environment(self.0.clone())
    }
}

impl<T: Copy> Environment<T> {
    pub fn empty() -> Environment<T> {
        Environment(Rc::new([None; VARIABLES]))
    }

    pub fn with(&self, variable: u8, value: T) -> Environment<T> {
        self.with_all(&[variable], &[value])
    }

    pub fn with_all(&self, variables: &[u8], values: &[T]) -> Environment<T> {
        let mut entries = *self.0;
        for (&variable, &value) in variables.iter().zip(values) {
            entries[usize::from(variable)] = Some(value);
        }
        Environment(Rc::new(entries))
    }

    /// Every variable of a formula that is reached stands for something: it is free in the goal, or bound above.
    pub fn get(&self, variable: u8) -> T {
        self.0[usize::from(variable)].expect("a variable without a value")
    }
}

#[derive(Clone)]
pub enum Term {
    Fresh(Fresh),
    /// A number, which is a term by itself (W-204).
    Number(u32),
    /// An application on the sheet, read in an environment.
    Application(Rc<Node>, Environment<Fresh>),
}

impl Term {
    pub fn new(node: &Rc<Node>, environment: &Environment<Fresh>) -> Term {
        match node.shape {
            Shape::Variable(variable) => Term::Fresh(environment.get(variable)),
            Shape::Number(number) => Term::Number(number),
            _ => Term::Application(node.clone(), environment.clone()),
        }
    }
}
