//! A persistent list: adding in front shares the rest.

use std::rc::Rc;

pub struct List<T>(Option<Rc<Cell<T>>>);

struct Cell<T> {
    first: T,
    rest: List<T>,
}

impl<T> List<T> {
    pub fn empty() -> List<T> {
        List(None)
    }

    pub fn with(&self, first: T) -> List<T> {
        List(Some(Rc::new(Cell {
            first,
            rest: self.clone(),
        })))
    }

    pub fn split(&self) -> Option<(&T, &List<T>)> {
        self.0.as_ref().map(|cell| (&cell.first, &cell.rest))
    }

    pub fn iter(&self) -> Iter<'_, T> {
        Iter(self)
    }
}

pub struct Iter<'a, T>(&'a List<T>);

impl<'a, T> Iterator for Iter<'a, T> {
    type Item = &'a T;

    fn next(&mut self) -> Option<&'a T> {
        let (first, rest) = self.0.split()?;
        self.0 = rest;
        Some(first)
    }
}

impl<T> Clone for List<T> {
    fn clone(&self) -> List<T> {
        List(self.0.clone())
    }
}

/// Frees cell after cell: a list can be 50,000 long, too long for the recursive drop.
impl<T> Drop for List<T> {
    fn drop(&mut self) {
        let mut next = self.0.take();
        while let Some(cell) = next {
            match Rc::try_unwrap(cell) {
                Ok(mut cell) => next = cell.rest.0.take(),
                Err(_) => break,
            }
        }
    }
}
