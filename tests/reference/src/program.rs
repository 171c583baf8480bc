//! Programs, the left sides of sequents: the sheet's clauses and the assumptions, in the order in force (W-207).

use crate::formula::Members;
use crate::map::Map;
use crate::sheet::{Order, Sheet};
use crate::term::Environment;

/// The members of a clause, in the environment it was assumed in.
#[derive(Clone)]
pub struct Clause<T> {
    pub members: Members,
    pub environment: Environment<T>,
}

/// Persistent: assuming a clause leaves the program as it was.
pub struct Program<T> {
    order: Order,
    /// By age: at 0, as one, the sheet's clauses, then the assumptions, oldest first.
    clauses: Map<Clause<T>>,
    count: u32,
}

impl<T> Clone for Program<T> {
    fn clone(&self) -> Program<T> {
        Program {
            clauses: self.clauses.clone(),
            ..*self
        }
    }
}

impl<T: Copy> Program<T> {
    /// The sheet's clauses, with no assumption.
    pub fn of_sheet(sheet: &Sheet) -> Program<T> {
        let none = Program {
            order: sheet.order,
            clauses: Map::empty(),
            count: 0,
        };
        none.with(Clause {
            members: sheet.program.clone(),
            environment: Environment::empty(),
        })
    }

    /// The program with one more assumption, which is now the latest.
    pub fn with(&self, clause: Clause<T>) -> Program<T> {
        Program {
            clauses: self.clauses.with(self.count, clause),
            count: self.count + 1,
            ..*self
        }
    }

    /// The clause that is tried after so many others. Its members stand in its own order.
    pub fn clause(&self, tried: u32) -> Option<&Clause<T>> {
        let age = match self.order {
            // W-207: "the sheet's clauses in order, then the assumptions, oldest first".
            Order::Oldest => tried,
            // Document 01: "assumptions first, latest first, then the sheet's in order".
            Order::Latest => self.count.checked_sub(1 + tried)?,
        };
        self.clauses.get(age)
    }
}
