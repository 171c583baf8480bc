//! A call performed on soiled buffers, with everything that can be seen afterwards.

use crate::dirt::{soil, soil_bytes};
use crate::generate::{AskCall, CheckCall, RunCall};

/// The code returned and every buffer after a call.
#[derive(Clone, PartialEq, Eq, Debug, Default)]
pub struct After {
    pub code: u32,
    pub table: Vec<u32>,
    pub work: Vec<u32>,
    pub answer: Vec<u8>,
    pub result: Vec<u32>,
}

impl After {
    /// Buffers of these lengths, soiled.
    fn before(table: usize, work: usize, answer: usize, result: usize, dirt: u64) -> After {
        let mut after = After {
            code: 0,
            table: vec![0; table],
            work: vec![0; work],
            answer: vec![0; answer],
            result: vec![0; result],
        };
        soil(&mut after.table, dirt);
        soil(&mut after.work, dirt.rotate_left(16));
        soil_bytes(&mut after.answer, dirt.rotate_left(32));
        soil(&mut after.result, dirt.rotate_left(48));
        after
    }

    /// What differs, in words; none if nothing does.
    pub fn difference(&self, wanted: &After) -> Option<String> {
        fn first<T: PartialEq + std::fmt::Debug>(name: &str, got: &[T], wanted: &[T]) -> Option<String> {
            let place = (0..got.len()).find(|&place| got[place] != wanted[place])?;
            Some(format!("{name}[{place}] is {:?}, not {:?}", got[place], wanted[place]))
        }
        if self == wanted {
            return None;
        }
        let code = (self.code != wanted.code).then(|| format!("returned {}, not {}", self.code, wanted.code));
        let parts = [
            code,
            first("result", &self.result, &wanted.result),
            first("answer", &self.answer, &wanted.answer),
            first("table", &self.table, &wanted.table),
            first("work", &self.work, &wanted.work),
        ];
        Some(parts.into_iter().flatten().collect::<Vec<_>>().join("; "))
    }
}

/// A function like `interface::run`.
pub trait Run: Fn(&[u8], u32, &mut [u32], &mut [u32], &mut [u8], &mut [u32]) -> u32 {}
impl<F: Fn(&[u8], u32, &mut [u32], &mut [u32], &mut [u8], &mut [u32]) -> u32> Run for F {}

/// A function like `interface::ask`.
pub trait Ask: Fn(&[u8], &[u32], &mut [u32], &mut [u32], &mut [u8], &mut [u32]) -> u32 {}
impl<F: Fn(&[u8], &[u32], &mut [u32], &mut [u32], &mut [u8], &mut [u32]) -> u32> Ask for F {}

/// A function like `interface::check`.
pub trait Check: Fn(&[u8], &[u8], &mut [u32], &mut [u32], &mut [u32]) -> u32 {}
impl<F: Fn(&[u8], &[u8], &mut [u32], &mut [u32], &mut [u32]) -> u32> Check for F {}

impl RunCall {
    /// The buffers before the call.
    pub fn before(&self) -> After {
        After::before(self.table, self.work, self.answer, self.result, self.dirt)
    }

    pub fn perform(&self, run: impl Run) -> After {
        let mut after = self.before();
        after.code = run(
            &self.sheet,
            self.budget,
            &mut after.table,
            &mut after.work,
            &mut after.answer,
            &mut after.result,
        );
        after
    }
}

impl AskCall {
    pub fn perform(&self, ask: impl Ask) -> After {
        let mut after = self.run.before();
        after.code = ask(
            &self.run.sheet,
            &self.request(),
            &mut after.table,
            &mut after.work,
            &mut after.answer,
            &mut after.result,
        );
        after
    }
}

impl CheckCall {
    /// The buffers before the call.
    pub fn before(&self) -> After {
        After::before(self.table, self.work, 0, self.result, self.dirt)
    }

    pub fn perform(&self, check: impl Check) -> After {
        let mut after = self.before();
        after.code = check(
            &self.sheet,
            &self.text,
            &mut after.table,
            &mut after.work,
            &mut after.result,
        );
        after
    }
}
