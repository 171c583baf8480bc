//! Lent buffers, made once.

use rules::{ask_here, check_here, run_here, Request, Run, Verdict};

pub struct Lent {
    table: Vec<u32>,
    work: Vec<u32>,
    answer: Vec<u8>,
}

impl Lent {
    pub fn new() -> Lent {
        Lent {
            table: vec![0; 8_192],
            work: vec![0; 64 * 65_535],
            answer: vec![0; 65_535],
        }
    }

    /// A run with a work buffer for the budget.
    pub fn run(&mut self, sheet: &[u8], budget: u32) -> Run {
        let work = &mut self.work[..64 * budget as usize];
        // SAFETY: a main thread has 8 MB of stack; `memory` tries less in processes of their own.
        unsafe { run_here(sheet, budget, &mut self.table, work, &mut self.answer) }
    }

    /// A run for so many proofs.
    pub fn ask(&mut self, sheet: &[u8], budget: u32, proofs: u32) -> Run {
        let work = &mut self.work[..64 * budget as usize];
        let request = Request { budget, proofs };
        // SAFETY: a main thread has 8 MB of stack; `memory` tries less in processes of their own.
        unsafe { ask_here(sheet, request, &mut self.table, work, &mut self.answer) }
    }

    /// The text of the run before.
    pub fn text(&self, run: Run) -> Vec<u8> {
        self.answer[..run.length].to_vec()
    }

    pub fn check(&mut self, sheet: &[u8], text: &[u8]) -> Verdict {
        let lines = text.iter().filter(|&&byte| byte == b'\n').count();
        // SAFETY: a main thread has 8 MB of stack; `memory` tries less in processes of their own.
        unsafe { check_here(sheet, text, &mut self.table, &mut self.work[..64 * lines]) }
    }
}
