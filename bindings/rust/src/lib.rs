//! The proof engine for house rule sheets and the checker of its answer texts, over lent slices.
//!
//! `run` searches for a proof of a sheet's goal and writes the answer text; `ask` does so for several proofs; `check`
//! judges such a text, one proof at a time (`proofs_of`), and trusts neither sheet nor text. All answer for every input
//! and keep nothing between calls; what the buffers held before does not matter. include/rules.h says what each buffer
//! holds afterwards.
//!
//! Each of the three makes a thread with the stack that its call may need, which takes some 20 microseconds, and gives an
//! error only if there is no thread to be had; then no buffer has been touched. A caller who knows that its own stack
//! is large enough calls `run_here`, `ask_here` or `check_here`, which make no thread and allocate nothing.

use std::{io, iter, thread};

pub mod raw;

/// Bytes of a sheet; more are refusal 1.
pub const SHEET_BYTES: usize = 16_384;
/// Numbers that the table must have; fewer are refusal 2.
pub const TABLE_NUMBERS: usize = 8_192;
/// The largest budget; more, or 0, is refusal 3.
pub const LARGEST_BUDGET: u32 = 50_000;
/// The most proofs that can be asked for; more, or 0, is refusal 13.
pub const LARGEST_PROOFS: u32 = 64;
/// Bytes of an answer text; more are refusal 4 or 12.
pub const TEXT_BYTES: usize = 65_535;
/// Work numbers for each unit of budget, or for each LF of a text; fewer are refusal 5.
pub const WORK_NUMBERS: usize = 64;
/// Bytes of stack that `check_here` needs (RULES_CHECK_STACK).
pub const CHECK_STACK: usize = 65_536;
/// Bytes of stack that a new thread may need before it calls the library.
const THREAD_STACK: usize = 65_536;

/// Bytes of stack that `run_here` and `ask_here` need with an answer buffer of this length (RULES_RUN_STACK).
pub const fn run_stack(answer_bytes: usize) -> usize {
    let written = if answer_bytes < TEXT_BYTES {
        answer_bytes
    } else {
        TEXT_BYTES
    };
    98_304 + 64 * written
}

/// A numbered refusal. Lines count from 1; line 0 says that no line is at fault.
#[derive(Clone, Copy, PartialEq, Eq, Debug)]
pub struct Refusal {
    pub number: u32,
    pub line: u32,
}

#[derive(Clone, Copy, PartialEq, Eq, Debug)]
pub enum Outcome {
    Proved,
    No,
    /// More units are needed than the budget.
    Spent,
    Refused(Refusal),
}

/// What is asked for: at most so many units, and at most so many proofs.
#[derive(Clone, Copy, PartialEq, Eq, Debug)]
pub struct Request {
    pub budget: u32,
    pub proofs: u32,
}

/// What a run hands back. Outcome and units are those of the text's last R line, so `ask` may tell no or spent although
/// the text has proofs. With a refusal units, proofs and length are 0.
#[derive(Clone, Copy, PartialEq, Eq, Debug)]
pub struct Run {
    pub outcome: Outcome,
    pub units: u32,
    /// The proofs in the answer text.
    pub proofs: u32,
    /// The answer text is `answer[..length]`.
    pub length: usize,
}

#[derive(Clone, Copy, PartialEq, Eq, Debug)]
pub enum Verdict {
    Valid,
    /// The first line of the text that breaks a rule or form.
    NotValid(u32),
    Refused(Refusal),
}

/// Runs a sheet with a budget, on a thread of its own. `work` needs `WORK_NUMBERS` for each unit of budget.
pub fn run(sheet: &[u8], budget: u32, table: &mut [u32], work: &mut [u32], answer: &mut [u8]) -> io::Result<Run> {
    let stack = run_stack(answer.len());
    // SAFETY: the thread has the stack that is needed.
    on_a_thread(stack, move || unsafe { run_here(sheet, budget, table, work, answer) })
}

/// Runs a sheet for as many proofs as are asked for, on a thread of its own. `work` needs `WORK_NUMBERS` for each unit of
/// budget.
pub fn ask(sheet: &[u8], request: Request, table: &mut [u32], work: &mut [u32], answer: &mut [u8]) -> io::Result<Run> {
    let stack = run_stack(answer.len());
    // SAFETY: the thread has the stack that is needed.
    on_a_thread(stack, move || unsafe { ask_here(sheet, request, table, work, answer) })
}

/// The proofs of an answer text in order, each from its line `R proved` up to the next R line: a text for `check`.
pub fn proofs_of(text: &[u8]) -> impl Iterator<Item = &[u8]> {
    let mut rest = text;
    let parts = iter::from_fn(move || {
        let next = rest.windows(2).position(|bytes| bytes == b"\nR");
        let (part, after) = rest.split_at(next.map_or(rest.len(), |lf| lf + 1));
        rest = after;
        (!part.is_empty()).then_some(part)
    });
    parts.filter(|part| part.starts_with(b"R\tproved\t"))
}

/// Checks an answer text against a sheet, on a thread of its own. `work` needs `WORK_NUMBERS` for each LF of the text.
pub fn check(sheet: &[u8], text: &[u8], table: &mut [u32], work: &mut [u32]) -> io::Result<Verdict> {
    // SAFETY: the thread has the stack that is needed.
    on_a_thread(CHECK_STACK, move || unsafe { check_here(sheet, text, table, work) })
}

/// `run` without a thread.
///
/// # Safety
///
/// At least `run_stack(answer.len())` bytes of stack are left.
pub unsafe fn run_here(sheet: &[u8], budget: u32, table: &mut [u32], work: &mut [u32], answer: &mut [u8]) -> Run {
    let mut result = [0; 5];
    let code = raw::run(sheet, budget, table, work, answer, &mut result);
    let [_, units, length, number, line] = result;
    handed_back(code, [units, length, number, line, u32::from(code == PROVED)])
}

/// `ask` without a thread.
///
/// # Safety
///
/// At least `run_stack(answer.len())` bytes of stack are left.
pub unsafe fn ask_here(sheet: &[u8], request: Request, table: &mut [u32], work: &mut [u32], answer: &mut [u8]) -> Run {
    let Request { budget, proofs } = request;
    let mut result = [0; 6];
    let code = raw::ask(sheet, &[budget, proofs], table, work, answer, &mut result);
    let [_, numbers @ ..] = result;
    handed_back(code, numbers)
}

/// The code of an outcome in include/rules.h.
const PROVED: u32 = 0;

/// A run from its code and the numbers after it.
fn handed_back(code: u32, [units, length, number, line, proofs]: [u32; 5]) -> Run {
    Run {
        outcome: match code {
            PROVED => Outcome::Proved,
            1 => Outcome::No,
            2 => Outcome::Spent,
            _ => Outcome::Refused(Refusal { number, line }),
        },
        units,
        proofs,
        length: length as usize,
    }
}

/// `check` without a thread.
///
/// # Safety
///
/// At least `CHECK_STACK` bytes of stack are left.
pub unsafe fn check_here(sheet: &[u8], text: &[u8], table: &mut [u32], work: &mut [u32]) -> Verdict {
    let mut result = [0; 3];
    let code = raw::check(sheet, text, table, work, &mut result);
    let [_, line, number] = result;
    match code {
        0 => Verdict::Valid,
        1 => Verdict::NotValid(line),
        _ => Verdict::Refused(Refusal { number, line }),
    }
}

/// What a call gives on a thread that has so much stack for it.
fn on_a_thread<T: Send>(stack: usize, call: impl FnOnce() -> T + Send) -> io::Result<T> {
    thread::scope(|scope| {
        let called = thread::Builder::new()
            .stack_size(THREAD_STACK + stack)
            .spawn_scoped(scope, call)?;
        Ok(called.join().expect("the library does not panic"))
    })
}
