//! The run of the engine and of the checker, with refusals 1 to 13 in checking order and the lent buffers.

use crate::checker;
use crate::field;
use crate::limits::{
    LARGEST_BUDGET, LARGEST_PROOFS, RUNNER_ANSWER, RUNNER_BUDGET, SHEET_BYTES, TABLE_NUMBERS, TEXT_BYTES, WORK_NUMBERS,
};
use crate::refusal::Refusal;
use crate::search::{search, End};
use crate::sheet;
use crate::text::answer_text;

#[derive(Clone, Copy, PartialEq, Eq, Debug)]
pub enum Outcome {
    Proved,
    No,
    Spent,
    Refused(Refusal),
}

/// What the caller asks for: the units, and the most proofs (W-202).
#[derive(Clone, Copy, PartialEq, Eq, Debug)]
pub struct Request {
    pub budget: u32,
    pub proofs: u32,
}

impl Request {
    /// Document 01 itself: one proof.
    pub fn of_one(budget: u32) -> Request {
        Request { budget, proofs: 1 }
    }
}

/// What the run hands back: outcome and units of the last R line, the number of proofs, the text's length. With a
/// refusal all numbers are 0.
#[derive(Clone, Copy, PartialEq, Eq, Debug)]
pub struct Run {
    pub outcome: Outcome,
    pub units: u32,
    pub proofs: u32,
    pub length: u32,
}

/// The same with the text itself, which is empty with a refusal.
#[derive(Clone, PartialEq, Eq, Debug)]
pub struct Answer {
    pub outcome: Outcome,
    pub units: u32,
    pub proofs: u32,
    pub text: Vec<u8>,
}

#[derive(Clone, Copy, PartialEq, Eq, Debug)]
pub enum Verdict {
    Valid,
    /// The first line of the text that breaks a rule or form.
    Invalid(u32),
    Refused(Refusal),
}

/// The numbers that the table and the work buffer hold.
struct Lent {
    table: usize,
    work: usize,
}

/// Buffers with which refusals 2 and 5 do not arise.
const ENOUGH: Lent = Lent {
    table: usize::MAX,
    work: usize::MAX,
};

/// The engine for one proof.
pub fn engine_run(sheet: &[u8], budget: u32, table: &mut [u32], work: &mut [u32], answer: &mut [u8]) -> Run {
    engine_ask(sheet, Request::of_one(budget), table, work, answer)
}

/// The engine: sheet, request and lent buffers to an answer.
pub fn engine_ask(sheet: &[u8], ask: Request, table: &mut [u32], work: &mut [u32], answer: &mut [u8]) -> Run {
    let lent = Lent {
        table: table.len(),
        work: work.len(),
    };
    if let Err(refusal) = turn_back_run(sheet, ask, lent) {
        return Run {
            outcome: Outcome::Refused(refusal),
            units: 0,
            proofs: 0,
            length: 0,
        };
    }
    clear(table, work, WORK_NUMBERS * ask.budget as usize);
    let Answer {
        outcome,
        units,
        proofs,
        text,
    } = answers(sheet, ask, answer.len());
    answer[..text.len()].copy_from_slice(&text);
    Run {
        outcome,
        units,
        proofs,
        length: text.len() as u32,
    }
}

/// The engine for one proof without buffers: outcome, units and text.
pub fn answer(sheet: &[u8], budget: u32, answer_bytes: usize) -> (Outcome, u32, Vec<u8>) {
    let answer = answers(sheet, Request::of_one(budget), answer_bytes);
    (answer.outcome, answer.units, answer.text)
}

/// The engine without buffers. Refusals 2 and 5 do not arise.
pub fn answers(sheet: &[u8], ask: Request, answer_bytes: usize) -> Answer {
    answered(sheet, ask, answer_bytes).unwrap_or_else(|refusal| Answer {
        outcome: Outcome::Refused(refusal),
        units: 0,
        proofs: 0,
        text: Vec::new(),
    })
}

fn answered(sheet: &[u8], ask: Request, answer_bytes: usize) -> Result<Answer, Refusal> {
    turn_back_run(sheet, ask, ENOUGH)?;
    let sheet = sheet::read(sheet)?;
    let ended = search(&sheet, ask.budget, ask.proofs as usize);
    let text = answer_text(&sheet, &ended, answer_bytes.min(TEXT_BYTES)).map_err(|_| Refusal::new(12, 0))?;
    Ok(Answer {
        outcome: match ended.end {
            End::Proved => Outcome::Proved,
            End::No => Outcome::No,
            End::Spent => Outcome::Spent,
        },
        units: ended.units,
        proofs: ended.proofs.len() as u32,
        text,
    })
}

/// The checker: sheet, answer text and lent buffers to a verdict.
pub fn check_text(sheet: &[u8], text: &[u8], table: &mut [u32], work: &mut [u32]) -> Verdict {
    let lent = Lent {
        table: table.len(),
        work: work.len(),
    };
    if let Err(refusal) = turn_back_check(sheet, text, lent) {
        return Verdict::Refused(refusal);
    }
    clear(table, work, work_demanded(text));
    check(sheet, text)
}

/// The checker without buffers. Refusals 2 and 5 do not arise.
pub fn check(sheet: &[u8], text: &[u8]) -> Verdict {
    checked(sheet, text).unwrap_or_else(Verdict::Refused)
}

fn checked(sheet: &[u8], text: &[u8]) -> Result<Verdict, Refusal> {
    turn_back_check(sheet, text, ENOUGH)?;
    let sheet = sheet::read(sheet)?;
    Ok(match checker::check(&sheet, text) {
        Ok(()) => Verdict::Valid,
        Err(line) => Verdict::Invalid(line),
    })
}

/// Refusals 1, 2, 3, 13 and 5 of the engine. W-202: "13 if the number is 0 or over 64, right after 3".
fn turn_back_run(sheet: &[u8], ask: Request, lent: Lent) -> Result<(), Refusal> {
    let Request { budget, proofs } = ask;
    let own = if budget == 0 || budget > LARGEST_BUDGET {
        Some(3)
    } else if proofs == 0 || proofs > LARGEST_PROOFS {
        Some(13)
    } else {
        None
    };
    turn_back(sheet, lent, own, WORK_NUMBERS * budget as usize)
}

/// Refusals 1, 2, 4 and 5 of the checker.
fn turn_back_check(sheet: &[u8], text: &[u8], lent: Lent) -> Result<(), Refusal> {
    let text_refused = text.len() > TEXT_BYTES;
    turn_back(sheet, lent, text_refused.then_some(4), work_demanded(text))
}

/// Refusals 1, 2 and 5, and between them what is the program's own: 3 or 13 of the engine, 4 of the checker.
fn turn_back(sheet: &[u8], lent: Lent, own: Option<u32>, work_demanded: usize) -> Result<(), Refusal> {
    let number = if sheet.len() > SHEET_BYTES {
        1
    } else if lent.table < TABLE_NUMBERS {
        2
    } else if let Some(own) = own {
        own
    } else if lent.work < work_demanded {
        5
    } else {
        return Ok(());
    };
    Err(Refusal::new(number, 0))
}

/// The numbers of work buffer that refusal 5 demands for a text.
pub fn work_demanded(text: &[u8]) -> usize {
    WORK_NUMBERS * text.iter().filter(|&&byte| byte == b'\n').count()
}

/// "the first 8,192 numbers of the table and the demanded part of the work buffer are zero at the end"
fn clear(table: &mut [u32], work: &mut [u32], demanded: usize) {
    table[..TABLE_NUMBERS].fill(0);
    work[..demanded].fill(0);
}

/// The sheet runner: what it prints for a sheet.
pub fn runner(sheet: &[u8]) -> Vec<u8> {
    runner_for(sheet, b"1")
}

/// The sheet runner with a number of proofs as its argument, in the form of document 01.
pub fn runner_for(sheet: &[u8], proofs: &[u8]) -> Vec<u8> {
    let ask = Request {
        budget: RUNNER_BUDGET,
        // What is no number is refused as 0 is.
        proofs: field::number(proofs).unwrap_or(0),
    };
    let answer = answers(sheet, ask, RUNNER_ANSWER);
    match answer.outcome {
        Outcome::Refused(refusal) => format!("X\t{}\t{}\n", refusal.number, refusal.line).into_bytes(),
        _ => answer.text,
    }
}
