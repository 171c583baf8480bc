//! The functions of include/rules.h, with the numbers that they hand back.

use crate::api::{check_text, engine_ask, engine_run, Outcome, Request, Run, Verdict};

/// `rules_run`: five numbers.
pub fn run(
    sheet: &[u8],
    budget: u32,
    table: &mut [u32],
    work: &mut [u32],
    answer: &mut [u8],
    result: &mut [u32],
) -> u32 {
    let [told @ .., _] = numbers(engine_run(sheet, budget, table, work, answer));
    put(result, &told);
    told[0]
}

/// `rules_ask`: six numbers. The request is read as far as it is long: without a budget it is 0, without a number of
/// proofs 1.
pub fn ask(
    sheet: &[u8],
    request: &[u32],
    table: &mut [u32],
    work: &mut [u32],
    answer: &mut [u8],
    result: &mut [u32],
) -> u32 {
    let number = |place: usize, otherwise: u32| request.get(place).copied().unwrap_or(otherwise);
    let ask = Request {
        budget: number(0, 0),
        proofs: number(1, 1),
    };
    let told = numbers(engine_ask(sheet, ask, table, work, answer));
    put(result, &told);
    told[0]
}

/// Outcome, units, length, refusal, line, proofs.
fn numbers(run: Run) -> [u32; 6] {
    let (code, number, line) = match run.outcome {
        Outcome::Proved => (0, 0, 0),
        Outcome::No => (1, 0, 0),
        Outcome::Spent => (2, 0, 0),
        Outcome::Refused(refusal) => (3, refusal.number, refusal.line),
    };
    [code, run.units, run.length, number, line, run.proofs]
}

/// `rules_check`.
pub fn check(sheet: &[u8], text: &[u8], table: &mut [u32], work: &mut [u32], result: &mut [u32]) -> u32 {
    let (code, line, number) = match check_text(sheet, text, table, work) {
        Verdict::Valid => (0, 0, 0),
        Verdict::Invalid(line) => (1, line, 0),
        Verdict::Refused(refusal) => (3, refusal.line, refusal.number),
    };
    put(result, &[code, line, number]);
    code
}

/// The numbers, as far as the result is long; what is longer stays.
fn put(result: &mut [u32], numbers: &[u32]) {
    let length = result.len().min(numbers.len());
    result[..length].copy_from_slice(&numbers[..length]);
}
