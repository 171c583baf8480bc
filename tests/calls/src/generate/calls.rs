//! The calls of engine and checker that are tried for a seed: sheet or text, budget, number of proofs, lengths of the
//! lent buffers, and what these hold before.

use reference::api::work_demanded;
use reference::limits::{LARGEST_BUDGET, LARGEST_PROOFS, TABLE_NUMBERS, TEXT_BYTES, WORK_NUMBERS};
use reference::{answer, answers, Outcome, Request};

use super::special::special_text;
use super::texts::changed_text;
use super::{damaged, family, in_other_order, sheet, Family, FAMILIES};
use crate::random::Random;

/// A call of the engine. Buffers are given by their lengths.
#[derive(Clone, Debug)]
pub struct RunCall {
    pub sheet: Vec<u8>,
    pub budget: u32,
    pub table: usize,
    pub work: usize,
    pub answer: usize,
    pub result: usize,
    /// Chooses what the buffers hold before.
    pub dirt: u64,
}

/// A call of the engine for several proofs (W-202).
#[derive(Clone, Debug)]
pub struct AskCall {
    pub run: RunCall,
    pub proofs: u32,
    /// How long the request is: budget, number of proofs, and then numbers that are not read.
    pub request: usize,
}

impl AskCall {
    pub fn request(&self) -> Vec<u32> {
        let mut request = vec![self.run.budget, self.proofs];
        request.resize(self.request, self.run.dirt as u32);
        request
    }
}

/// A call of the checker.
#[derive(Clone, Debug)]
pub struct CheckCall {
    pub sheet: Vec<u8>,
    pub text: Vec<u8>,
    pub table: usize,
    pub work: usize,
    pub result: usize,
    pub dirt: u64,
}

/// The calls tried for the sheet of a seed: one that is answered, one at an edge, now and then one with the largest
/// budget.
pub fn runs(seed: u64) -> Vec<RunCall> {
    let (family, sheet) = sheet(seed);
    let random = &mut Random::new(!seed);
    // Most budgets are small, to have all outcomes in little time. Sheets at a limit end by themselves.
    let tried = match random.below(1_000) {
        0..=1 => 20_000,
        2..=40 => 2_000,
        _ if family == Family::Limits => 20_000,
        _ => 60 + random.below(300) as u32,
    };
    let mut calls = runs_of(&sheet, tried, random);
    if random.one_in(1_500) {
        calls.push(RunCall {
            budget: LARGEST_BUDGET,
            work: WORK_NUMBERS * LARGEST_BUDGET as usize,
            answer: TEXT_BYTES + random.below(3),
            ..calls[1].clone()
        });
    }
    calls
}

/// Two calls for a sheet, from what it comes to within a budget: one at an edge, one that is answered.
pub fn runs_of(sheet: &[u8], tried: u32, random: &mut Random) -> Vec<RunCall> {
    let (outcome, units, text) = answer(sheet, tried, TEXT_BYTES);
    let (needed, length) = needs(outcome, units, &text, tried);
    let answered = answered_call(sheet, needed, length, random);
    vec![edge_call(&answered, needed, length, random), answered]
}

/// The units and bytes that an answer needs, from what was told within a budget.
fn needs(outcome: Outcome, units: u32, text: &[u8], tried: u32) -> (u32, usize) {
    match outcome {
        Outcome::Proved | Outcome::No => (units, text.len()),
        Outcome::Spent => (tried, text.len()),
        // The walk of a text that is too long may need them all; the others are refused before it.
        Outcome::Refused(refusal) if refusal.number == 12 => (tried, TEXT_BYTES),
        Outcome::Refused(_) => (tried.min(50), TEXT_BYTES),
    }
}

/// The calls for several proofs tried for the sheet of a seed: for one sheet in five, and for each that has many ways.
pub fn asks(seed: u64) -> Vec<AskCall> {
    let random = &mut Random::new(seed ^ 0x202);
    if family(seed) != Family::Alternatives && !random.one_in(5) {
        return Vec::new();
    }
    let (_, sheet) = sheet(seed);
    let tried = match random.below(100) {
        0 => 2_000,
        _ => 40 + random.below(300) as u32,
    };
    asks_of(&sheet, tried, random)
}

/// Two such calls for a sheet, from what it comes to within a budget: one at an edge, one that is answered.
pub fn asks_of(sheet: &[u8], tried: u32, random: &mut Random) -> Vec<AskCall> {
    let proofs = match random.below(12) {
        0 => LARGEST_PROOFS,
        1 => 6 + random.below(58) as u32,
        _ => 1 + random.below(5) as u32,
    };
    let ask = Request { budget: tried, proofs };
    let told = answers(sheet, ask, TEXT_BYTES);
    let (needed, length) = needs(told.outcome, told.units, &told.text, tried);
    let mut run = answered_call(sheet, needed, length, random);
    if !random.one_in(3) {
        // All numbers, so that the text and its proofs can be found.
        run.result = 6 + random.below(3);
    }
    if length == TEXT_BYTES && random.one_in(2) {
        // A text over 65,535 bytes is refused whatever the answer buffer holds.
        run.answer = 2 * TEXT_BYTES;
    }
    let answered = AskCall {
        run,
        proofs,
        request: 2 + slack(random, 3),
    };
    let mut edge = AskCall {
        run: RunCall {
            dirt: random.bits(),
            ..answered.run.clone()
        },
        ..answered.clone()
    };
    let ends = ends_of_proofs(&told.text);
    for _ in 0..if random.one_in(4) { 2 + random.below(2) } else { 1 } {
        match random.below(10) {
            // Spent before a proof, at one or after it.
            0..=2 => {
                let (from, to) = between(&ends, random, (needed, length));
                edge.run.budget = (from.0 + random.below((to.0 - from.0) as usize + 1) as u32).max(1);
            }
            // Room for some of the proofs, but not for all.
            3..=5 => {
                let (from, to) = between(&ends, random, (needed, length));
                edge.run.answer = from.1 + random.below(to.1 - from.1 + 1);
            }
            // No number of proofs, and now and then something else that is refused before or after.
            6 => {
                const NONE: [u32; 8] = [0, 0, 65, 65, 256, 65_537, 1 << 31, u32::MAX];
                edge.proofs = *random.pick(&NONE);
                match random.below(8) {
                    0 => edge.run.budget = *random.pick(&[0, LARGEST_BUDGET + 1]),
                    1 => edge.run.table = TABLE_NUMBERS - 1,
                    2 => edge.run.work = (WORK_NUMBERS * edge.run.budget.min(2_000) as usize).saturating_sub(1),
                    3 => edge.run.sheet = damaged(&edge.run.sheet, random),
                    _ => {}
                }
            }
            // As many as there are, one fewer or one more.
            7 => edge.proofs = (told.proofs + random.below(3) as u32).saturating_sub(1),
            8 => edge.request = random.below(3),
            _ => edge.run = edge_call(&edge.run, needed, length, random),
        }
    }
    vec![edge, answered]
}

/// The units and the bytes at the end of each proof of a text.
fn ends_of_proofs(text: &[u8]) -> Vec<(u32, usize)> {
    let mut ends = Vec::new();
    let mut length = 0;
    for line in text.split_inclusive(|&byte| byte == b'\n') {
        length += line.len();
        if let Some(units) = line.strip_prefix(b"R\tproved\t") {
            let units = std::str::from_utf8(units).expect("a text is ASCII");
            ends.push((units.trim_end().parse().expect("units"), length));
        } else if let Some(end) = ends.last_mut().filter(|_| !line.starts_with(b"R")) {
            end.1 = length;
        }
    }
    ends
}

/// Two neighbouring ends of proofs, the start and the end of the walk included.
fn between(ends: &[(u32, usize)], random: &mut Random, last: (u32, usize)) -> ((u32, usize), (u32, usize)) {
    let place = random.below(ends.len() + 1);
    let from = if place == 0 { (0, 0) } else { ends[place - 1] };
    (from, ends.get(place).copied().unwrap_or(last))
}

/// A little more than nothing, half of the time.
fn slack(random: &mut Random, most: usize) -> usize {
    if random.one_in(2) {
        random.below(most)
    } else {
        0
    }
}

/// A call with the units that are needed or some more, and buffers that are long enough.
fn answered_call(sheet: &[u8], needed: u32, length: usize, random: &mut Random) -> RunCall {
    let budget = needed + slack(random, 20) as u32;
    RunCall {
        sheet: sheet.to_vec(),
        budget,
        table: TABLE_NUMBERS + slack(random, 40),
        work: WORK_NUMBERS * budget as usize + slack(random, 100),
        answer: length + slack(random, 100),
        result: random.below(8),
        dirt: random.bits(),
    }
}

/// The same call at an edge: fewer units (and buffers longer than they need), a buffer too short, a budget that is
/// none, or several of these.
fn edge_call(call: &RunCall, needed: u32, length: usize, random: &mut Random) -> RunCall {
    let mut call = RunCall {
        dirt: random.bits(),
        ..call.clone()
    };
    let count = if random.one_in(6) { 2 + random.below(2) } else { 1 };
    for _ in 0..count {
        match random.below(12) {
            0..=2 => call.budget = needed.saturating_sub(1).max(1),
            3 => call.budget = 1 + random.below(needed.max(1) as usize) as u32,
            4..=6 => call.answer = length.saturating_sub(1 + slack(random, 20)),
            7 => call.table = *random.pick(&[TABLE_NUMBERS - 1, TABLE_NUMBERS - 1, 0, 1]),
            8 => {
                let demanded = WORK_NUMBERS * call.budget.min(2_000) as usize;
                call.work = *random.pick(&[demanded.saturating_sub(1), 0, 63]);
            }
            9 => call.budget = *random.pick(&[0, LARGEST_BUDGET + 1, u32::MAX, 1 << 26, (1 << 26) + 1]),
            10 => call.result = random.below(9),
            // Two ways in which a sheet is refused at once: it is damaged, and it is long.
            _ => {
                call.sheet = damaged(&call.sheet, random);
                if random.one_in(4) {
                    call.sheet.resize(16_385, b'x');
                }
            }
        }
    }
    call
}

/// The calls of the checker tried for a seed: the sheet's proof, that text changed, another sheet's text, where the goal or
/// a body supposes something the proof in the other order, and where there are many ways a text of several.
pub fn checks(seed: u64) -> Vec<CheckCall> {
    let random = &mut Random::new(seed ^ 0x7E47);
    if random.one_in(12) {
        let (sheet, text) = special_text(random);
        let changed = changed_text(&sheet, &text, random);
        return vec![check_call(&sheet, text, random), check_call(&sheet, changed, random)];
    }
    let (_, sheet) = sheet(seed);
    let (outcome, _, text) = answer(&sheet, 1_000, TEXT_BYTES);
    let mut texts = vec![other_text(seed, random)];
    match outcome {
        Outcome::Proved => {
            for _ in 0..3 {
                texts.push(changed_text(&sheet, &text, random));
            }
            let twice = changed_text(&sheet, &texts[1], random);
            if family(seed) == Family::Alternatives {
                texts.extend(several_proofs(&sheet));
            }
            if text.windows(8).any(|bytes| bytes == b"D\tassume") {
                texts.push(answer(&in_other_order(&sheet), 1_000, TEXT_BYTES).2);
            }
            texts.extend([twice, text]);
        }
        Outcome::No | Outcome::Spent => texts.push(text),
        Outcome::Refused(_) => texts.push(b"R\tproved\t1\nD\ttrue\n".to_vec()),
    }
    texts.into_iter().map(|text| check_call(&sheet, text, random)).collect()
}

/// The text of up to three proofs, which is surplus from the second R line on, and the last part of it by itself (W-202).
fn several_proofs(sheet: &[u8]) -> Vec<Vec<u8>> {
    let ask = Request {
        budget: 1_000,
        proofs: 3,
    };
    let text = answers(sheet, ask, TEXT_BYTES).text;
    let last = text.windows(2).rposition(|bytes| bytes == b"\nR");
    let part = last.map(|lf| text[lf + 1..].to_vec());
    [Some(text), part].into_iter().flatten().collect()
}

/// The text of another sheet of the same family.
fn other_text(seed: u64, random: &mut Random) -> Vec<u8> {
    let other = seed + (FAMILIES.len() * (1 + random.below(50))) as u64;
    let (_, sheet) = sheet(other);
    answer(&sheet, 300, TEXT_BYTES).2
}

/// Buffers that are long enough, but now and then one too short or both.
fn check_call(sheet: &[u8], text: Vec<u8>, random: &mut Random) -> CheckCall {
    let demanded = work_demanded(&text);
    let mut call = CheckCall {
        sheet: sheet.to_vec(),
        table: TABLE_NUMBERS + slack(random, 40),
        work: demanded + slack(random, 100),
        result: random.below(6),
        dirt: random.bits(),
        text,
    };
    if random.one_in(25) {
        call.table = *random.pick(&[TABLE_NUMBERS - 1, TABLE_NUMBERS - 1, 0]);
    }
    if random.one_in(25) {
        call.work = demanded.saturating_sub(1);
    }
    if random.one_in(200) {
        call.text.resize(TEXT_BYTES + random.below(3), b'\n');
    }
    if random.one_in(200) {
        call.sheet.resize(16_384 + random.below(3), b'\n');
    }
    call
}
