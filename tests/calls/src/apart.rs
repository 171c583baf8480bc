//! Whether a program is told from the independent implementation: by the generated calls, by the stored cases and
//! texts, and by the proofs that it writes.
//!
//! It is told apart by the first call after which anything differs: the code returned, the numbers handed back, the
//! text, or a number of any buffer.

use std::env;

use reference::api::work_demanded;
use reference::limits::{TABLE_NUMBERS, TEXT_BYTES, WORK_NUMBERS};
use reference::{answer, check, interface, Outcome, Verdict};

use crate::generate::{asks, checks, runs, sheet, AskCall, CheckCall, RunCall};
use crate::perform::{After, Ask, Check, Run};
use crate::stored::{cases, stored_checks, stored_ways, StoredCheck, StoredWays};

/// The units with which a sheet is tried outside the generated calls.
const BUDGET: u32 = 2_000;

/// The generated sheets for which false proofs are looked for, beside the stored ones.
const SHEETS: u64 = 3_000;

/// The first seed below `seeds` whose runs, for one proof or for several, tell the engine apart.
pub fn by_runs(run: &impl Run, ask: &impl Ask, seeds: u64) -> Option<u64> {
    let differs = |call: &RunCall| call.perform(run) != call.perform(interface::run);
    let asked_differs = |call: &AskCall| call.perform(ask) != call.perform(interface::ask);
    (0..seeds).find(|&seed| runs(seed).iter().any(differs) || asks(seed).iter().any(asked_differs))
}

/// The first seed below `seeds` whose checks tell the checker apart.
pub fn by_checks(check: &impl Check, seeds: u64) -> Option<u64> {
    (0..seeds).find(|&seed| {
        let mut calls = checks(seed).into_iter();
        calls.any(|call| call.perform(check) != call.perform(interface::check))
    })
}

/// The first stored case that tells the engine apart: with units enough, with those it needs, or with one fewer; or as
/// it is stored, for several proofs.
pub fn by_cases(run: &impl Run, ask: &impl Ask) -> Option<String> {
    let differs = |sheet: Vec<u8>| {
        let needed = answer(&sheet, BUDGET, TEXT_BYTES).1;
        let budgets = [BUDGET, needed, needed.saturating_sub(1)];
        let mut budgets = budgets.into_iter().filter(|&budget| budget > 0);
        budgets.any(|budget| tried(run, &sheet, budget) != tried(&interface::run, &sheet, budget))
    };
    let mut cases = cases().into_iter();
    let told = cases.find_map(|(name, sheet)| differs(sheet).then_some(name));
    told.or_else(|| by_ways(ask))
}

fn by_ways(ask: &impl Ask) -> Option<String> {
    let differs = |case: &StoredWays| {
        let call = AskCall {
            run: RunCall {
                sheet: case.sheet.clone(),
                budget: case.budget,
                table: case.table,
                work: case.work,
                answer: case.answer,
                result: 6,
                dirt: 0,
            },
            proofs: case.proofs,
            request: 2,
        };
        call.perform(ask) != call.perform(interface::ask)
    };
    stored_ways().into_iter().find(differs).map(|case| case.name)
}

/// The first stored text that tells the checker apart.
pub fn by_texts(check: &impl Check) -> Option<String> {
    let differs = |case: &StoredCheck| {
        let call = CheckCall {
            sheet: case.sheet.clone(),
            text: case.text.clone(),
            table: TABLE_NUMBERS,
            work: work_demanded(&case.text),
            result: 3,
            dirt: 0,
        };
        call.perform(check) != call.perform(interface::check)
    };
    stored_checks().into_iter().find(differs).map(|case| case.name)
}

/// How many proofs the engine writes for sheets that are told no. Such a sheet has no derivation, so the checker must
/// find every one of them not valid.
pub fn false_proofs(run: &impl Run) -> usize {
    let stored = cases().into_iter().map(|(_, sheet)| sheet);
    let sheets = stored.chain((0..SHEETS).map(|seed| sheet(seed).1));
    let mut count = 0;
    for sheet in sheets.filter(|sheet| answer(sheet, BUDGET, TEXT_BYTES).0 == Outcome::No) {
        let after = tried(run, &sheet, BUDGET);
        if after.code == PROVED {
            count += 1;
            let text = &after.answer[..after.result[2] as usize];
            assert!(matches!(check(&sheet, text), Verdict::Invalid(_)));
        }
    }
    count
}

/// The code of include/rules.h.
const PROVED: u32 = 0;

fn tried(run: &impl Run, sheet: &[u8], budget: u32) -> After {
    let call = RunCall {
        sheet: sheet.to_vec(),
        budget,
        table: TABLE_NUMBERS,
        work: WORK_NUMBERS * budget as usize,
        answer: TEXT_BYTES,
        result: 5,
        dirt: 0,
    };
    call.perform(run)
}

/// Prints what each way of telling apart comes to: the arguments are the number of seeds and the ways.
pub fn report(run: impl Run, ask: impl Ask, check: impl Check) {
    let mut arguments = env::args().skip(1);
    let seeds = arguments.next().and_then(|seeds| seeds.parse().ok());
    let seeds = seeds.expect("the number of seeds");
    for way in arguments {
        let seed = |seed: u64| seed.to_string();
        let told = match way.as_str() {
            "runs" => by_runs(&run, &ask, seeds).map(seed),
            "checks" => by_checks(&check, seeds).map(seed),
            "cases" => by_cases(&run, &ask),
            "texts" => by_texts(&check),
            "proofs" => Some(false_proofs(&run))
                .filter(|&count| count > 0)
                .map(|count| count.to_string()),
            _ => panic!("{way} is no way"),
        };
        println!("{way}\t{}", told.unwrap_or_default());
    }
}
