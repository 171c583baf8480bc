//! A call of the library and of the independent implementation, compared in everything that can be seen afterwards.

use calls::generate::{AskCall, CheckCall, RunCall};
use calls::perform::After;
use reference::api::work_demanded;
use reference::interface;
use rules::proofs_of;

/// The library on the caller's stack. A test's thread has 8 MB (.cargo/config.toml), more than any call needs;
/// tests/depth.rs gives it less.
pub fn library_run(
    sheet: &[u8],
    budget: u32,
    table: &mut [u32],
    work: &mut [u32],
    answer: &mut [u8],
    result: &mut [u32],
) -> u32 {
    unsafe { rules::raw::run(sheet, budget, table, work, answer, result) }
}

pub fn library_ask(
    sheet: &[u8],
    request: &[u32],
    table: &mut [u32],
    work: &mut [u32],
    answer: &mut [u8],
    result: &mut [u32],
) -> u32 {
    unsafe { rules::raw::ask(sheet, request, table, work, answer, result) }
}

pub fn library_check(sheet: &[u8], text: &[u8], table: &mut [u32], work: &mut [u32], result: &mut [u32]) -> u32 {
    unsafe { rules::raw::check(sheet, text, table, work, result) }
}

/// What the library leaves, if it is what the independent implementation leaves; otherwise what differs.
pub fn compare_run(call: &RunCall) -> Result<After, String> {
    compare_run_by(library_run, call)
}

pub fn compare_ask(call: &AskCall) -> Result<After, String> {
    compare_ask_by(library_ask, call)
}

/// How many proofs a text has, if library and independent implementation find each of them valid by itself; otherwise
/// what is wrong.
pub fn judged_proofs(sheet: &[u8], text: &[u8]) -> Result<u32, String> {
    let mut count = 0;
    for proof in proofs_of(text) {
        count += 1;
        let call = CheckCall {
            sheet: sheet.to_vec(),
            text: proof.to_vec(),
            table: 8_192,
            work: work_demanded(proof),
            result: 3,
            dirt: 1,
        };
        let after = compare_check(&call)?;
        if after.code != 0 {
            return Err(format!("proof {count} is not valid: {:?}", after.result));
        }
    }
    Ok(count)
}

pub fn compare_check(call: &CheckCall) -> Result<After, String> {
    compare_check_by(library_check, call)
}

/// The same of a function that calls the library.
pub fn compare_run_by(run: impl Run, call: &RunCall) -> Result<After, String> {
    agreed(call.perform(run), call.perform(interface::run))
}

pub fn compare_ask_by(ask: impl Ask, call: &AskCall) -> Result<After, String> {
    agreed(call.perform(ask), call.perform(interface::ask))
}

pub fn compare_check_by(check: impl Check, call: &CheckCall) -> Result<After, String> {
    agreed(call.perform(check), call.perform(interface::check))
}

fn agreed(got: After, wanted: After) -> Result<After, String> {
    match got.difference(&wanted) {
        None => Ok(got),
        Some(difference) => Err(difference),
    }
}

/// The outcome of a run in words, from the numbers that the reference hands back for the same call.
pub fn run_name(call: &RunCall, after: &After) -> String {
    outcome_name(after.code, || {
        let whole = RunCall {
            result: 5,
            ..call.clone()
        };
        whole.perform(interface::run).result[3]
    })
}

/// The same of a run for several proofs.
pub fn ask_name(call: &AskCall, after: &After) -> String {
    let name = outcome_name(after.code, || {
        let mut whole = call.clone();
        whole.run.result = 6;
        whole.perform(interface::ask).result[3]
    });
    if matches!(after.code, 1 | 2) && after.answer.starts_with(b"R\tproved") {
        return format!("{name} after proofs");
    }
    name
}

fn outcome_name(code: u32, refusal: impl FnOnce() -> u32) -> String {
    match code {
        0 => "proved".to_string(),
        1 => "no".to_string(),
        2 => "spent".to_string(),
        _ => format!("refused {:2}", refusal()),
    }
}

/// The verdict of a check in words.
pub fn check_name(call: &CheckCall, after: &After) -> String {
    match after.code {
        0 => "valid".to_string(),
        1 => "not valid".to_string(),
        _ => {
            let whole = CheckCall {
                result: 3,
                ..call.clone()
            };
            let numbers = whole.perform(interface::check).result;
            format!("refused {:2}", numbers[2])
        }
    }
}

/// A call in words, with its sheet as far as it is short.
pub fn describe_run(call: &RunCall) -> String {
    format!(
        "budget {}, table {}, work {}, answer {}, result {}, sheet of {} bytes:\n{}",
        call.budget,
        call.table,
        call.work,
        call.answer,
        call.result,
        call.sheet.len(),
        shown(&call.sheet)
    )
}

pub fn describe_ask(call: &AskCall) -> String {
    format!("request {:?}, {}", call.request(), describe_run(&call.run))
}

pub fn describe_check(call: &CheckCall) -> String {
    format!(
        "table {}, work {}, result {}, sheet of {} bytes:\n{}\ntext of {} bytes:\n{}",
        call.table,
        call.work,
        call.result,
        call.sheet.len(),
        shown(&call.sheet),
        call.text.len(),
        shown(&call.text)
    )
}

fn shown(bytes: &[u8]) -> String {
    let most = 3_000;
    let cut = if bytes.len() > most { "..." } else { "" };
    format!("{}{cut}", bytes[..bytes.len().min(most)].escape_ascii()).replace("\\n", "\n")
}

pub use calls::perform::{Ask, Check, Run};
