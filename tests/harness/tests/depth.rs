//! The deepest terms there are, on stacks of exactly the size that include/rules.h states. A stack that is too small
//! ends the program.
//!
//! A term of the engine grows by at most some 1,000 levels for each variable, for a sheet has 1,024 nodes, and each
//! variable's term is written. So the deepest term that is written has some 6,100 levels: six links and a rest use up
//! the 65,535 bytes. Deeper ones are refused under 12, after the writer has gone down as far as the brackets can still
//! be closed, some 21,830 levels. A text from elsewhere can hold 21,836 levels, and 32,758 if no bracket is closed.

use std::thread;

use calls::generate::{AskCall, CheckCall, RunCall};
use calls::perform::After;
use harness::compare::{compare_ask_by, compare_check_by, compare_run_by, library_ask, library_check, library_run};
use harness::{sheets, texts};
use reference::api::work_demanded;
use reference::{answer, Outcome};
use rules::{run_stack, Verdict, CHECK_STACK, TABLE_NUMBERS, TEXT_BYTES};

/// The independent implementation calls itself too.
const REFERENCE_STACK: usize = 64 * 1024 * 1024;

fn on_a_stack<T: Send>(stack: usize, work: impl FnOnce() -> T + Send) -> T {
    thread::scope(|scope| {
        let thread = thread::Builder::new().stack_size(stack).spawn_scoped(scope, work);
        thread.expect("a thread").join().expect("no difference")
    })
}

/// The library on the stack that is stated for it, with nothing else on it.
fn run_within(
    sheet: &[u8],
    budget: u32,
    table: &mut [u32],
    work: &mut [u32],
    answer: &mut [u8],
    result: &mut [u32],
) -> u32 {
    on_a_stack(run_stack(answer.len()), || {
        library_run(sheet, budget, table, work, answer, result)
    })
}

fn ask_within(
    sheet: &[u8],
    request: &[u32],
    table: &mut [u32],
    work: &mut [u32],
    answer: &mut [u8],
    result: &mut [u32],
) -> u32 {
    on_a_stack(run_stack(answer.len()), || {
        library_ask(sheet, request, table, work, answer, result)
    })
}

fn check_within(sheet: &[u8], text: &[u8], table: &mut [u32], work: &mut [u32], result: &mut [u32]) -> u32 {
    on_a_stack(CHECK_STACK, || library_check(sheet, text, table, work, result))
}

fn call_into(sheet: Vec<u8>, answer: usize) -> RunCall {
    RunCall {
        sheet,
        budget: 50_000,
        table: TABLE_NUMBERS,
        work: 64 * 50_000,
        answer,
        result: 5,
        dirt: 2,
    }
}

fn run_into(sheet: Vec<u8>, answer: usize) -> After {
    let call = call_into(sheet, answer);
    on_a_stack(REFERENCE_STACK, || compare_run_by(run_within, &call).unwrap())
}

/// The same for so many proofs.
fn ask_into(sheet: Vec<u8>, answer: usize, proofs: u32) -> After {
    let call = AskCall {
        run: call_into(sheet, answer),
        proofs,
        request: 2,
    };
    on_a_stack(REFERENCE_STACK, || compare_ask_by(ask_within, &call).unwrap())
}

fn run(sheet: Vec<u8>) -> After {
    run_into(sheet, TEXT_BYTES)
}

fn check(sheet: Vec<u8>, text: Vec<u8>) -> After {
    let call = CheckCall {
        sheet,
        table: TABLE_NUMBERS,
        work: work_demanded(&text),
        text,
        result: 3,
        dirt: 2,
    };
    on_a_stack(REFERENCE_STACK, || compare_check_by(check_within, &call).unwrap())
}

/// The depth of the brackets in a text.
fn depth(text: &[u8]) -> usize {
    let (mut open, mut deepest) = (0usize, 0);
    for byte in text {
        match byte {
            b'(' => open += 1,
            b')' => open -= 1,
            _ => {}
        }
        deepest = deepest.max(open);
    }
    deepest
}

/// The highest tower that a sheet has nodes for.
const HEIGHT: usize = 1_002;

/// The deepest term written: one level more in the rest, which is written seven times, does not fit.
#[test]
fn the_writer_at_its_deepest() {
    let sheet = |rest: usize| sheets::deep_term(HEIGHT, 6, rest);
    let fits = |rest: &usize| answer(&sheet(*rest), 50_000, 65_535).0 == Outcome::Proved;
    let rest = (0..200).rev().find(fits).expect("some depth fits");
    assert!(rest < 199, "a deeper term fits too");
    assert_eq!(run(sheet(rest + 1)).result[3], 12);
    let after = run(sheet(rest));
    let text = after.answer[..after.result[2] as usize].to_vec();
    println!("written: {} levels in {} bytes", depth(&text), text.len());
    assert!(depth(&text) == 6 * HEIGHT + rest && text.len() > 65_500);
    assert_eq!(check(sheet(rest), text).code, 0, "the checker accepts it");
}

/// Nearly as deep as 50,000 units go: the first term alone passes 65,535 bytes. The stack shrinks with the answer buffer.
#[test]
fn the_writer_gives_up_at_its_deepest() {
    for links in [33, 48] {
        for answer in [TEXT_BYTES + 1, TEXT_BYTES, 40_000, 10_000, 4_096, 1_000, 100, 10, 0] {
            let after = run_into(sheets::deep_term(960, links, 0), answer);
            assert_eq!((after.result[0], after.result[3]), (3, 12));
        }
    }
}

/// W-202: the same stack for several proofs, with terms that are as deep in the first proof or in the second alone.
#[test]
fn several_proofs_at_their_deepest() {
    // Two nodes are for the goal.
    let height = HEIGHT - 2;
    let fitting = sheets::deep_term(height, 5, 0);
    for sheet in [fitting.clone(), sheets::doubled(&fitting, 1), sheets::true_or(&fitting)] {
        for proofs in [1, 2, 64] {
            ask_into(sheet.clone(), TEXT_BYTES, proofs);
        }
    }
    let after = ask_into(sheets::true_or(&fitting), TEXT_BYTES, 2);
    assert_eq!(after.code, 0, "two proofs");
    let text = &after.answer[..after.result[2] as usize];
    assert_eq!(depth(text), 5 * height);
    let deeper = sheets::true_or(&sheets::deep_term(960, 33, 0));
    for answer in [TEXT_BYTES + 1, TEXT_BYTES, 40_000, 4_096, 1_000, 100] {
        assert_eq!(ask_into(deeper.clone(), answer, 1).code, 0, "the first proof is short");
        assert_eq!(ask_into(deeper.clone(), answer, 2).result[3], 12);
    }
}

#[test]
fn the_checker_at_its_deepest() {
    let hard = texts::deepest_witness();
    println!("read: {} levels in {} bytes", depth(&hard.text), hard.text.len());
    assert!(depth(&hard.text) > 21_800 && hard.text.len() > 65_532);
    assert_eq!(check(hard.sheet, hard.text).code, 0);
}

#[test]
fn the_checker_gives_up_at_its_deepest() {
    let hard = texts::unclosed_witness();
    let opened = hard.text.iter().filter(|&&byte| byte == b'(').count();
    println!("tried: {opened} levels in {} bytes", hard.text.len());
    assert!(opened > 32_700);
    let after = check(hard.sheet, hard.text);
    assert_eq!(after.result, [1, 2, 0]);
}

#[test]
fn the_checker_compares_deep_terms() {
    let hard = texts::deep_comparison();
    assert_eq!(check(hard.sheet, hard.text).code, 0);
}

/// The safe calls make a thread with the stack that they need, however little the caller has.
#[test]
fn the_safe_calls_bring_their_stack() {
    let deep = sheets::deep_term(960, 48, 0);
    let hard = [
        texts::deepest_witness(),
        texts::unclosed_witness(),
        texts::deep_comparison(),
    ];
    let nested = texts::nested_witness(24_019);
    let (mut table, mut work) = (vec![7; TABLE_NUMBERS], vec![7; 64 * 50_000]);
    let mut answer = vec![7; TEXT_BYTES];
    on_a_stack(128 * 1024, || {
        let ended = rules::run(&deep, 50_000, &mut table, &mut work, &mut answer).expect("a thread");
        let refused = rules::Refusal { number: 12, line: 0 };
        assert_eq!(ended.outcome, rules::Outcome::Refused(refused));
        let mut verdict = |sheet: &[u8], text: &[u8]| {
            let work = &mut work[..work_demanded(text)];
            rules::check(sheet, text, &mut table, work).expect("a thread")
        };
        let verdicts = hard.each_ref().map(|hard| verdict(&hard.sheet, &hard.text));
        assert_eq!(verdicts, [Verdict::Valid, Verdict::NotValid(2), Verdict::Valid]);
        assert_eq!(verdict(&nested.sheet, &nested.text), Verdict::Valid);
    });
}
