//! Sheets made to exhaust stack, memory or time: each is answered on a small stack, within seconds.

mod common;

use std::thread;
use std::time::{Duration, Instant};

use common::{lines, refused};
use reference::{answer, check, Outcome, Verdict};

const STACK: usize = 512 * 1024;

/// The answer with 50,000 units, on a small stack.
fn answered(sheet: &str) -> (Outcome, u32, Vec<u8>) {
    let sheet = lines(sheet);
    let start = Instant::now();
    let told = thread::Builder::new()
        .stack_size(STACK)
        .spawn(move || {
            let told = answer(&sheet, 50_000, 65_535);
            if told.0 == Outcome::Proved {
                assert_eq!(check(&sheet, &told.2), Verdict::Valid);
            }
            told
        })
        .expect("a thread")
        .join()
        .expect("no crash");
    assert!(start.elapsed() < Duration::from_secs(5));
    told
}

fn spent(sheet: &str) {
    assert_eq!(answered(sheet), (Outcome::Spent, 50_000, b"R\tspent\t50000\n".to_vec()));
}

fn repeated(count: usize, line: impl Fn(usize) -> String) -> String {
    (0..count).map(|node| format!("; {}", line(node))).collect()
}

#[test]
fn goals_that_unfold_without_measure() {
    spent(&format!(
        "Y{}; Q 1000",
        repeated(1_000, |node| format!("& {node} {node}"))
    ));
    spent(&format!(
        "P p 0; A 0{}; Q 1000",
        repeated(1_000, |node| format!("| {node} {node}"))
    ));
    let mixed = |node| match node % 4 {
        0 => format!("& {node} {node}"),
        1 => format!("| {node} {node}"),
        2 => format!("E {} {node}", node % 8),
        _ => format!("U {} {node}", node % 8),
    };
    spent(&format!(
        "P p 1; V 7; A 0 0; U 7 1; C 2; Y{}; Q 1003",
        repeated(1_000, |node| mixed(node + 3))
    ));
    // Assumptions of 64 members each, before every goal.
    spent(&format!(
        "P p 0; A 0{}; > 6 0{}; Q 907",
        repeated(6, |node| format!("& {node} {node}")),
        repeated(900, |node| match node % 3 {
            0 => format!("> 6 {}", node + 7),
            _ => format!("& {} {}", node + 7, node + 7),
        })
    ));
}

#[test]
fn clauses_that_unfold_without_measure() {
    // 2^1000 members as a goal, refused as a clause.
    let nodes = repeated(1_000, |node| format!("& {node} {node}"));
    assert_eq!(
        answered(&format!("P p 0; A 0{nodes}; C 1000; Q 0")).0,
        refused(9, 1_003)
    );
    // As a body they are one member.
    spent(&format!("P p 0; A 0{nodes}; > 1000 0; C 1001; Q 0"));
}

#[test]
fn nested_as_deep_as_a_sheet_goes() {
    let text = answered(&format!(
        "Y{}; Q 1000",
        repeated(1_000, |node| format!("E {} {node}", node % 8))
    ))
    .2;
    assert!(text.starts_with(b"R\tproved\t1001\nD\tsome\t_0@0\nD\tsome\t_1@0\n"));
    let text = answered(&format!(
        "Y{}; Q 1000",
        repeated(1_000, |node| format!("U {} {node}", node % 8))
    ))
    .2;
    assert!(text.ends_with(b"D\tall\t!999@1000\nD\ttrue\n"));
}

#[test]
fn long_lists() {
    // Open goals, choice points, assumptions.
    spent("P p 0; A 0; & 0 0; > 1 0; C 2; Q 0");
    spent("P p 0; A 0; | 0 0; > 1 0; C 2; Q 0");
    spent("P p 0; P q 0; A 0; A 1; > 1 0; > 2 0; C 3; Q 0");
    // p if every 0 p, p if some 0 p: levels and variables.
    spent("P p 0; A 0; U 0 0; > 1 0; C 2; Q 0");
    spent("P p 0; A 0; E 0 0; > 1 0; C 2; Q 0");
}

#[test]
fn deep_terms() {
    // p(s(x)) if p(x): the goal's variable grows by one application for each five units.
    spent("P p 1; F s 1; V 0; A 0 0; A 1 0; A 0 2; > 1 3; U 0 4; C 5; Q 1");
    // p(x) if p(s(x)): the argument grows.
    spent("P p 1; F s 1; V 0; A 0 0; A 1 0; A 0 2; > 3 1; U 0 4; C 5; E 0 1; Q 6");
}

#[test]
fn long_chains_of_variables() {
    // r(z) if k(z) & r(z), with k of the first variable assumed.
    spent("P r 1; P k 1; V 0; A 1 0; A 0 0; & 1 2; > 3 2; U 0 4; C 5; > 1 2; E 0 6; Q 7");
    spent("P r 1; P k 4; V 0; A 1 0 0 0 0; A 0 0; & 1 2; > 3 2; U 0 4; C 5; > 1 2; E 0 6; Q 7");
}

#[test]
fn terms_that_unfold_without_measure() {
    // d(s(n), g(x,x)) if d(n, x); d(a, x). Node 312 is a under 301 times s: a tree of 2^301 leaves, which no text holds.
    let sheet = format!(
        "P d 2; F s 1; F g 2; F a 0; P e 2; V 0; V 1; A 1 0; A 2 1 1; A 0 0 1; A 0 2 3; > 4 5; U 1 6; U 0 7; C 8; \
         A 3; A 0 9 1; U 1 10; C 11; A 1 9{}",
        repeated(300, |node| format!("A 1 {}", node + 12))
    );
    assert_eq!(
        answered(&format!("{sheet}; A 0 312 1; E 1 313; Q 314")).0,
        refused(12, 0)
    );
    // Two such trees compared: every unit is spent.
    spent(&format!(
        "{sheet}; A 4 1 1; U 1 313; C 314; V 2; A 0 312 1; A 0 312 315; & 316 317; A 4 1 315; & 318 319; E 1 320; E 2 321; Q 322"
    ));
    // Without a free variable or "some" the tree stands in the prefix terms.
    assert_eq!(answered(&format!("{sheet}; A 0 312 1; Q 313")).0, refused(12, 0));
}

#[test]
fn wide_heads() {
    // 100 clauses p(a,T,T,T), goal p(b,T,T,T): the big terms are never reached.
    let big = repeated(9, |node| format!("A 0 {node} {node}"));
    let sheet = format!(
        "F g 2; F a 0; F b 0; P p 4; V 0{big}; A 1; A 2; A 3 10 9 9 9; U 0 12; A 3 11 9 9 9; > 14 14; U 0 15{}; C 16; Q 14",
        "; C 13".repeat(100)
    );
    spent(&sheet);
}

#[test]
fn deep_texts() {
    // A witness of 21,800 applications within each other, read, compared and freed on the small stack.
    let term = format!("{}a{}", "s(".repeat(21_800), ")".repeat(21_800));
    let text = lines(&format!("R proved 2; D some {term}; D true"));
    let half = format!("{}a{}", "s(".repeat(10_800), ")".repeat(10_800));
    let twice = lines(&format!("R proved 4; B 0 {half}; D clause 1 {half}"));
    let verdicts = thread::Builder::new().stack_size(STACK).spawn(move || {
        (
            check(&lines("F s 1; F a 0; Y; E 0 0; Q 1"), &text),
            check(&lines("P p 1; F s 1; F a 0; V 0; A 0 0; U 0 1; C 2; Q 1"), &twice),
        )
    });
    let verdicts = verdicts.expect("a thread").join().expect("no crash");
    assert_eq!(verdicts, (Verdict::Valid, Verdict::Valid));
}
