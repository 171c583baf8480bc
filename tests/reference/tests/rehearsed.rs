//! Document 01, "Rehearsed sheets": every case, byte for byte, with the count of W-206.

mod common;

use common::{clause_of_members, lines, refused};
use reference::{answer, engine_run, runner, Outcome};

const WHOLE: &str = "P may 1; F strobe 0; A 1; A 0 0; C 1; Q 1";

fn prints(sheet: &str, text: &str) {
    assert_eq!(
        String::from_utf8(runner(&lines(sheet))).unwrap(),
        String::from_utf8(lines(text)).unwrap(),
        "{sheet}"
    );
}

#[test]
fn the_whole_sheet() {
    prints(WHOLE, "R proved 3; D clause 1");
    let sheet = lines(WHOLE);
    assert_eq!(runner(&sheet).len(), 22);
    assert_eq!(
        answer(&sheet, 3, 22),
        (Outcome::Proved, 3, lines("R proved 3; D clause 1"))
    );
    assert_eq!(answer(&sheet, 2, 22), (Outcome::Spent, 2, lines("R spent 2")));
    assert_eq!(answer(&sheet, 3, 21).0, refused(12, 0));
}

#[test]
fn some_then_every() {
    prints(
        "P p 2; V 0; A 0 0 0; U 0 1; C 2; V 1; A 0 0 3; U 1 4; E 0 5; Q 6",
        "R no 8",
    );
}

#[test]
fn every_then_some() {
    prints(
        "P p 2; V 0; A 0 0 0; U 0 1; C 2; V 1; A 0 0 3; E 0 4; U 1 5; Q 6",
        "R proved 8; D all !0@1; D some !0@1; D clause 1 !0@1",
    );
}

/// W-206: "The occurs case of document 01 becomes 9 units; the other marked counts stay the same."
#[test]
fn occurs() {
    prints(
        "P p 2; F f 1; V 0; A 0 0 0; U 0 1; C 2; A 1 0; A 0 0 3; E 0 4; Q 5",
        "R no 9",
    );
}

#[test]
fn section_3_of_003() {
    prints(
        "P p 1; P q 0; V 0; A 0 0; U 0 1; A 1; > 2 3; > 1 3; E 0 5; > 4 6; Q 7",
        "R no 12",
    );
}

#[test]
fn some_true() {
    prints("Y; E 0 0; Q 1", "R proved 2; D some _0@0; D true");
}

#[test]
fn free_goal() {
    prints(
        "P p 1; V 0; A 0 0; U 0 1; C 2; Q 1",
        "R proved 4; B 0 _0@0; D clause 1 _0@0",
    );
}

#[test]
fn empty_sheet() {
    assert_eq!(runner(b""), b"X\t11\t1\n");
}

#[test]
fn members() {
    assert_eq!(common::outcome(&lines(&clause_of_members(64))), Outcome::Proved);
    // P, 65 nodes: the C line is line 67.
    assert_eq!(common::outcome(&lines(&clause_of_members(65))), refused(9, 67));
}

#[test]
fn budgets() {
    let sheet = lines(WHOLE);
    let mut table = vec![0; 8_192];
    let mut work = vec![0; 64 * 50_001];
    let mut text = vec![0; 22];
    let run = engine_run(&sheet, 50_000, &mut table, &mut work, &mut text);
    assert_eq!(run.outcome, Outcome::Proved);
    let run = engine_run(&sheet, 50_001, &mut table, &mut work, &mut text);
    assert_eq!(run.outcome, refused(3, 0));
}
