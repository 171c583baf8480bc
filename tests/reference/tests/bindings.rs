//! W-206: "each binding looked through takes one unit, wherever it happens in the walk". Chains of any length, with the
//! units counted by hand.

mod common;

use common::lines;
use reference::{answer, check, Outcome, Verdict};

/// The clauses r(z) for every z, and q(a). The goal is r(x) so often, and then the last of the lines given, which make
/// the nodes from 5 on. Each r(x) looks through the chain of x and makes it longer by one: x is bound to z1, z1 to z2,
/// and so on. What the last line supposes comes before the clauses (W-207).
fn grown(bindings: usize, last: &str) -> String {
    let mut sheet = format!("O latest; P r 1; P q 1; F a 0; F f 1; V 0; A 0 0; U 0 1; C 2; A 2; A 1 3; C 4; {last}");
    let mut goal = 4 + last.split(';').count();
    for _ in 0..bindings {
        sheet.push_str(&format!("; & 1 {goal}"));
        goal += 1;
    }
    format!("{sheet}; Q {goal}")
}

/// The units of the goals r(x), with the "and" before each: and, take, try, pair, look, and the bindings so far.
fn growing(bindings: u32) -> u32 {
    (0..bindings).map(|bound| 5 + bound).sum()
}

/// Proved with exactly these units; with each number below them spent.
fn needs(sheet: &str, units: u32) {
    let sheet = lines(sheet);
    let told = answer(&sheet, 50_000, 65_535);
    assert_eq!(
        (told.0, told.1),
        (Outcome::Proved, units),
        "{}",
        String::from_utf8_lossy(&sheet)
    );
    assert_eq!(check(&sheet, &told.2), Verdict::Valid);
    assert_eq!(answer(&sheet, units, 65_535), told);
    for fewer in (1..units).rev().take(50) {
        assert_eq!(
            answer(&sheet, fewer, 65_535),
            (Outcome::Spent, fewer, format!("R\tspent\t{fewer}\n").into_bytes())
        );
    }
}

#[test]
fn on_the_goals_side() {
    // q(x): take, try r, try q, pair, the chain, look a
    for n in 0..40 {
        needs(&grown(n as usize, "A 1 0"), growing(n) + 5 + n);
    }
}

#[test]
fn on_the_clauses_side() {
    // q(x) implies q(a): take, take, try, pair, the chain, look a
    for n in 0..40 {
        needs(&grown(n as usize, "A 1 0; > 5 4"), growing(n) + 5 + n);
    }
}

#[test]
fn on_both_sides() {
    // q(x) implies q(x): take, take, try, pair, the chain twice. The last act is a binding, where there is one.
    for n in 0..40 {
        needs(&grown(n as usize, "A 1 0; > 5 5"), growing(n) + 4 + 2 * n);
    }
}

#[test]
fn in_a_range_check() {
    // q(f(x)) implies q(y): take, take, try, pair, look f, the chain, look at its end
    for n in 0..40 {
        needs(
            &grown(n as usize, "A 3 0; A 1 5; V 1; A 1 7; > 6 8"),
            growing(n) + 6 + n,
        );
    }
}

#[test]
fn the_root_of_a_range_check_is_looked_through_once() {
    // q(x) implies q(y): take, take, try, pair, the chain, look at its end
    for n in 0..40 {
        needs(&grown(n as usize, "A 1 0; V 1; A 1 6; > 5 7"), growing(n) + 5 + n);
    }
}

#[test]
fn bound_to_the_other_side_as_looked_through() {
    // q(x) implies (q(y) and q(y)): take, and; take, try, pair, the chain, look; take, try, pair, one binding, the chain
    for n in 0..40 {
        let last = "A 1 0; V 1; A 1 6; & 7 7; > 5 8";
        needs(&grown(n as usize, last), growing(n) + 2 + (4 + n) + (4 + n));
    }
}

#[test]
fn a_failed_try_pays_too() {
    // q(f(x)) implies q(x): take, take; try, pair, the chain, look f, the chain, look: x itself. Then the sheet's members:
    // try r; try q, pair, the chain, look a
    for n in 0..40 {
        let last = "A 3 0; A 1 5; A 1 0; > 6 7";
        needs(&grown(n as usize, last), growing(n) + 2 + (4 + 2 * n) + 1 + (3 + n));
    }
}

#[test]
fn what_stands_for_a_sheets_variable_is_no_binding() {
    // every x (q(x) implies q(x)), and the same with some: take, take, take, try, pair
    needs("P q 1; V 0; A 0 0; > 1 1; U 0 2; Q 3", 5);
    needs("P q 1; V 0; A 0 0; > 1 1; E 0 2; Q 3", 5);
    // every z q(z), the goals q(a) and q(a): and; twice take, try, pair, look. The prefix is new at each try.
    needs("P q 1; F a 0; V 0; A 0 0; U 0 1; C 2; A 1; A 0 3; & 4 4; Q 5", 9);
}

#[test]
fn writing_takes_no_unit() {
    // 64 goals r(x) and 63 "and": the B line passes 64 bindings, and the prefix terms the rest of the chain.
    let sheet = lines("P r 1; V 0; A 0 0; U 0 1; C 2; & 1 1; & 3 3; & 4 4; & 5 5; & 6 6; & 7 7; Q 8");
    let told = answer(&sheet, 50_000, 65_535);
    assert_eq!((told.0, told.1), (Outcome::Proved, growing(64) - 1));
    assert_eq!(check(&sheet, &told.2), Verdict::Valid);
}
