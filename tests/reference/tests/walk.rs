//! Document 01, "The walk": units and texts of small sheets, counted by hand. W-206: each binding looked through is one.
//! W-207: assumptions are tried after the sheet's clauses, oldest first, or with `O latest` before them, latest first.

mod common;

use common::lines;
use reference::{answer, check, Outcome, Verdict};

fn tells(sheet: &str, text: &str) {
    let sheet = lines(sheet);
    let (outcome, _, told) = answer(&sheet, 50_000, 65_535);
    assert_eq!(
        String::from_utf8(told.clone()).unwrap(),
        String::from_utf8(lines(text)).unwrap(),
        "{}",
        String::from_utf8_lossy(&sheet)
    );
    if outcome == Outcome::Proved {
        assert_eq!(check(&sheet, &told), Verdict::Valid);
    }
}

#[test]
fn nested_pairs_are_paid() {
    // take, try, pair f, pair a
    tells(
        "P p 1; F f 1; F a 0; A 2; A 1 0; A 0 1; C 2; Q 2",
        "R proved 4; D clause 1",
    );
    // take, try, pair g, pair a, pair a: the same shared node twice is no shortcut
    tells(
        "P p 1; F g 2; F a 0; A 2; A 1 0 0; A 0 1; C 2; Q 2",
        "R proved 5; D clause 1",
    );
}

#[test]
fn an_alternative_is_not_taken_twice() {
    // take or, take q, try r; take r, try r
    tells(
        "P q 0; P r 0; A 0; A 1; | 0 1; C 1; Q 2",
        "R proved 5; D right; D clause 1",
    );
    // take, try, pair; try, pair
    tells(
        "P p 1; F a 0; F b 0; A 1; A 2; A 0 0; A 0 1; C 2; C 3; Q 3",
        "R proved 5; D clause 2",
    );
    // p is taken up at its second member after q fails. take some, and; take p, try, pair, look; take q, three tries,
    // pair, binding; then p again: try, pair, look; take q, three tries, pair, binding
    tells(
        "P p 1; P q 1; F a 0; F b 0; A 2; A 3; A 0 0; A 0 1; A 1 1; C 2; C 3; C 4; V 0; A 0 5; A 1 5; & 6 7; E 0 8; Q 9",
        "R proved 21; D some b; D and; D clause 2; D clause 3",
    );
}

#[test]
fn members_of_other_predicates_are_tried() {
    // take, try p, try p, try q
    tells("P p 0; P q 0; A 0; A 1; C 0; C 0; C 1; Q 1", "R proved 4; D clause 3");
    // Without any member: taking alone.
    tells("P p 0; A 0; Q 0", "R no 1");
    // The same C line twice gives two members.
    tells("P p 0; P q 0; A 0; A 1; C 0; C 0; Q 1", "R no 3");
}

#[test]
fn the_same_variable_twice() {
    // take some, take p, try, pair and look, pair and binding
    tells(
        "P p 2; V 0; A 0 0 0; U 0 1; C 2; E 0 1; Q 3",
        "R proved 7; D some _0@0; D clause 1 _0@0",
    );
}

#[test]
fn range_check_pays_every_node() {
    // take some, take p, try, pair, looks g, a, a
    tells(
        "P p 1; F g 2; F a 0; A 2; A 1 0 0; A 0 1; C 2; V 0; A 0 3; E 0 4; Q 5",
        "R proved 7; D some g(a,a); D clause 1",
    );
    // The clause's side a variable: take, try, pair, looks g, a, a
    tells(
        "P p 1; F g 2; F a 0; A 2; A 1 0 0; V 0; A 0 2; U 0 3; C 4; A 0 1; Q 5",
        "R proved 6; D clause 1 g(a,a)",
    );
}

#[test]
fn body() {
    // take p, try; take Y
    tells("P p 0; A 0; Y; > 1 0; C 2; Q 0", "R proved 3; D clause 1; D true");
    // A variable of the body alone is in the prefix. take q, try; take p, try, pair, look
    tells(
        "P p 1; P q 0; F a 0; V 0; A 0 0; A 1; > 1 2; U 0 3; A 2; A 0 5; C 6; C 4; Q 2",
        "R proved 7; D clause 2 a; D clause 1",
    );
}

#[test]
fn assumptions() {
    // Not for the goal beside: take and, take >, take q, try; take q
    tells("P q 0; A 0; > 0 0; & 1 0; Q 2", "R no 5");
    // q implies ((r and p) implies p), and p stands on the sheet. W-207: the sheet's before all assumptions. Take >, take >,
    // take p, try p
    let sheet = "P q 0; P r 0; P p 0; A 0; A 1; A 2; C 2; & 1 2; > 3 2; > 0 4; Q 5";
    tells(sheet, "R proved 4; D assume; D assume; D clause 1");
    // Or after them, latest first; within one, left before right: try r, try p
    tells(
        &format!("O latest; {sheet}"),
        "R proved 5; D assume; D assume; D clause 2",
    );
    // The same with r for p: by default the sheet's p, the older q, then r; latest first, r is the first.
    let sheet = "P q 0; P r 0; P p 0; A 0; A 1; A 2; C 2; & 1 2; > 3 1; > 0 4; Q 5";
    tells(sheet, "R proved 6; D assume; D assume; D clause 3");
    tells(
        &format!("O latest; {sheet}"),
        "R proved 4; D assume; D assume; D clause 1",
    );
    // The same with q: by default it is second, latest first it is third, after r and p.
    let sheet = "P q 0; P r 0; P p 0; A 0; A 1; A 2; C 2; & 1 2; > 3 0; > 0 4; Q 5";
    tells(sheet, "R proved 5; D assume; D assume; D clause 2");
    tells(
        &format!("O latest; {sheet}"),
        "R proved 6; D assume; D assume; D clause 3",
    );
    // Its free variable is the goal's own: some x (p(x) > p(a)): take some, take >, take p, try, pair, look
    tells(
        "P p 1; F a 0; V 0; A 0 0; A 1; A 0 2; > 1 3; E 0 4; Q 5",
        "R proved 6; D some a; D assume; D clause 1",
    );
    // p(x) > (p(a) & p(b)): the assumed variable is shared, so b fails.
    // take some, >, and; take p, try, pair, look; take p, try, pair, binding
    tells(
        "P p 1; F a 0; F b 0; V 0; A 0 0; A 1; A 0 2; A 2; A 0 4; & 3 5; > 1 6; E 0 7; Q 8",
        "R no 11",
    );
    // (every x p(x)) > (p(a) & p(b)): fresh at each try. take >, and; twice take, try, pair, look
    tells(
        "P p 1; F a 0; F b 0; V 0; A 0 0; U 0 1; A 1; A 0 3; A 2; A 0 5; & 4 6; > 2 7; Q 8",
        "R proved 10; D assume; D and; D clause 1 a; D clause 1 b",
    );
}

#[test]
fn prefixes() {
    // every 0 every 0 p(0): one entry. every 1 around: idle.
    tells(
        "P p 1; F a 0; V 0; A 0 0; U 0 1; U 0 2; U 1 3; C 4; A 1; A 0 5; Q 6",
        "R proved 4; D clause 1 a",
    );
    // every 1 every 0 p(0,1): outermost first.
    tells(
        "P p 2; F a 0; F b 0; V 0; V 1; A 0 0 1; U 0 2; U 1 3; C 4; A 1; A 2; A 0 5 6; Q 7",
        "R proved 6; D clause 1 b a",
    );
    // every 0 (p(0) & q): only the first member has an entry.
    tells(
        "P p 1; P q 0; V 0; A 0 0; A 1; & 1 2; U 0 3; C 4; Q 2",
        "R proved 3; D clause 2",
    );
    // every 0 (p(0) & every 0 q(0)).
    tells(
        "P p 1; P q 1; F a 0; V 0; A 0 0; A 1 0; U 0 2; & 1 3; U 0 4; C 5; A 2; A 1 6; Q 7",
        "R proved 5; D clause 2 a",
    );
}

#[test]
fn idle_quantifiers() {
    tells(
        "Y; E 3 0; U 3 1; U 3 2; Q 3",
        "R proved 4; D all !0@1; D all !1@2; D some _0@2; D true",
    );
}

#[test]
fn level_of_the_goal_alone() {
    // (every x true) & some y true: the second keeps level 0.
    tells(
        "Y; U 0 0; E 0 0; & 1 2; Q 3",
        "R proved 5; D and; D all !0@1; D true; D some _0@0; D true",
    );
    // The prefix has the atom's level, not the assumption's: (every z q(z)) > every x q(x).
    tells(
        "P q 1; V 0; A 0 0; U 0 1; > 2 2; Q 3",
        "R proved 6; D assume; D all !0@1; D clause 1 !0@1",
    );
}

#[test]
fn final_levels_are_shown() {
    // Clause every z e(z,z). Goal some x every y some z e(x, z): z is lowered to 0 and is x.
    tells(
        "P e 2; V 0; A 0 0 0; U 0 1; C 2; V 2; A 0 0 3; E 2 4; U 1 5; E 0 6; Q 7",
        // take some, all, some, e; try; pair, look; pair, look
        "R proved 9; D some _0@0; D all !0@1; D some _0@0; D clause 1 _0@0",
    );
}

#[test]
fn numbering_by_first_showing() {
    // Free variables ascending, and numbered there: goal q & (p(5,2)), clause every a every b p(a,b).
    tells(
        "P p 2; V 5; V 2; A 0 0 1; V 0; A 0 3 1; U 2 4; U 0 5; C 6; Q 2",
        "R proved 6; B 2 _0@0; B 5 _1@0; D clause 1 _1@0 _0@0",
    );
    // One count over all levels.
    tells(
        "Y; E 0 0; U 1 1; E 2 2; Q 3",
        "R proved 4; D some _0@0; D all !0@1; D some _1@1; D true",
    );
}

#[test]
fn a_failed_branch_leaves_no_line() {
    // (every x q(x)) | true: the made constant of the left side never shows.
    tells(
        "P q 1; V 0; A 0 0; U 0 1; Y; U 0 3; | 2 4; Q 5",
        "R proved 5; D right; D all !0@1; D true",
    );
}

#[test]
fn depth_first_without_end() {
    // p if p: spent under every budget.
    let sheet = lines("P p 0; A 0; > 0 0; C 1; Q 0");
    for budget in [1, 2, 3, 256, 49_999, 50_000] {
        let text = format!("R\tspent\t{budget}\n").into_bytes();
        assert_eq!(answer(&sheet, budget, 65_535), (Outcome::Spent, budget, text));
    }
}
