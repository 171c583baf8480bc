//! Document 01, "Derivations" and the checker: texts written by hand, with the first line that breaks.

mod common;

use common::{lines, unclosed};
use reference::{answer, check, Verdict};

/// Line 0 stands for valid.
fn judged(sheet: &str, text: &[u8], line: u32) {
    let expected = if line == 0 {
        Verdict::Valid
    } else {
        Verdict::Invalid(line)
    };
    assert_eq!(
        check(&lines(sheet), text),
        expected,
        "{sheet}\n{}",
        String::from_utf8_lossy(&text[..text.len().min(300)])
    );
}

fn judge(sheet: &str, cases: &[(&str, u32)]) {
    for (text, line) in cases {
        judged(sheet, &lines(text), *line);
    }
}

const MAY: &str = "P may 1; F strobe 0; A 1; A 0 0; C 1; Q 1";

#[test]
fn first_line() {
    judge(
        MAY,
        &[
            ("R proved 3; D clause 1", 0),
            ("R proved 1; D clause 1", 0),
            ("R proved 50000; D clause 1", 0),
            ("R proved 0; D clause 1", 1),
            ("R proved 50001; D clause 1", 1),
            ("R proved 65536; D clause 1", 1),
            ("R proved 4294967299; D clause 1", 1),
            ("R proved 03; D clause 1", 1),
            ("R proved +3; D clause 1", 1),
            ("R proved; D clause 1", 1),
            ("R proved 3 3; D clause 1", 1),
            ("R no 3", 1),
            ("R spent 2", 1),
            ("R Proved 3; D clause 1", 1),
            ("r proved 3; D clause 1", 1),
            ("D clause 1", 1),
            ("X 9 1", 1),
            ("", 1),
        ],
    );
}

#[test]
fn missing_and_surplus_lines() {
    judged(MAY, b"", 1);
    judged(MAY, b"\n", 1);
    judge(
        MAY,
        &[
            ("R proved 3", 2),
            ("R proved 3; D clause 1; D clause 1", 3),
            ("R proved 3; D clause 1; D true", 3),
            ("R proved 3; D clause 1; ", 3),
            ("R proved 3; D clause 1; ; x", 3),
            ("R proved 3; ", 2),
            ("R proved 3; ; D clause 1", 2),
        ],
    );
    judged(MAY, &unclosed("R proved 3; D clause 1"), 2);
    judged(MAY, &unclosed("R proved 3"), 1);
    judged(MAY, &unclosed("R proved 3; D clause 1; x"), 3);
    judged(MAY, b"R\tproved\t3\r\nD\tclause\t1\n", 1);
    judged(MAY, b"R\tproved\t3\nD\tclause\t1\t\n", 2);
    judged(MAY, b"R\tproved\t3\nD\tclause\t1\r\n", 2);
    judged(MAY, b"R\tproved\t3\nD clause 1\n", 2);
    judged(MAY, b"\xef\xbb\xbfR\tproved\t3\nD\tclause\t1\n", 1);
    // A last line without LF is named itself, also where more would be missing.
    judged("Y; & 0 0; Q 1", &unclosed("R proved 3; D and"), 2);
    judged("Y; & 0 0; Q 1", &lines("R proved 3; D and"), 3);
    judged("Y; & 0 0; Q 1", &lines("R proved 3; D and; D true"), 4);
}

#[test]
fn places() {
    judge(
        MAY,
        &[
            ("R proved 3; D clause 0", 2),
            ("R proved 3; D clause 2", 2),
            ("R proved 3; D clause 01", 2),
            ("R proved 3; D clause 65536", 2),
            ("R proved 3; D clause 65537", 2),
            ("R proved 3; D clause 4294967297", 2),
            ("R proved 3; D clause", 2),
            ("R proved 3; D clause 1 strobe", 2),
            ("R proved 3; D Clause 1", 2),
            ("R proved 3; B 0 strobe; D clause 1", 2),
        ],
    );
    // Any member that fits: two equal ones, and one of another predicate between.
    judge(
        "P p 0; P q 0; A 0; A 1; C 0; C 1; C 0; Q 0",
        &[
            ("R proved 2; D clause 1", 0),
            ("R proved 2; D clause 3", 0),
            ("R proved 2; D clause 2", 2),
            ("R proved 2; D clause 4", 2),
        ],
    );
    // p stands on the sheet, and q implies ((r and p) implies p). W-207: the sheet's first, then the assumptions, oldest
    // first; or latest first, then the sheet's. Within one, left first.
    let sheet = "P q 0; P r 0; P p 0; A 0; A 1; A 2; C 2; & 1 2; > 3 2; > 0 4; Q 5";
    let latest = &format!("O latest; {sheet}");
    for (sheet, valid) in [(sheet, [1, 4]), (latest, [2, 4])] {
        for place in 0..7 {
            let text = lines(&format!("R proved 5; D assume; D assume; D clause {place}"));
            judged(sheet, &text, if valid.contains(&place) { 0 } else { 4 });
        }
        judge(sheet, &[("R proved 5; D assume; D clause 2", 3)]);
    }
}

#[test]
fn places_over_the_largest_number() {
    // The rule is p if (64 times p implies p). Each use makes 64 more members: behind it, or with `O latest` before it.
    let sheet = "P p 0; A 0; & 0 0; & 1 1; & 2 2; & 3 3; & 4 4; & 5 5; > 6 0; > 7 0; C 8; Q 0";
    let text = |before: u32, last: u32| {
        let mut text = String::from("R proved 1");
        for round in 0..1_024 {
            text.push_str(&format!("; D clause {}; D assume", before * round + 1));
        }
        lines(&format!("{text}; D clause {last}"))
    };
    for (sheet, before, first) in [(sheet, 0, 2), (&format!("O latest; {sheet}"), 64, 1)] {
        judged(sheet, &text(before, first), 0);
        judged(sheet, &text(before, 65_535), 0);
        // There is a member at place 65,536, but no number for it.
        judged(sheet, &text(before, 65_536), 2_050);
        judged(sheet, &text(before, 65_537), 2_050);
    }
}

#[test]
fn each_rule_wants_its_word() {
    for (sheet, word) in [
        ("Y; Q 0", "true"),
        ("Y; & 0 0; Q 1", "and"),
        ("Y; E 0 0; Q 1", "some _0@0"),
        ("Y; U 0 0; Q 1", "all !0@1"),
        ("P p 0; A 0; Y; > 0 1; Q 2", "assume"),
        ("P p 0; A 0; C 0; Q 0", "clause 1"),
        ("Y; | 0 0; Q 1", "left"),
    ] {
        for other in [
            "true",
            "and",
            "some _0@0",
            "all !0@1",
            "assume",
            "clause 1",
            "left",
            "right",
            "x",
        ] {
            let or = word == "left" && other == "right";
            if word != other && !or {
                judged(sheet, &lines(&format!("R proved 1; D {other}")), 2);
            }
            judged(sheet, &lines(&format!("R proved 1; D {word} {other}")), 2);
        }
        judged(sheet, &lines(&format!("R proved 1; D {word}; D x")), 3);
    }
    // Either side of an "or", if it is derivable.
    judge(
        "P p 0; A 0; Y; | 1 0; | 1 1; & 2 3; Q 4",
        &[
            ("R proved 1; D and; D left; D true; D left; D true", 0),
            ("R proved 1; D and; D left; D true; D right; D true", 0),
            ("R proved 1; D and; D right; D true; D right; D true", 4),
            ("R proved 1; D and; D right; D clause 1; D right; D true", 4),
        ],
    );
}

#[test]
fn witnesses_and_levels() {
    judge(
        "Y; E 0 0; Q 1",
        &[
            ("R proved 2; D some _0@0; D true", 0),
            ("R proved 2; D some !0@0; D true", 0),
            ("R proved 2; D some _0@1; D true", 2),
            ("R proved 2; D some !0@1; D true", 2),
            ("R proved 2; D some _1@0; D true", 2),
            ("R proved 2; D some !1@0; D true", 2),
            ("R proved 2; D some _00@0; D true", 2),
            ("R proved 2; D some _0@00; D true", 2),
            ("R proved 2; D some _0; D true", 2),
            ("R proved 2; D some _0@; D true", 2),
            ("R proved 2; D some _@0; D true", 2),
            ("R proved 2; D some 0@0; D true", 2),
            ("R proved 2; D some _0@0@0; D true", 2),
            ("R proved 2; D some _0@65536; D true", 2),
            ("R proved 2; D some _65536@0; D true", 2),
            ("R proved 2; D some a; D true", 2),
            ("R proved 2; D some; D true", 2),
            ("R proved 2; D some _0@0 _0@0; D true", 2),
        ],
    );
    // every b some a p(a,b), from every z p(z,z)
    let sheet = "P p 2; V 0; A 0 0 0; U 0 1; C 2; V 1; A 0 0 3; E 0 4; U 1 5; Q 6";
    judge(
        sheet,
        &[
            ("R proved 8; D all !0@1; D some !0@1; D clause 1 !0@1", 0),
            ("R proved 8; D all !0@2; D some !0@2; D clause 1 !0@2", 2),
            ("R proved 8; D all !0@0; D some !0@0; D clause 1 !0@0", 2),
            ("R proved 8; D all !1@1; D some !1@1; D clause 1 !1@1", 2),
            ("R proved 8; D all _0@1; D some _0@1; D clause 1 _0@1", 2),
            ("R proved 8; D all !0@1; D some !0@2; D clause 1 !0@1", 3),
            ("R proved 8; D all !0@1; D some !1@2; D clause 1 !0@1", 3),
            ("R proved 8; D all !0@1; D some _0@2; D clause 1 !0@1", 3),
            ("R proved 8; D all !0@1; D some !2@1; D clause 1 !0@1", 3),
            // A wrong witness in range is no fault of its own line.
            ("R proved 8; D all !0@1; D some !1@1; D clause 1 !0@1", 4),
            ("R proved 8; D all !0@1; D some _0@1; D clause 1 !0@1", 4),
            ("R proved 8; D all !0@1; D some !0@1; D clause 1 _0@1", 4),
            ("R proved 8; D all !0@1; D some !0@1; D clause 1 !0@0", 4),
            ("R proved 8; D all !0@1; D some !0@1; D clause 1", 4),
            ("R proved 8; D all !0@1; D some !0@1; D clause 1 !0@1 !0@1", 4),
        ],
    );
    // A made constant that no "all" line made, and a made constant of a lower level.
    judge(
        "Y; E 0 0; U 1 1; Q 2",
        &[
            ("R proved 3; D all !0@1; D some !1@1; D true", 0),
            ("R proved 3; D all !0@1; D some !1@0; D true", 0),
            ("R proved 3; D all !0@1; D some _0@0; D true", 0),
            ("R proved 3; D all !0@1; D some _1@0; D true", 3),
        ],
    );
    // The same made constant in two branches; the engine makes two.
    judge(
        "P p 1; V 0; A 0 0; U 0 1; C 2; & 2 2; Q 3",
        &[
            (
                "R proved 1; D and; D all !0@1; D clause 1 !0@1; D all !0@1; D clause 1 !0@1",
                0,
            ),
            (
                "R proved 1; D and; D all !0@1; D clause 1 !0@1; D all !1@1; D clause 1 !1@1",
                0,
            ),
            (
                "R proved 1; D and; D all !0@1; D clause 1 !0@1; D all !2@1; D clause 1 !2@1",
                5,
            ),
            (
                "R proved 1; D and; D all !0@1; D clause 1 !0@1; D all !1@1; D clause 1 !0@1",
                6,
            ),
        ],
    );
    // A prefix term of the atom's own level, above that of the assumption; and one level too high.
    judge(
        "P q 1; V 0; A 0 0; U 0 1; > 2 2; Q 3",
        &[
            ("R proved 6; D assume; D all !0@1; D clause 1 !0@1", 0),
            ("R proved 6; D assume; D all !0@1; D clause 1 !0@2", 4),
        ],
    );
    // A prefix variable of the body alone: any term in range; q if p(z), p(z) for every z.
    let body = "P p 1; P q 0; F a 0; V 0; A 0 0; A 1; > 1 2; U 0 3; C 4; U 0 1; C 5; Q 2";
    judge(
        body,
        &[
            ("R proved 1; D clause 1 a; D clause 2 a", 0),
            ("R proved 1; D clause 1 _0@0; D clause 2 _0@0", 0),
            ("R proved 1; D clause 1 !0@0; D clause 2 !0@0", 0),
            ("R proved 1; D clause 1 _0@1; D clause 2 _0@1", 2),
            ("R proved 1; D clause 1 a; D clause 2 _0@0", 3),
            ("R proved 1; D clause 1 _0@0; D clause 2 _1@0", 3),
        ],
    );
}

#[test]
fn some_then_every_has_no_derivation() {
    // The fault of cue 513: some a every b p(a,b), from every z p(z,z).
    judge(
        "P p 2; V 0; A 0 0 0; U 0 1; C 2; V 1; A 0 0 3; U 1 4; E 0 5; Q 6",
        &[
            ("R proved 8; D some !0@1; D all !0@1; D clause 1 !0@1", 2),
            ("R proved 8; D some !0@0; D all !0@1; D clause 1 !0@1", 3),
            ("R proved 8; D some !0@0; D all !0@0; D clause 1 !0@0", 3),
            ("R proved 8; D some !0@0; D all !1@1; D clause 1 !0@0", 4),
            ("R proved 8; D some _0@0; D all !0@1; D clause 1 !0@1", 4),
            ("R proved 8; D some _0@0; D all !0@1; D clause 1 _0@0", 4),
        ],
    );
}

#[test]
fn numbering() {
    // Two "some": kinds apart, one count over all levels, by first showing.
    let sheet = "Y; E 0 0; U 1 1; E 2 2; Q 3";
    judge(
        sheet,
        &[
            ("R proved 4; D some _0@0; D all !0@1; D some _1@1; D true", 0),
            ("R proved 4; D some _0@0; D all !0@1; D some _0@0; D true", 0),
            ("R proved 4; D some _0@0; D all !0@1; D some _0@1; D true", 4),
            ("R proved 4; D some _0@0; D all !0@1; D some _2@1; D true", 4),
            ("R proved 4; D some _0@0; D all !0@1; D some !0@1; D true", 0),
            ("R proved 4; D some !0@0; D all !0@1; D some !0@1; D true", 3),
            ("R proved 4; D some !0@0; D all !1@1; D some !1@1; D true", 0),
            ("R proved 4; D some !0@0; D all !1@1; D some !2@0; D true", 0),
            ("R proved 4; D some _1@0; D all !0@1; D some _0@1; D true", 2),
        ],
    );
    // Inside a term, left to right.
    judge(
        "F g 2; Y; E 0 0; Q 1",
        &[
            ("R proved 2; D some g(_0@0,_1@0); D true", 0),
            ("R proved 2; D some g(_1@0,_0@0); D true", 2),
            ("R proved 2; D some g(_0@0,_0@0); D true", 0),
            ("R proved 2; D some g(_0@0,!0@0); D true", 0),
            ("R proved 2; D some g(g(_0@0,_1@0),g(_0@0,_2@0)); D true", 0),
        ],
    );
}

#[test]
fn spelling() {
    let cases: Vec<(String, u32)> = [
        ("a", 0),
        ("f(a)", 0),
        ("f(f(a))", 0),
        ("g(a,f(a))", 0),
        ("unused", 0),
        ("a()", 2),
        ("f", 2),
        ("f()", 2),
        ("f(a", 2),
        ("f(a))", 2),
        ("f(a)a", 2),
        ("f(a,a)", 2),
        ("g(a)", 2),
        ("g(a,)", 2),
        ("g(,a)", 2),
        ("g(a;a)", 2),
        ("g(a,a,a)", 2),
        ("(a)", 2),
        ("f((a))", 2),
        ("f[a]", 2),
        ("p", 2),
        ("p(a)", 2),
        ("b", 2),
        ("A", 0),
        ("F(A)", 0),
        ("G(a,f(A))", 0),
        ("UnUsed", 0),
        ("P", 2),
        ("B", 2),
        ("aa", 2),
        ("f(p(a))", 2),
        ("_0@0(a)", 2),
        ("!0@0(a)", 2),
        ("f(_0@0)", 0),
        ("f(_0@1)", 2),
        ("f(!0@0)", 0),
        ("f(!0@1)", 2),
        (",", 2),
        (")", 2),
        ("_", 2),
        ("!", 2),
        ("@", 2),
    ]
    .iter()
    .map(|&(term, line)| (format!("R proved 2; D some {term}; D true"), line))
    .collect();
    for (text, line) in cases {
        let text = text.replace("a;a", "a\u{1}a");
        judged(
            "F a 0; F f 1; F g 2; F unused 0; P p 1; Y; E 0 0; Q 1",
            &lines(&text),
            line,
        );
    }
    judged(
        "F a 0; F g 2; Y; E 0 0; Q 1",
        b"R\tproved\t2\nD\tsome\tg(a, a)\nD\ttrue\n",
        2,
    );
    judged("F a 0; Y; E 0 0; Q 1", b"R\tproved\t2\nD\tsome\ta \nD\ttrue\n", 2);
    judged("F a 0; Y; E 0 0; Q 1", b"R\tproved\t2\nD\tsome\ta\t\nD\ttrue\n", 2);
}

#[test]
fn answers() {
    // p(5,2) with variables 2 and 5 free, from every a every b p(a,b)
    let sheet = "P p 2; F c 0; V 5; V 2; A 0 0 1; V 0; A 0 3 1; U 2 4; U 0 5; C 6; Q 2";
    judge(
        sheet,
        &[
            ("R proved 6; B 2 _0@0; B 5 _1@0; D clause 1 _1@0 _0@0", 0),
            ("R proved 6; B 2 c; B 5 c; D clause 1 c c", 0),
            ("R proved 6; B 2 !0@0; B 5 c; D clause 1 c !0@0", 0),
            ("R proved 6; B 2 c; B 5 _0@0; D clause 1 _0@0 c", 0),
            ("R proved 6; B 2 c; B 5 _0@0; D clause 1 c _0@0", 4),
            ("R proved 6; B 5 c; B 2 c; D clause 1 c c", 2),
            ("R proved 6; B 2 c; D clause 1 c c", 3),
            ("R proved 6; B 2 c; B 2 c; B 5 c; D clause 1 c c", 3),
            ("R proved 6; B 2 c; B 5 c; B 6 c; D clause 1 c c", 4),
            ("R proved 6; B 2 !0@1; B 5 c; D clause 1 c !0@1", 2),
            ("R proved 6; B 2 c; B 5 _0@1; D clause 1 _0@1 c", 3),
            ("R proved 6; B 2 _1@0; B 5 _0@0; D clause 1 _0@0 _1@0", 2),
            ("R proved 6; D clause 1 c c", 2),
            ("R proved 6; B 02 c; B 5 c; D clause 1 c c", 2),
            ("R proved 6; B 2; B 5 c; D clause 1 c c", 2),
            ("R proved 6; B 2 c c; B 5 c; D clause 1 c c", 2),
            ("R proved 6; b 2 c; B 5 c; D clause 1 c c", 2),
        ],
    );
}

#[test]
fn assumptions_do_not_leak() {
    judge(
        "P q 0; A 0; > 0 0; & 1 0; Q 2",
        &[
            ("R proved 5; D and; D assume; D clause 1; D clause 1", 5),
            ("R proved 5; D and; D assume; D clause 2; D clause 1", 4),
        ],
    );
}

#[test]
fn deep_terms() {
    // Goal p(0) with variable 0 free, from every z p(z): the term stands twice.
    let depth = 10_800;
    let term = format!("{}a{}", "s(".repeat(depth), ")".repeat(depth));
    let sheet = "P p 1; F s 1; F a 0; V 0; A 0 0; U 0 1; C 2; Q 1";
    let text = format!("R proved 4; B 0 {term}; D clause 1 {term}");
    judged(sheet, &lines(&text), 0);
    let other = term.replace("s(a)", "s(s(a))");
    judged(sheet, &lines(&format!("R proved 4; B 0 {term}; D clause 1 {other}")), 3);
    judged(sheet, &lines(&format!("R proved 4; B 0 {}", "s(".repeat(32_000))), 2);
    let deepest = 21_800;
    let term = format!("{}a{}", "s(".repeat(deepest), ")".repeat(deepest));
    judged(
        "F s 1; F a 0; Y; E 0 0; Q 1",
        &lines(&format!("R proved 2; D some {term}; D true")),
        0,
    );
}

#[test]
fn wide_comparisons_do_not_unfold() {
    // An atom of four terms of 1,023 variables and symbols, each 0 or 1, against itself with the two exchanged; the text
    // gives them equal terms of 14,000 bytes that are spelled twice.
    let mut sheet = String::from("P p 4; F g 2; F s 1; F a 0; V 0; V 1; A 1 0 1; A 1 1 0");
    for node in (2..18).step_by(2) {
        sheet.push_str(&format!("; A 1 {} {}; A 1 {} {}", node, node + 1, node + 1, node));
    }
    sheet.push_str("; A 0 18 18 18 18; A 0 19 19 19 19; U 0 20; U 1 22; C 23; & 21 21");
    for node in 24..32 {
        sheet.push_str(&format!("; & {node} {node}"));
    }
    sheet.push_str("; Q 32");
    let term = format!("{}a{}", "s(".repeat(4_600), ")".repeat(4_600));
    let start = format!("R proved 9; B 0 {term}; B 1 {term}");
    judged(
        &sheet,
        &lines(&format!(
            "{start}; D and; D and; D and; D and; D and; D and; D and; D and; D and; D clause 1 {term} _0@0"
        )),
        13,
    );
    judged(
        &sheet,
        &lines(&format!(
            "{start}; D and; D and; D and; D and; D and; D and; D and; D and; D and; D clause 1 {term} {term}"
        )),
        14,
    );
}

#[test]
fn engine_texts_of_no_and_spent() {
    for (sheet, budget) in [("P p 0; A 0; Q 0", 9), (MAY, 2)] {
        let (_, _, text) = answer(&lines(sheet), budget, 100);
        judged(sheet, &text, 1);
    }
}
