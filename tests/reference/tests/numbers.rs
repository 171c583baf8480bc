//! W-204, channel numbers as terms: N lines, numbers matched and written, numbers in a text. Counted by hand.

mod common;

use common::{lines, outcome, refused};
use reference::{answer, check, Outcome, Verdict};

/// Around what a byte, two bytes and the numbers of symbols can hold.
const EDGES: [u32; 21] = [
    0, 1, 2, 3, 7, 9, 10, 99, 127, 128, 254, 255, 256, 257, 511, 512, 32_768, 65_279, 65_280, 65_534, 65_535,
];

fn tells(sheet: &str, text: &str) {
    let (outcome, _, told) = answer(&lines(sheet), 256, 65_535);
    let shown = String::from_utf8_lossy(&told);
    assert_eq!(shown, String::from_utf8_lossy(&lines(text)), "{sheet}");
    if outcome == Outcome::Proved {
        assert_eq!(check(&lines(sheet), &told), Verdict::Valid, "{sheet}");
    }
}

/// Line 0 stands for valid.
fn judge(sheet: &str, cases: &[(&str, u32)]) {
    for &(text, line) in cases {
        let expected = match line {
            0 => Verdict::Valid,
            line => Verdict::Invalid(line),
        };
        assert_eq!(check(&lines(sheet), &lines(text)), expected, "{sheet}\n{text}");
    }
}

/// Goal p(v0) with the fact p(n), and some v0 true, with n as its witness.
#[test]
fn every_number() {
    for number in 0..70_000 {
        let sheet = lines(&format!("P p 1; N {number}; A 0 0; C 1; V 0; A 0 2; Q 3"));
        let witness = lines(&format!("R proved 2; D some {number}; D true"));
        let verdict = check(b"Y\nE\t0\t0\nQ\t1\n", &witness);
        if number <= 65_535 {
            let text = format!("R proved 4; B 0 {number}; D clause 1");
            assert_eq!(answer(&sheet, 4, 100), (Outcome::Proved, 4, lines(&text)));
            assert_eq!(verdict, Verdict::Valid, "{number}");
        } else {
            assert_eq!(outcome(&sheet), refused(6, 2), "{number}");
            assert_eq!(verdict, Verdict::Invalid(2), "{number}");
        }
    }
}

#[test]
fn lines_of_numbers() {
    let nodes = vec!["N 7"; 1_024].join("; ");
    let full = vec!["Y"; 1_024].join("; ");
    for (sheet, number, line) in [
        ("N", 6, 1),
        ("N 65536", 6, 1),
        ("N 01", 6, 1),
        ("N 1 2", 6, 1),
        ("N x", 6, 1),
        ("N -1", 6, 1),
        ("n 1", 6, 1),
        ("N 0", 11, 2),
        ("N 65535", 11, 2),
        // 6 comes before 7, and an N line has nothing to be refused under 8 or 9.
        (&format!("{full}; N 0"), 7, 1_025),
        (&format!("{full}; N 65536"), 6, 1_025),
        (&format!("{nodes}; N 7"), 7, 1_025),
        (&format!("{nodes}; Q 0"), 9, 1_025),
        (&format!("{nodes}; Q 1024"), 8, 1_025),
        // Where a goal, a clause or an atom is wanted. Node 0 is p, node 1 is a number.
        ("P p 0; A 0; N 5; Q 1", 9, 4),
        ("P p 0; A 0; N 5; C 1", 9, 4),
        ("P p 0; A 0; N 5; & 1 1", 9, 4),
        ("P p 0; A 0; N 5; & 0 1", 9, 4),
        ("P p 0; A 0; N 5; & 1 0", 9, 4),
        ("P p 0; A 0; N 5; | 0 1", 9, 4),
        ("P p 0; A 0; N 5; | 1 0", 9, 4),
        ("P p 0; A 0; N 5; > 0 1", 9, 4),
        ("P p 0; A 0; N 5; > 1 0", 9, 4),
        ("P p 0; A 0; N 5; E 0 1", 9, 4),
        ("P p 0; A 0; N 5; U 0 1", 9, 4),
        // A number has no arguments, and names neither a symbol nor a node.
        ("N 5; A 0 0", 8, 2),
        ("N 0; A 0", 8, 2),
        ("N 7; Q 7", 8, 2),
        ("P p 0; N 5; A 0 0", 9, 3),
        ("P p 1; N 5; A 0 0 0", 9, 3),
    ] {
        assert_eq!(outcome(&lines(sheet)), refused(number, line), "{sheet}");
    }
    // Arguments of functions and predicates. An N line takes the next number of a node.
    for sheet in [
        "P p 4; N 5; A 0 0 0 0 0; C 1; Q 1",
        "F f 1; P p 1; N 5; A 0 0; A 1 1; C 2; Q 2",
        "N 1; Y; Q 1",
        "N 1; N 1; N 0; Y; Q 3",
        &format!("{}; Y; Q 1023", vec!["N 7"; 1_023].join("; ")),
    ] {
        assert_eq!(outcome(&lines(sheet)), Outcome::Proved, "{sheet}");
    }
    assert_eq!(outcome(b"Y\nN\t5"), refused(6, 2));
    assert_eq!(outcome(b"N 5\n"), refused(6, 1));
    assert_eq!(outcome(b"N\t5\t\n"), refused(6, 1));
    assert_eq!(outcome(b"N\t\n"), refused(6, 1));
}

/// "it counts as one symbol in a term's 1,024"
#[test]
fn sizes() {
    // Node n holds 2^(n+1) - 1 symbols; node 9 holds 1,023.
    let doubled: String = (0..9).map(|node| format!("; A 0 {node} {node}")).collect();
    let term = format!("F g 2; F s 1; P p 4; N 5{doubled}");
    assert_eq!(outcome(&lines(&format!("{term}; A 1 9; Y; Q 11"))), Outcome::Proved);
    assert_eq!(
        outcome(&lines(&format!("{term}; A 1 9; A 1 10; Y; Q 12"))),
        refused(9, 15)
    );
    assert_eq!(outcome(&lines(&format!("{term}; A 0 9 0; Y; Q 11"))), refused(9, 14));
    // Four terms of 1,024.
    let atom = format!("{term}; A 1 9; A 2 10 10 10 10; C 11; Y; Q 12");
    assert_eq!(outcome(&lines(&atom)), Outcome::Proved);
    // An argument that is a number takes one of the 1,024.
    let mixed = format!("F g 2; V 0{doubled}; N 5");
    assert_eq!(outcome(&lines(&format!("{mixed}; A 0 8 8; Y; Q 12"))), Outcome::Proved);
    assert_eq!(outcome(&lines(&format!("{mixed}; A 0 9 10; Y; Q 12"))), refused(9, 13));
}

/// "Two of them match if they are equal": goal p(m), fact p(n), in the engine and in the checker.
#[test]
fn equal_numbers() {
    for (goal, fact) in EDGES.iter().flat_map(|goal| EDGES.iter().map(move |fact| (goal, fact))) {
        let sheet = format!("P p 1; N {fact}; A 0 0; C 1; N {goal}; A 0 2; Q 3");
        let (text, line) = if goal == fact {
            ("R proved 3; D clause 1", 0)
        } else {
            ("R no 3", 2)
        };
        tells(&sheet, text);
        judge(&sheet, &[("R proved 3; D clause 1", line)]);
    }
}

/// "one never matches an application": whatever the symbol, its number and its name.
#[test]
fn numbers_and_symbols() {
    let names: String = (0..255).map(|symbol| format!("; F a{symbol} 0")).collect();
    for number in EDGES {
        for first in [0, 100, 155] {
            // 100 facts p(a), and p of a number as goal; then the other way round, one constant for each sheet.
            let facts: String = (0..100)
                .map(|fact| format!("; A {}; A 0 {}; C {}", first + fact + 1, 2 * fact, 2 * fact + 1))
                .collect();
            let sheet = format!("P p 1{names}{facts}; N {number}; A 0 200; Q 201");
            tells(&sheet, "R no 201");
            judge(
                &sheet,
                &[("R proved 3; D clause 1", 2), ("R proved 3; D clause 100", 2)],
            );
        }
        for symbol in EDGES.iter().filter(|&&symbol| (1..256).contains(&symbol)) {
            let sheet = format!("P p 1{names}; N {number}; A 0 0; C 1; A {symbol}; A 0 2; Q 3");
            tells(&sheet, "R no 3");
            judge(&sheet, &[("R proved 3; D clause 1", 2)]);
        }
    }
    // Neither does the name matter, nor that the symbol has arguments.
    tells("P p 1; F ch513 0; N 513; A 0 0; C 1; A 1; A 0 2; Q 3", "R no 3");
    tells("P p 1; F f 1; N 1; A 1 0; A 0 1; C 2; A 0 0; Q 3", "R no 3");
    tells("P p 1; F f 1; N 1; A 1 0; A 0 1; A 0 0; C 3; Q 2", "R no 3");
}

/// A unit for each pair, for each node of a range check and for each binding.
#[test]
fn units() {
    for (sheet, text) in [
        // Goal side a variable: take, try, pair, look.
        (
            "P p 1; N 513; A 0 0; C 1; V 4; A 0 2; Q 3",
            "R proved 4; B 4 513; D clause 1",
        ),
        // Clause side a variable: take, try, pair, look.
        (
            "P p 1; V 0; A 0 0; U 0 1; C 2; N 5; A 0 3; Q 4",
            "R proved 4; D clause 1 5",
        ),
        // The same node twice is no shortcut: take, try, pair, pair.
        ("P p 2; N 5; A 0 0 0; C 1; Q 1", "R proved 4; D clause 1"),
        // take, try, pair; try, pair.
        ("P p 1; N 1; A 0 0; C 1; N 2; A 0 2; C 3; Q 3", "R proved 5; D clause 2"),
        // g(3,4) and g(v0,v1): take, try, pair g, pair, look, pair, look.
        (
            "P p 1; F g 2; N 3; N 4; A 1 0 1; A 0 2; C 3; V 0; V 1; A 1 4 5; A 0 6; Q 7",
            "R proved 7; B 0 3; B 1 4; D clause 1",
        ),
        // g(3,4) and g(v0,v0): take, try, pair g, pair, look, pair, the binding of v0.
        (
            "P p 1; F g 2; N 3; N 4; A 1 0 1; A 0 2; C 3; V 0; A 1 4 4; A 0 5; Q 6",
            "R no 7",
        ),
        // v0 and g(1,g(2,3)) under every z eq(z,z): take, try, pair, look, pair, looks g, 1, g, 2, 3.
        (
            "P eq 2; V 0; A 0 0 0; U 0 1; C 2; F g 2; N 1; N 2; N 3; A 1 4 5; A 1 3 6; A 0 0 7; Q 8",
            "R proved 10; B 0 g(1,g(2,3)); D clause 1 g(1,g(2,3))",
        ),
        // The occurs check passes a number: take, take, try, pair, look, pair, looks g, 5, the binding of v0, and z.
        (
            "P p 2; F g 2; V 0; A 0 0 0; U 0 1; C 2; N 5; A 1 3 0; A 0 0 4; E 0 5; Q 6",
            "R no 10",
        ),
        // In a supposition: take, take, take, try, pair, look.
        (
            "P p 1; N 5; A 0 0; V 0; A 0 2; > 1 3; E 0 4; Q 5",
            "R proved 6; D some 5; D assume; D clause 1",
        ),
        // In a body: take q, try; take p, try, pair, look.
        (
            "P p 1; P q 0; N 5; A 0 0; A 1; > 1 2; C 3; V 0; A 0 4; U 0 5; C 6; Q 2",
            "R proved 7; D clause 1; D clause 2 5",
        ),
    ] {
        tells(sheet, text);
    }
    // Each of these units is needed.
    let sheet = lines("P eq 2; V 0; A 0 0 0; U 0 1; C 2; F g 2; N 1; N 2; N 3; A 1 4 5; A 1 3 6; A 0 0 7; Q 8");
    assert_eq!(answer(&sheet, 10, 100).0, Outcome::Proved);
    assert_eq!(answer(&sheet, 9, 100), (Outcome::Spent, 9, lines("R spent 9")));
}

/// "of level 0", and no made constant is a number.
#[test]
fn levels() {
    // some a every b eq(a, 9): take, take, take, try, pair, look, pair, look.
    tells(
        "P eq 2; V 0; A 0 0 0; U 0 1; C 2; N 9; A 0 0 3; U 1 4; E 0 5; Q 6",
        "R proved 8; D some 9; D all !0@1; D clause 1 9",
    );
    // p(5) is a fact, every v p(v) is not: take, take, try, pair.
    tells("P p 1; N 5; A 0 0; C 1; V 0; A 0 2; U 0 3; Q 4", "R no 4");
    // every v (p(v) implies p(5)): take, take, take, try, pair.
    tells("P p 1; V 0; A 0 0; N 5; A 0 2; > 1 3; U 0 4; Q 5", "R no 5");
    // every v some a p(a), from p(5): take, take, take, try, pair, look.
    tells(
        "P p 1; N 5; A 0 0; C 1; V 0; A 0 2; E 0 3; U 1 4; Q 5",
        "R proved 6; D all !0@1; D some 5; D clause 1",
    );
}

#[test]
fn spelling() {
    let sheet = "F a 0; F f 1; F g 2; P p 1; Y; E 0 0; Q 1";
    let right = "0 7 10 513 65535 f(0) f(65535) g(1,1) g(5,_0@0) g(_0@0,5) g(!0@0,5) g(f(5),A) G(0,F(0))";
    let wrong = "00 01 007 0513 000000 65536 99999 100000 4294967296 18446744073709551616 5() 5(a) 5(5) 7() 5) (5) 5( \
                 +5 -5 5a a5 5_ 5. 0x5 5@0 0@0 5_0@0 _5 !5 @5 5,5 f5 f(05) f(65536) f(5 f(5)5 5f(5) f(5()) f(5(a)) \
                 g(5) g(5,) g(,5) g(5,5,5) g(5;5) p(5) p";
    for (terms, line) in [(right, 0), (wrong, 2)] {
        for term in terms.split_whitespace() {
            let text = lines(&format!("R proved 2; D some {}; D true", term.replace(';', "\u{1}")));
            let expected = match line {
                0 => Verdict::Valid,
                line => Verdict::Invalid(line),
            };
            assert_eq!(check(&lines(sheet), &text), expected, "{term}");
        }
    }
}

/// "Any n may stand in a derivation and its text, whether or not the sheet has it."
#[test]
fn numbers_of_texts() {
    // p(v2) from every v0 p(v0), with no N line, and with N lines that nothing uses.
    for sheet in [
        "P p 1; V 0; A 0 0; U 0 1; C 2; V 2; A 0 3; Q 4",
        "P p 1; V 0; A 0 0; U 0 1; C 2; V 2; A 0 3; N 7; N 8; Q 4",
    ] {
        judge(
            sheet,
            &[
                ("R proved 4; B 2 _0@0; D clause 1 _0@0", 0),
                ("R proved 4; B 2 7; D clause 1 7", 0),
                ("R proved 4; B 2 0; D clause 1 0", 0),
                ("R proved 4; B 2 65535; D clause 1 65535", 0),
                ("R proved 4; B 2 7; D clause 1 8", 3),
                ("R proved 4; B 2 7; D clause 1 _0@0", 3),
                ("R proved 4; B 2 _0@0; D clause 1 7", 3),
                ("R proved 4; B 2 7; D clause 1 !0@0", 3),
                ("R proved 4; B 2 07; D clause 1 7", 2),
                ("R proved 4; B 2 7; D clause 1 07", 3),
                ("R proved 4; B 2 7; D clause 7 7", 3),
            ],
        );
    }
    // p(v2) from p(7).
    judge(
        "P p 1; F a 0; N 7; A 0 0; C 1; V 2; A 0 2; Q 3",
        &[
            ("R proved 4; B 2 7; D clause 1", 0),
            ("R proved 4; B 2 8; D clause 1", 3),
            ("R proved 4; B 2 263; D clause 1", 3),
            ("R proved 4; B 2 a; D clause 1", 3),
            ("R proved 4; B 2 _0@0; D clause 1", 3),
            ("R proved 4; B 2 !0@0; D clause 1", 3),
            ("R proved 4; B 2 7; D clause 1 7", 3),
        ],
    );
    // p(v2) from p(a), a being symbol 1.
    judge(
        "P p 1; F a 0; A 1; A 0 0; C 1; V 2; A 0 2; Q 3",
        &[
            ("R proved 4; B 2 a; D clause 1", 0),
            ("R proved 4; B 2 1; D clause 1", 3),
            ("R proved 4; B 2 0; D clause 1", 3),
            ("R proved 4; B 2 257; D clause 1", 3),
        ],
    );
    // A number is no made constant: every v p(v), from every z p(z) and from p(7).
    judge(
        "P p 1; V 0; A 0 0; U 0 1; C 2; N 7; A 0 3; C 4; Q 2",
        &[
            ("R proved 4; D all !0@1; D clause 1 !0@1", 0),
            ("R proved 4; D all 7; D clause 1 7", 2),
            ("R proved 4; D all 7; D clause 2", 2),
            ("R proved 4; D all 1; D clause 1 1", 2),
            ("R proved 4; D all !0@1; D clause 1 7", 3),
            ("R proved 4; D all !0@1; D clause 2", 3),
        ],
    );
    // A number has level 0 and may stand at every level.
    judge(
        "Y; E 0 0; U 1 1; E 2 2; Q 3",
        &[
            ("R proved 4; D some 5; D all !0@1; D some 5; D true", 0),
            ("R proved 4; D some 0; D all !0@1; D some 65535; D true", 0),
            // It is not numbered by showing.
            ("R proved 4; D some 5; D all !0@1; D some _0@1; D true", 0),
            ("R proved 4; D some 5; D all !0@1; D some _1@1; D true", 4),
        ],
    );
}
