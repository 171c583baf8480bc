//! W-202, "Show me the other ways": several proofs in one text, counted by hand; what the request says of every sheet, on
//! generated ones; and after no all derivations, by trying every term.

mod common;

use std::collections::BTreeSet;

use calls::generate::{asks, sheet, Family};
use common::derivations::{choices, derivations};
use common::naive::Judge;
use common::{lines, refused};
use reference::{answer, answers, check, engine_ask, interface, Answer, Outcome, Request, Verdict};

fn asked(sheet: &[u8], budget: u32, proofs: u32) -> Answer {
    answers(sheet, Request { budget, proofs }, 65_535)
}

/// The proofs of a text, each from its R line up to the next.
fn proofs_of(text: &[u8]) -> Vec<Vec<u8>> {
    let mut parts: Vec<Vec<u8>> = Vec::new();
    for line in text.split_inclusive(|&byte| byte == b'\n') {
        if line.starts_with(b"R\t") {
            parts.push(Vec::new());
        }
        parts.last_mut().expect("an R line comes first").extend(line);
    }
    parts.retain(|part| part.starts_with(b"R\tproved"));
    parts
}

/// A sheet asked for so many proofs with 256 units: the text, what the last R line tells, and each proof by itself.
fn tells(short: &str, proofs: u32, text: &str) {
    let sheet = lines(short);
    let told = asked(&sheet, 256, proofs);
    assert_eq!(
        String::from_utf8_lossy(&told.text),
        String::from_utf8_lossy(&lines(text)),
        "{short}"
    );
    let last = text
        .split(';')
        .map(str::trim)
        .rfind(|line| line.starts_with("R "))
        .unwrap();
    let word = match told.outcome {
        Outcome::Proved => "proved",
        Outcome::No => "no",
        Outcome::Spent => "spent",
        Outcome::Refused(_) => "refused",
    };
    assert_eq!(last, format!("R {word} {}", told.units), "{short}");
    let found = proofs_of(&told.text);
    assert_eq!(told.proofs as usize, found.len(), "{short}");
    for proof in found {
        assert_eq!(check(&sheet, &proof), Verdict::Valid, "{short}");
    }
}

const THREE_FACTS: &str =
    "P p 1; F a 0; A 1; A 0 0; C 1; F b 0; A 2; A 0 2; C 3; F c 0; A 3; A 0 4; C 5; V 0; A 0 6; Q 7";
const PROOFS: [&str; 3] = [
    "R proved 4; B 0 a; D clause 1",
    "R proved 7; B 0 b; D clause 2",
    "R proved 10; B 0 c; D clause 3",
];

#[test]
fn three_facts() {
    // Atom, member, pair, node a; then member, pair, node for each other fact.
    for number in 1..=3 {
        tells(THREE_FACTS, number, &PROOFS[..number as usize].join("; "));
    }
    for number in [4, 5, 63, 64] {
        tells(THREE_FACTS, number, &[&PROOFS[..], &["R no 10"]].concat().join("; "));
    }
}

/// A proof is told if its units are in the budget; with fewer proofs than asked for, spent if a unit was wanting.
#[test]
fn budgets() {
    let sheet = lines(THREE_FACTS);
    for budget in 1..=12 {
        let found = [4, 7, 10].iter().filter(|&&units| units <= budget).count();
        for proofs in 1..=5_u32 {
            let mut parts = PROOFS[..found.min(proofs as usize)].to_vec();
            let spent = format!("R spent {budget}");
            let outcome = if found >= proofs as usize {
                Outcome::Proved
            } else if budget >= 10 {
                parts.push("R no 10");
                Outcome::No
            } else {
                parts.push(&spent);
                Outcome::Spent
            };
            let told = asked(&sheet, budget, proofs);
            assert_eq!(told.text, lines(&parts.join("; ")), "{budget}, {proofs}");
            assert_eq!((told.outcome, told.proofs), (outcome, proofs.min(found as u32)));
        }
    }
}

#[test]
fn both_sides() {
    tells(
        "Y; | 0 0; | 1 1; Q 2",
        5,
        "R proved 3; D left; D left; D true; R proved 4; D left; D right; D true; \
         R proved 6; D right; D left; D true; R proved 7; D right; D right; D true; R no 7",
    );
    // The latest alternative is that of the goal taken later.
    tells(
        "Y; | 0 0; & 1 1; Q 2",
        4,
        "R proved 5; D and; D left; D true; D left; D true; R proved 6; D and; D left; D true; D right; D true; \
         R proved 9; D and; D right; D true; D left; D true; R proved 10; D and; D right; D true; D right; D true",
    );
}

/// Proofs with the same B lines are different ways.
#[test]
fn the_same_answer_twice() {
    // Atom, member, pair, node a; member, pair, node a; member, pair, node of the third.
    tells(
        "P p 1; F a 0; A 1; A 0 0; C 1; C 1; V 0; A 0 2; U 0 3; C 4; Q 3",
        64,
        "R proved 4; B 0 a; D clause 1; R proved 7; B 0 a; D clause 2; R proved 10; B 0 _0@0; D clause 3 _0@0; R no 10",
    );
    // By the rule and by the supposition, in either order.
    let text = "R proved 3; D assume; D clause 1; R proved 4; D assume; D clause 2; R no 4";
    tells("P p 0; A 0; C 0; > 0 0; Q 1", 3, text);
    tells("O latest; P p 0; A 0; C 0; > 0 0; Q 1", 3, text);
}

#[test]
fn numbered_from_0_each() {
    // Every or: constants made on either side; the variable of the second is not the first's either.
    tells(
        "P p 1; V 0; A 0 0; U 0 1; C 2; | 2 2; Q 3",
        3,
        "R proved 6; D left; D all !0@1; D clause 1 !0@1; R proved 11; D right; D all !0@1; D clause 1 !0@1; R no 11",
    );
    tells(
        "Y; E 0 0; | 1 1; Q 2",
        3,
        "R proved 3; D left; D some _0@0; D true; R proved 5; D right; D some _0@0; D true; R no 5",
    );
    tells(
        "P p 2; V 0; F a 0; A 1; A 0 0 1; U 0 2; C 3; F b 0; A 2; A 0 4 0; U 0 5; C 6; V 1; V 2; A 0 7 8; Q 9",
        2,
        "R proved 6; B 1 _0@0; B 2 a; D clause 1 _0@0; R proved 11; B 1 b; B 2 _0@0; D clause 2 _0@0",
    );
}

/// Bindings and levels are those at the proof: b is lowered by the first way alone.
#[test]
fn levels_at_each_proof() {
    tells(
        "P e 2; F g 1; V 7; A 0 0 0; U 7 1; C 2; V 0; V 1; A 1 4; A 0 3 5; Y; | 6 7; E 1 8; U 2 9; E 0 10; Q 11",
        3,
        "R proved 11; D some g(_0@0); D all !0@1; D some _0@0; D left; D clause 1 g(_0@0); \
         R proved 12; D some _0@0; D all !0@1; D some _1@1; D right; D true; R no 12",
    );
}

/// A failed branch between two proofs takes its units, and no R line.
#[test]
fn failures_between() {
    // Or; q taken, p tried; or, true; q taken, p tried; and then no.
    tells(
        "P p 0; P q 0; A 0; C 0; A 1; Y; | 1 2; | 3 1; Q 4",
        3,
        "R proved 5; D left; D right; D true; R no 7",
    );
}

#[test]
fn spent_in_the_middle() {
    // n(z), n(s(x)) if n(x): 4 units, and 8 for each further one, where bindings are looked through.
    let sheet = lines("P n 1; F z 0; A 1; A 0 0; C 1; V 0; A 0 2; F s 1; A 2 2; A 0 4; > 3 5; U 0 6; C 7; Q 3");
    let whole = asked(&sheet, 60, 64);
    assert_eq!((whole.outcome, whole.units, whole.proofs), (Outcome::Spent, 60, 8));
    for budget in 1..60 {
        let told = asked(&sheet, budget, 64);
        assert_eq!((told.outcome, told.units), (Outcome::Spent, budget));
        assert_eq!(told.proofs, (budget + 4) / 8);
        let found = proofs_of(&whole.text)[..told.proofs as usize].concat();
        let last = format!("R\tspent\t{budget}\n");
        assert_eq!(told.text, [&found, last.as_bytes()].concat());
    }
}

/// Refusal 12 is about the whole text, its last R line included.
#[test]
fn the_whole_text_in_the_answer() {
    let sheet = lines(THREE_FACTS);
    for (proofs, length) in [(1, 28), (2, 56), (3, 85), (4, 93)] {
        let ask = Request { budget: 256, proofs };
        let told = answers(&sheet, ask, length);
        assert_eq!(told.text.len(), length);
        for shorter in [0, 1, 27, 28, 29, 55, 56, 84, 92]
            .into_iter()
            .filter(|&shorter| shorter < length)
        {
            let refusal = answers(&sheet, ask, shorter);
            let nothing = Answer {
                outcome: refused(12, 0),
                units: 0,
                proofs: 0,
                text: Vec::new(),
            };
            assert_eq!(refusal, nothing);
        }
    }
    // 512 times true, with left and right before: 9 proofs are within 65,535 bytes, 10 are not.
    let doubled: String = (0..9).map(|node| format!("; & {node} {node}")).collect();
    let either: String = (9..21).map(|node| format!("; | {node} {node}")).collect();
    let sheet = lines(&format!("Y{doubled}{either}; Q 21"));
    assert_eq!(asked(&sheet, 50_000, 1).text.len(), 6_748);
    assert_eq!(asked(&sheet, 50_000, 9).outcome, Outcome::Proved);
    assert_eq!(asked(&sheet, 50_000, 10).outcome, refused(12, 0));
    let ask = Request {
        budget: 50_000,
        proofs: 10,
    };
    assert_eq!(answers(&sheet, ask, 1_000_000).outcome, refused(12, 0));
}

/// 1 to 64 pass; 64 ways are found as the number is reached, and with a 65th that is never looked for.
#[test]
fn numbers_of_proofs() {
    let sheet = lines(THREE_FACTS);
    for number in [0, 65, 66, 128, 256, 257, 65_536, 65_537, 1 << 31, u32::MAX] {
        assert_eq!(asked(&sheet, 256, number).outcome, refused(13, 0), "{number}");
    }
    for number in 1..=64 {
        assert_ne!(asked(&sheet, 256, number).outcome, refused(13, 0), "{number}");
    }
    for facts in [63, 64, 65, 100] {
        let facts_of = "; C 0".repeat(facts);
        let sheet = lines(&format!("P p 0; A 0{facts_of}; Q 0"));
        let told = asked(&sheet, 256, 64);
        let outcome = if facts < 64 { Outcome::No } else { Outcome::Proved };
        let found = facts.min(64) as u32;
        assert_eq!((told.outcome, told.units, told.proofs), (outcome, 1 + found, found));
    }
}

/// "right after 3, with line 0 and no buffer changed"
#[test]
fn the_order_of_13() {
    let right = lines(THREE_FACTS);
    let long = vec![b'x'; 16_385];
    // Budget, number of proofs, and the lengths of table and work buffer; what is refused.
    let calls = [
        (&long[..], [0, 0, 0, 0], 1),
        (&right, [0, 0, 8_191, 0], 2),
        (&right, [256, 0, 8_191, 0], 2),
        (&right, [0, 0, 8_192, 0], 3),
        (&right, [50_001, 65, 8_192, 0], 3),
        (&right, [256, 0, 8_192, 0], 13),
        (&right, [256, 65, 8_192, 16_383], 13),
        (&right, [256, 65, 8_192, 16_384], 13),
        (&right, [256, 64, 8_192, 16_383], 5),
        (b"x\n", [256, 65, 8_192, 16_384], 13),
        (b"x\n", [256, 64, 8_192, 16_383], 5),
        (b"x\n", [256, 64, 8_192, 16_384], 6),
    ];
    for (sheet, [budget, proofs, table, work], number) in calls {
        let (table, work) = (table as usize, work as usize);
        let (mut table, mut work) = (vec![7; table], vec![7; work]);
        let mut bytes = vec![7; 100];
        let run = engine_ask(sheet, Request { budget, proofs }, &mut table, &mut work, &mut bytes);
        assert_eq!(run.outcome, refused(number, u32::from(number == 6)));
        assert_eq!((run.units, run.proofs, run.length), (0, 0, 0));
        let left = if number == 6 { 0 } else { 7 };
        assert!(table.iter().chain(&work).all(|&number| number == left));
        assert!(bytes.iter().all(|&byte| byte == 7));
    }
}

/// The request is read as far as it is long; further numbers are not read.
#[test]
fn requests() {
    let sheet = lines(THREE_FACTS);
    for (request, told) in [
        (&[][..], [3, 0, 0, 3, 0, 0]),
        (&[256], [0, 4, 28, 0, 0, 1]),
        (&[256, 1], [0, 4, 28, 0, 0, 1]),
        (&[256, 2], [0, 7, 56, 0, 0, 2]),
        (&[256, 2, 0], [0, 7, 56, 0, 0, 2]),
        (&[256, 4, u32::MAX, 7], [1, 10, 93, 0, 0, 3]),
        (&[9, 4], [2, 9, 66, 0, 0, 2]),
        (&[256, 0], [3, 0, 0, 13, 0, 0]),
        (&[0, 2], [3, 0, 0, 3, 0, 0]),
    ] {
        for length in 0..9 {
            let (mut table, mut work) = (vec![7; 8_192], vec![7; 64 * 256]);
            let (mut bytes, mut result) = (vec![7; 100], vec![7; length]);
            let code = interface::ask(&sheet, request, &mut table, &mut work, &mut bytes, &mut result);
            assert_eq!(code, told[0]);
            let written = length.min(6);
            assert_eq!(result[..written], told[..written], "{request:?}");
            assert!(result[written..].iter().all(|&number| number == 7));
        }
    }
}

/// Each generated request: one proof is what document 01 tells; a larger number or budget goes on from the same proofs;
/// each proof is valid by itself, and they stand in walk order, each once.
#[test]
fn generated_requests() {
    let (mut texts, mut several, mut after) = (0, 0, 0);
    for seed in 0..12_000 {
        for call in asks(seed).into_iter().skip(1) {
            let (sheet, budget, proofs) = (&call.run.sheet, call.run.budget, call.proofs);
            let told = asked(sheet, budget, proofs);
            let (outcome, units, text) = answer(sheet, budget, 65_535);
            if let Outcome::Refused(_) = told.outcome {
                assert!(outcome == told.outcome || told.outcome == refused(12, 0), "seed {seed}");
                continue;
            }
            texts += 1;
            let found = proofs_of(&told.text);
            assert_eq!(told.proofs as usize, found.len(), "seed {seed}");
            match found.first() {
                Some(first) => assert_eq!((outcome, &text), (Outcome::Proved, first), "seed {seed}"),
                None => assert_eq!(
                    (outcome, units, &text),
                    (told.outcome, told.units, &told.text),
                    "seed {seed}"
                ),
            }
            several += u32::from(found.len() > 1);
            after += u32::from(!found.is_empty() && told.outcome != Outcome::Proved);
            for fewer in 1..proofs {
                let shorter = asked(sheet, budget, fewer);
                if fewer <= told.proofs {
                    assert_eq!(shorter.text, found[..fewer as usize].concat(), "seed {seed}");
                    assert_eq!(shorter.outcome, Outcome::Proved, "seed {seed}");
                } else {
                    assert_eq!(shorter, told, "seed {seed}");
                }
            }
            for smaller in [budget / 2, budget.saturating_sub(1)]
                .into_iter()
                .filter(|&budget| budget > 0)
            {
                let shorter = asked(sheet, smaller, proofs);
                assert!(found.starts_with(&proofs_of(&shorter.text)), "seed {seed}");
            }
            let ways: Vec<Vec<u32>> = found.iter().map(|proof| choices(proof)).collect();
            assert!(ways.windows(2).all(|pair| pair[0] < pair[1]), "seed {seed}: walk order");
            let judge = Judge::new(sheet);
            for proof in &found {
                assert_eq!(check(sheet, proof), Verdict::Valid, "seed {seed}");
                assert!(
                    judge.as_ref().is_none_or(|judge| judge.judge(proof) == 0),
                    "seed {seed}"
                );
            }
        }
    }
    println!("{texts} texts, {several} of several proofs, {after} that go on to no or spent");
    assert!(several > 300 && after > 300);
}

/// After no the proofs are the ways of all derivations, in walk order: on sheets without functions that have arguments,
/// found by trying every constant in every place.
#[test]
fn no_further_path() {
    const MOST: usize = 20_000;
    let (mut compared, mut ways) = (0, 0);
    for seed in 0..20_000 {
        let (family, sheet) = sheet(seed);
        let small = [
            Family::Alternatives,
            Family::Propositions,
            Family::Scopes,
            Family::Suppositions,
            Family::Channels,
        ];
        let Some(constants) = constants(&sheet).filter(|_| small.contains(&family)) else {
            continue;
        };
        let told = asked(&sheet, 400, 64);
        if told.outcome != Outcome::No {
            continue;
        }
        let Some(all) = derivations(&sheet, &constants, MOST) else {
            continue;
        };
        let found = proofs_of(&told.text);
        let found: Vec<Vec<u32>> = found.iter().map(|proof| choices(proof)).collect();
        assert_eq!(
            found,
            all.into_iter().collect::<Vec<_>>(),
            "seed {seed}, {family:?}:\n{}",
            String::from_utf8_lossy(&sheet)
        );
        compared += 1;
        ways += found.len();
    }
    println!("{compared} sheets, {ways} derivations");
    assert!(compared > 300 && ways > 1_000);
}

/// The constants and numbers of a sheet and one constant more; none if a function has arguments.
fn constants(sheet: &[u8]) -> Option<Vec<String>> {
    let sheet = std::str::from_utf8(sheet).ok()?;
    let mut constants = BTreeSet::from(["_0@0".to_string()]);
    for line in sheet.lines() {
        match line.split('\t').collect::<Vec<_>>()[..] {
            ["F", name, "0"] => constants.insert(name.to_ascii_lowercase()),
            ["F", ..] => return None,
            ["N", number] => constants.insert(number.to_string()),
            _ => continue,
        };
    }
    Some(constants.into_iter().collect())
}
