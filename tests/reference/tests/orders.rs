//! W-207, house rules before suppositions: the sheet's clauses in order, then the assumptions, oldest first; with the
//! first line `O latest` the assumptions, latest first, then the sheet's clauses.

mod common;

use std::collections::BTreeMap;

use calls::generate::builder::Builder;
use calls::generate::{sheet, LATEST};
use calls::random::Random;
use calls::stored::{cases, stored};
use common::{lines, outcome, refused, unclosed};
use reference::{answer, check, Outcome, Refusal, Verdict};

/// The sheet in the former order.
fn latest_first(sheet: &[u8]) -> Vec<u8> {
    [LATEST, sheet].concat()
}

/// A refusal for a line, one line lower; any other answer as it is.
fn one_line_lower(outcome: Outcome) -> Outcome {
    match outcome {
        Outcome::Refused(Refusal { number, line }) if line > 0 => refused(number, line + 1),
        outcome => outcome,
    }
}

#[test]
fn o_lines() {
    for (sheet, expected) in [
        ("Y; Q 0", Outcome::Proved),
        ("O latest; Y; Q 0", Outcome::Proved),
        // "An O line elsewhere, or with another word, is refused under 6".
        ("O oldest; Y; Q 0", refused(6, 1)),
        ("O; Y; Q 0", refused(6, 1)),
        ("O latest latest; Y; Q 0", refused(6, 1)),
        ("O Latest; Y; Q 0", refused(6, 1)),
        ("o latest; Y; Q 0", refused(6, 1)),
        ("O lates; Y; Q 0", refused(6, 1)),
        ("O latests; Y; Q 0", refused(6, 1)),
        ("O latest; O latest; Y; Q 0", refused(6, 2)),
        ("O latest; O oldest; Y; Q 0", refused(6, 2)),
        ("Y; O latest; Q 0", refused(6, 2)),
        ("; O latest; Y; Q 0", refused(6, 1)),
        ("O oldest; O latest; Y; Q 0", refused(6, 1)),
        // "after a Q line under 11".
        ("Y; Q 0; O latest", refused(11, 3)),
        ("Y; Q 0; O oldest", refused(11, 3)),
        ("O latest; Y; Q 0; O latest", refused(11, 4)),
        // It is a line, and makes neither a symbol nor a node.
        ("O latest", refused(11, 2)),
        ("O latest; Y", refused(11, 3)),
        ("O latest; Y; Q 1", refused(8, 3)),
        ("O latest; A 0", refused(8, 2)),
        ("O latest; x", refused(6, 2)),
        // A Q line that is itself refused wins over what follows it.
        ("Q 0; O latest", refused(8, 1)),
    ] {
        assert_eq!(outcome(&lines(sheet)), expected, "{sheet}");
        // A bad text hides no refusal.
        if let Outcome::Refused(refusal) = expected {
            assert_eq!(check(&lines(sheet), b""), Verdict::Refused(refusal), "{sheet}");
        }
    }
    assert_eq!(outcome(&unclosed("O latest")), refused(6, 1));
    assert_eq!(outcome(&unclosed("Y; Q 0; O latest")), refused(11, 3));
    assert_eq!(outcome(&unclosed("Y; Q 0; O")), refused(11, 3));
    for bytes in [
        &b"O latest\nY\nQ\t0\n"[..],
        b"O\tlatest\t\nY\nQ\t0\n",
        b"O\tlatest\r\nY\nQ\t0\n",
        b"\tO\tlatest\nY\nQ\t0\n",
        b"O\t\tlatest\nY\nQ\t0\n",
        b"O\t\nY\nQ\t0\n",
        b"\xef\xbb\xbfO\tlatest\nY\nQ\t0\n",
        b"O\tlatestY\nQ\t0\n",
    ] {
        assert_eq!(outcome(bytes), refused(6, 1), "{}", bytes.escape_ascii());
    }
}

/// The line in bytes: each of its bytes exchanged for each other byte.
#[test]
fn o_lines_byte_by_byte() {
    let right = latest_first(b"Y\nQ\t0\n");
    assert_eq!(outcome(&right), Outcome::Proved);
    for place in 0..LATEST.len() {
        for byte in (0..=255).filter(|&byte| byte != right[place]) {
            let mut changed = right.clone();
            changed[place] = byte;
            assert_eq!(outcome(&changed), refused(6, 1), "{}", changed.escape_ascii());
        }
    }
}

/// A sheet of so many facts and nested suppositions, of so many members each, every one with a predicate of its own,
/// counted in the order in which they are made; the goal is one of them.
fn nested(facts: usize, suppositions: usize, members: usize, goal: usize) -> Vec<u8> {
    let atoms = facts + suppositions * members;
    let mut short: Vec<String> = (0..atoms).map(|atom| format!("P p{atom} 0")).collect();
    short.extend((0..atoms).map(|atom| format!("A {atom}")));
    short.extend((0..facts).map(|fact| format!("C {fact}")));
    let mut nodes = atoms;
    let mut make = |line: String| {
        short.push(line);
        nodes += 1;
        nodes - 1
    };
    let mut whole = goal;
    for supposition in (0..suppositions).rev() {
        let first = facts + supposition * members;
        let supposed = (first + 1..first + members).fold(first, |left, atom| make(format!("& {left} {atom}")));
        whole = make(format!("> {supposed} {whole}"));
    }
    lines(&format!("{}; Q {whole}", short.join("; ")))
}

/// "Places in D lines follow the order in force": the walk tries the members up to the place of the goal, and the checker
/// finds it at this place alone.
#[test]
fn places() {
    for facts in 0..3 {
        for (suppositions, members) in [(1, 1), (1, 4), (2, 1), (2, 3), (3, 2), (4, 3), (5, 1)] {
            let atoms = facts + suppositions * members;
            for goal in 0..atoms {
                let sheet = nested(facts, suppositions, members, goal);
                // In the former order the facts stand behind all suppositions, and among these the last is the first.
                let former = match goal.checked_sub(facts) {
                    None => suppositions * members + goal,
                    Some(member) => (suppositions - 1 - member / members) * members + member % members,
                };
                for (sheet, before) in [(&latest_first(&sheet), former), (&sheet, goal)] {
                    let text = |place: usize, units: usize| {
                        let assumes = "; D assume".repeat(suppositions);
                        lines(&format!("R proved {units}{assumes}; D clause {place}"))
                    };
                    let place = before + 1;
                    let units = suppositions + 1 + place;
                    assert_eq!(answer(sheet, 50_000, 65_535).2, text(place, units));
                    for other in 0..atoms + 3 {
                        let expected = if other == place {
                            Verdict::Valid
                        } else {
                            Verdict::Invalid(suppositions as u32 + 2)
                        };
                        assert_eq!(check(sheet, &text(other, units)), expected);
                    }
                }
            }
        }
    }
}

/// The same clauses and the same goal G, in three shapes. H are the sheet's clauses, D the suppositions.
#[derive(Clone, Copy, PartialEq)]
enum Shape {
    /// H1, H2, ... on the sheet, and the goal D1 implies (D2 implies (... G)).
    Apart,
    /// The goal (H1 and H2 and ... and D1 and D2 and ...) implies G.
    Joined,
    /// The goal (... and D2 and D1 and H1 and H2 and ...) implies G.
    JoinedLatestFirst,
}

/// The sheet of a seed and its number of suppositions around G.
fn shaped(seed: u64, shape: Shape) -> (Vec<u8>, u32) {
    let random = &mut Random::new(seed);
    let mut builder = Builder::new(true);
    let functions = [("a", 0), ("b", 0), ("f", 1)].map(|(name, arity)| builder.function(name, arity));
    let predicates = ["p", "q", "r"].map(|name| builder.predicate(name, 1));
    let house: Vec<usize> = (0..random.below(3))
        .map(|_| {
            let open = some_clause(&mut builder, random, functions, predicates);
            let inner = builder.every(1, open);
            builder.every(0, inner)
        })
        .collect();
    let supposed: Vec<usize> = (0..1 + random.below(5))
        .map(|_| {
            let first = some_clause(&mut builder, random, functions, predicates);
            let second = some_clause(&mut builder, random, functions, predicates);
            if random.one_in(2) {
                builder.and(first, second)
            } else {
                first
            }
        })
        .collect();
    let (left, right) = (
        some_atom(&mut builder, random, functions, predicates),
        some_atom(&mut builder, random, functions, predicates),
    );
    let goal = builder.and(left, right);
    let joined: Vec<usize> = match shape {
        Shape::Apart => {
            house.iter().for_each(|&clause| builder.clause(clause));
            let whole = supposed.iter().rev();
            let whole = whole.fold(goal, |goal, &clause| builder.implies(clause, goal));
            return (builder.goal(whole), supposed.len() as u32);
        }
        Shape::Joined => house.iter().chain(&supposed).copied().collect(),
        Shape::JoinedLatestFirst => supposed.iter().rev().chain(&house).copied().collect(),
    };
    let one = joined.into_iter().reduce(|left, right| builder.and(left, right));
    let whole = builder.implies(one.expect("a supposition"), goal);
    (builder.goal(whole), 1)
}

fn some_atom(builder: &mut Builder, random: &mut Random, [a, b, f]: [usize; 3], predicates: [usize; 3]) -> usize {
    let argument = match random.below(6) {
        0 | 1 => builder.variable(random.below(2) as u8),
        2 => builder.apply(a, &[]),
        3 => builder.apply(b, &[]),
        _ => {
            let inner = builder.variable(random.below(2) as u8);
            builder.apply(f, &[inner])
        }
    };
    builder.apply(*random.pick(&predicates), &[argument])
}

/// A fact, a rule, or a rule whose body supposes something.
fn some_clause(builder: &mut Builder, random: &mut Random, functions: [usize; 3], predicates: [usize; 3]) -> usize {
    let [head, body, supposed] = [(); 3].map(|()| some_atom(builder, random, functions, predicates));
    match random.below(5) {
        0 => builder.implies(body, head),
        1 => {
            let body = builder.implies(supposed, body);
            builder.implies(body, head)
        }
        _ => head,
    }
}

/// What is told without the suppositions around the goal: their units, and their lines.
fn inside(sheet: &[u8], suppositions: u32) -> (Outcome, u32, String) {
    let (outcome, units, text) = answer(sheet, 1_000 + suppositions, 65_535);
    let text = String::from_utf8(text).expect("a text is ASCII");
    let (_, lines) = text.split_once('\n').expect("a first line");
    let lines = lines.replacen("D\tassume\n", "", suppositions as usize);
    (outcome, units - suppositions, lines)
}

/// Suppositions inside one another are tried as one supposition that has their members in the order in force: within
/// each, left to right in either order. So are the sheet's clauses, before them or behind them.
#[test]
fn one_supposition_in_place_of_several() {
    let mut seen: BTreeMap<String, u32> = BTreeMap::new();
    for seed in 0..20_000 {
        let (apart, several) = shaped(seed, Shape::Apart);
        let (joined, one) = shaped(seed, Shape::Joined);
        let told = inside(&apart, several);
        assert_eq!(told, inside(&joined, one), "seed {seed}");
        let (joined, one) = shaped(seed, Shape::JoinedLatestFirst);
        let former = inside(&latest_first(&apart), several);
        assert_eq!(former, inside(&latest_first(&joined), one), "seed {seed}");
        let same = if told == former { "alike" } else { "otherwise" };
        *seen.entry(format!("{:?}, {same}", told.0)).or_default() += 1;
    }
    println!("by default, and whether with `O latest` too: {seen:?}");
    assert!(seen["Proved, otherwise"] > 1_000 && seen["Spent, otherwise"] > 100 && seen["No, alike"] > 1_000);
}

/// The answers to the cases that were stored before W-207, all in the former order, are those with `O latest`; refusals
/// stand one line lower.
#[test]
fn former_answers() {
    let mut compared = 0;
    for (name, sheet) in cases().into_iter().filter(|(name, _)| !name.starts_with("w207")) {
        for budget in [256, 50_000] {
            let told = stored(&name, &budget.to_string());
            let answer_bytes = if budget == 256 { 16_384 } else { 65_535 };
            if sheet.starts_with(LATEST) {
                let (_, _, text) = answer(&sheet, budget, answer_bytes);
                assert_eq!(text, told, "{name}");
            } else {
                let by_default = answer(&sheet, budget, answer_bytes);
                let (outcome, _, text) = answer(&latest_first(&sheet), budget, answer_bytes);
                assert_eq!(outcome, one_line_lower(by_default.0), "{name}");
                assert_eq!(text, by_default.2, "{name}");
                assert!(matches!(outcome, Outcome::Refused(_)) || text == told, "{name}");
            }
            compared += 1;
        }
    }
    assert!(compared > 400);
}

/// "No goal is told proved under one order and no under the other; a goal may be spent under one only." A refused sheet is
/// refused in both.
#[test]
fn outcomes_in_both_orders() {
    let mut pairs: BTreeMap<String, u32> = BTreeMap::new();
    let (mut otherwise, mut proofs) = (0, 0);
    for seed in 0..30_000 {
        let (family, sheet) = sheet(seed);
        let sheet = sheet.strip_prefix(LATEST).unwrap_or(&sheet).to_vec();
        let latest = latest_first(&sheet);
        // A second O line is one too many, and 9 bytes more may be too many.
        if sheet.starts_with(LATEST) || latest.len() > 16_384 {
            continue;
        }
        let [by_default, former] = [&sheet, &latest].map(|sheet| {
            let told = answer(sheet, 300, 65_535);
            if told.0 == Outcome::Proved {
                proofs += 1;
                assert_eq!(check(sheet, &told.2), Verdict::Valid, "seed {seed}, {family:?}");
            }
            told
        });
        match (by_default.0, former.0) {
            // The places are others, and with them the length of the text.
            (Outcome::Refused(Refusal { number: 12, .. }), _) | (_, Outcome::Refused(Refusal { number: 12, .. })) => {}
            (Outcome::Refused(_), _) | (_, Outcome::Refused(_)) => {
                assert_eq!(former.0, one_line_lower(by_default.0), "seed {seed}, {family:?}");
            }
            outcomes => {
                let verdicts = [(Outcome::Proved, Outcome::No), (Outcome::No, Outcome::Proved)];
                assert!(!verdicts.contains(&outcomes), "seed {seed}, {family:?}: {outcomes:?}");
                *pairs.entry(format!("{outcomes:?}")).or_default() += 1;
                otherwise += u32::from(by_default != former);
            }
        }
    }
    println!("by default, and with `O latest`: {pairs:?}; {otherwise} answered otherwise; {proofs} proofs");
    assert!(pairs["(Proved, Spent)"] > 10 && pairs["(Spent, Proved)"] > 10 && otherwise > 1_000);
}
