//! Generated sheets: what document 01 promises of every sheet, budget and set of buffers.

mod common;

use std::collections::{BTreeMap, BTreeSet};

use calls::generate::{changed_case, checks, damaged, respelled_text, sheet, FAMILIES, LATEST};
use calls::random::Random;
use common::naive::Judge;
use reference::search::{search, End};
use reference::sheet::read;
use reference::{answer, check, check_text, engine_run, Outcome, Refusal, Verdict};

const SHEETS: u64 = 6_000;

/// Most budgets are small, to have all outcomes in little time.
fn budget(seed: u64) -> u32 {
    match seed % 97 {
        0 => 50_000,
        1..=9 => 256,
        _ => 2_000,
    }
}

fn name(outcome: Outcome) -> String {
    match outcome {
        Outcome::Refused(Refusal { number, .. }) => format!("refused {number:02}"),
        outcome => format!("{outcome:?}").to_lowercase(),
    }
}

#[test]
fn every_outcome_occurs() {
    let mut counts: BTreeMap<String, usize> = BTreeMap::new();
    for seed in 0..SHEETS {
        let (_, sheet) = sheet(seed);
        *counts.entry(name(answer(&sheet, budget(seed), 65_535).0)).or_default() += 1;
    }
    println!("{SHEETS} sheets: {counts:?}");
    for wanted in [
        "proved",
        "no",
        "spent",
        "refused 06",
        "refused 07",
        "refused 08",
        "refused 09",
        "refused 10",
        "refused 11",
        "refused 12",
    ] {
        assert!(counts.get(wanted).is_some_and(|&count| count >= 10), "{wanted} is rare");
    }
}

#[test]
fn the_checker_accepts_every_proof() {
    let mut proofs = 0;
    for seed in 0..SHEETS {
        let (family, sheet) = sheet(seed);
        let (outcome, _, text) = answer(&sheet, budget(seed), 65_535);
        match outcome {
            Outcome::Proved => {
                proofs += 1;
                assert_eq!(check(&sheet, &text), Verdict::Valid, "seed {seed}, {family:?}");
                if let Some(judge) = Judge::new(&sheet) {
                    assert_eq!(judge.judge(&text), 0, "seed {seed}, {family:?}");
                }
            }
            Outcome::No | Outcome::Spent => assert_eq!(check(&sheet, &text), Verdict::Invalid(1)),
            Outcome::Refused(Refusal { number: 12, .. }) => {}
            Outcome::Refused(refusal) => assert_eq!(check(&sheet, b"R\tproved\t1\n"), Verdict::Refused(refusal)),
        }
    }
    println!("{proofs} proofs");
}

/// The answer to proved and no needs its units and no more: below them spent, from them on the same answer.
#[test]
fn budgets_are_monotone() {
    for seed in 0..SHEETS {
        let (family, sheet) = sheet(seed);
        let budget = budget(seed);
        let first = answer(&sheet, budget, 65_535);
        match first.0 {
            Outcome::Proved | Outcome::No => {
                let needed = first.1;
                assert!((1..=budget).contains(&needed));
                for larger in [needed, needed + 1, 2 * needed, 50_000] {
                    if larger <= 50_000 {
                        assert_eq!(
                            answer(&sheet, larger, 65_535),
                            first,
                            "seed {seed}, {family:?}, budget {larger}"
                        );
                    }
                }
                for smaller in [1, needed / 2, needed - 1] {
                    if (1..needed).contains(&smaller) {
                        let text = format!("R\tspent\t{smaller}\n").into_bytes();
                        assert_eq!(
                            answer(&sheet, smaller, 65_535),
                            (Outcome::Spent, smaller, text),
                            "seed {seed}, {family:?}"
                        );
                    }
                }
                let length = first.2.len();
                assert_eq!(answer(&sheet, budget, length), first);
                assert_eq!(answer(&sheet, budget, length - 1).0, common::refused(12, 0));
            }
            Outcome::Spent => {
                for smaller in [1, budget / 2, budget - 1] {
                    assert_eq!(
                        answer(&sheet, smaller, 65_535).0,
                        Outcome::Spent,
                        "seed {seed}, {family:?}"
                    );
                }
            }
            Outcome::Refused(_) => {
                for other in [1, 10, 50_000] {
                    let again = answer(&sheet, other, 65_535).0;
                    // 12 alone depends on the budget: below the units it needs the walk is spent.
                    let spent = first.0 == common::refused(12, 0) && again == Outcome::Spent && other < budget;
                    assert!(again == first.0 || spent, "seed {seed}, {family:?}");
                }
            }
        }
    }
}

/// W-201: a third of the sheets have capitals in their names, some of these declare a name again, and the engine writes
/// names as declared.
#[test]
fn capitals_occur() {
    let (mut small, mut capital, mut again, mut written) = (0, 0, 0, 0);
    for seed in 0..SHEETS {
        let (family, sheet) = sheet(seed);
        let lines = sheet.split(|&byte| byte == b'\n');
        let names: Vec<&[u8]> = lines
            .filter_map(|line| line.strip_prefix(b"F\t").or(line.strip_prefix(b"P\t")))
            .map(|line| line.split(|&byte| byte == b'\t').next().unwrap_or(line))
            .collect();
        if !names.iter().any(|name| name.iter().any(u8::is_ascii_uppercase)) {
            small += 1;
            continue;
        }
        capital += 1;
        let (outcome, _, text) = answer(&sheet, budget(seed), 65_535);
        let folded: BTreeSet<Vec<u8>> = names.iter().map(|name| name.to_ascii_lowercase()).collect();
        let exact: BTreeSet<&[u8]> = names.iter().copied().collect();
        if folded.len() < exact.len() {
            again += 1;
            let refused = matches!(outcome, Outcome::Refused(Refusal { number: 1..=11, .. }));
            assert!(refused, "seed {seed}, {family:?}");
        }
        let terms = text
            .split(|&byte| byte == b'\n')
            .filter(|line| line.starts_with(b"B\t"));
        for term in terms.filter_map(|line| line.get(4..)) {
            let in_term = |byte: &u8| byte.is_ascii_alphanumeric() || b"_!@".contains(byte);
            for name in term.split(|byte| !in_term(byte)).filter(|name| !name.is_empty()) {
                let bare = name[0].is_ascii_alphabetic();
                assert!(!bare || exact.contains(name), "seed {seed}, {family:?}");
                written += usize::from(bare && name.iter().any(u8::is_ascii_uppercase));
            }
        }
    }
    println!(
        "{small} sheets in small letters, {capital} with capitals, {again} with a name again; {written} names written"
    );
    assert!(small > SHEETS / 2 && capital > SHEETS / 5 && again > 20 && written > 100);
}

/// W-204: a third of the sheets have N lines, of each family and with each outcome; numbers are written on every line
/// that has terms, bare and inside terms.
#[test]
fn numbers_occur() {
    let mut families: BTreeMap<String, u64> = BTreeMap::new();
    let mut outcomes: BTreeMap<String, u64> = BTreeMap::new();
    let mut written: BTreeMap<&str, u64> = BTreeMap::new();
    // Few sheets have both numbers and too many lines of a kind.
    let tried = 2 * SHEETS;
    for seed in 0..tried {
        let (family, sheet) = sheet(seed);
        if !sheet.split(|&byte| byte == b'\n').any(|line| line.starts_with(b"N\t")) {
            continue;
        }
        *families.entry(format!("{family:?}")).or_default() += 1;
        let (outcome, _, text) = answer(&sheet, budget(seed), 65_535);
        *outcomes.entry(name(outcome)).or_default() += 1;
        for line in String::from_utf8_lossy(&text).lines() {
            let fields: Vec<&str> = line.split('\t').collect();
            let (kind, terms) = match fields[..] {
                ["B", _, ref terms @ ..] => ("B", terms),
                ["D", "some", ref terms @ ..] => ("some", terms),
                ["D", "clause", _, ref terms @ ..] => ("clause", terms),
                _ => continue,
            };
            for term in terms {
                let starts_with_digit = |part: &str| part.starts_with(|byte: char| byte.is_ascii_digit());
                if starts_with_digit(term) {
                    *written.entry(kind).or_default() += 1;
                } else if term.split(['(', ',']).any(starts_with_digit) {
                    *written.entry("inside").or_default() += 1;
                }
            }
        }
    }
    let sheets: u64 = families.values().sum();
    println!("{sheets} of {tried} sheets with numbers: {outcomes:?}; terms written: {written:?}");
    assert!(sheets > tried / 4 && families.len() == FAMILIES.len() && families.values().all(|&count| count > 20));
    for wanted in [
        "proved",
        "no",
        "spent",
        "refused 06",
        "refused 07",
        "refused 08",
        "refused 09",
        "refused 12",
    ] {
        assert!(
            outcomes.get(wanted).is_some_and(|&count| count >= 3),
            "{wanted} is rare"
        );
    }
    for wanted in ["B", "some", "clause", "inside"] {
        assert!(
            written.get(wanted).is_some_and(|&count| count >= 50),
            "{wanted} is rare"
        );
    }
}

/// W-206: bindings are looked through, many in a run and several in a row, also by walks that end.
#[test]
fn bindings_occur() {
    const MANY: [u32; 4] = [1, 2, 5, 20];
    let (mut walks, mut followed, mut in_a_row, mut ended) = (0, [0; 4], [0; 4], [0; 4]);
    for seed in 0..SHEETS {
        let Ok(sheet) = read(&sheet(seed).1) else {
            continue;
        };
        let walk = search(&sheet, budget(seed), 1);
        walks += 1;
        for (place, many) in MANY.into_iter().enumerate() {
            followed[place] += u64::from(walk.bindings >= many);
            in_a_row[place] += u64::from(walk.longest_chain >= many);
            ended[place] += u64::from(walk.longest_chain >= many && !matches!(walk.end, End::Spent));
        }
    }
    println!(
        "{walks} walks; at least {MANY:?} bindings: {followed:?}, in a row {in_a_row:?}, of walks that end {ended:?}"
    );
    assert!(followed[0] > SHEETS / 3 && followed[1] > SHEETS / 5 && followed[2] > SHEETS / 10);
    assert!(ended[0] > SHEETS / 4 && ended[1] > SHEETS / 20 && ended[2] > SHEETS / 50);
}

/// W-207: a third of the sheets have an O line, most of them as their first line, and many of each kind of sheet and
/// outcome; some are refused for it. Proofs suppose something in both orders, at places past the first.
#[test]
fn orders_occur() {
    let mut outcomes: BTreeMap<String, u64> = BTreeMap::new();
    let (mut first, mut elsewhere, mut refused) = (0, 0, 0);
    let mut assumed = [0, 0];
    for seed in 0..SHEETS {
        let (_, sheet) = sheet(seed);
        let (outcome, _, text) = answer(&sheet, budget(seed), 65_535);
        let latest = sheet.starts_with(LATEST);
        let text = String::from_utf8_lossy(&text);
        let far = text
            .lines()
            .any(|line| line.starts_with("D\tclause\t") && !line.starts_with("D\tclause\t1"));
        assumed[usize::from(latest)] += u64::from(text.contains("D\tassume") && far);
        if latest {
            first += 1;
            *outcomes.entry(name(outcome)).or_default() += 1;
        }
        let mut lines = sheet.split_inclusive(|&byte| byte == b'\n').skip(usize::from(latest));
        if let Some(place) = lines.position(|line| line.starts_with(b"O")) {
            elsewhere += 1;
            let line = place as u32 + 1 + u32::from(latest);
            let refusals = [common::refused(6, line), common::refused(11, line)];
            refused += u64::from(refusals.contains(&outcome));
        }
    }
    println!(
        "{first} of {SHEETS} sheets begin with `O latest`: {outcomes:?}; {elsewhere} have another O line, {refused} are \
         refused for it; proofs that suppose something, by default and with `O latest`: {assumed:?}"
    );
    assert!(first > SHEETS / 4 && elsewhere > 50 && refused > 40 && assumed[0] > 200 && assumed[1] > 100);
    for wanted in [
        "proved",
        "no",
        "spent",
        "refused 06",
        "refused 08",
        "refused 09",
        "refused 11",
    ] {
        assert!(
            outcomes.get(wanted).is_some_and(|&count| count >= 3),
            "{wanted} is rare"
        );
    }
}

/// W-201: a proof with its names in any mix of cases is valid, and a letter or word in another case breaks its line.
#[test]
fn respelled_texts() {
    let mut respelled = 0;
    for seed in 0..SHEETS {
        let (family, sheet) = sheet(seed);
        let (Outcome::Proved, _, text) = answer(&sheet, budget(seed), 65_535) else {
            continue;
        };
        let mut random = Random::new(seed ^ 0xCA5E);
        let changed = respelled_text(&text, &mut random);
        assert_eq!(check(&sheet, &changed), Verdict::Valid, "seed {seed}, {family:?}");
        respelled += usize::from(changed != text);
        let changed = changed_case(&text, &mut random);
        let place = (0..text.len())
            .find(|&place| text[place] != changed[place])
            .expect("a change");
        let line = 1 + text[..place].iter().filter(|&&byte| byte == b'\n').count() as u32;
        assert_eq!(
            check(&sheet, &changed),
            Verdict::Invalid(line),
            "seed {seed}, {family:?}"
        );
    }
    println!("{respelled} texts respelled");
    assert!(respelled > 500);
}

fn dirty(random: &mut Random, numbers: usize) -> Vec<u32> {
    (0..numbers).map(|_| random.bits() as u32).collect()
}

#[test]
fn buffers_end_as_promised() {
    for seed in 0..3_000 {
        let (family, sheet) = sheet(seed);
        let mut random = Random::new(!seed);
        let budget = 1 + random.below(400) as u32;
        let demanded = 64 * budget as usize;
        let mut table = dirty(&mut random, 8_192);
        table.resize(8_192 + seed as usize % 50, 7);
        let mut work = dirty(&mut random, demanded);
        work.resize(demanded + seed as usize % 90, 9);
        let mut bytes: Vec<u8> = (0..random.below(700)).map(|_| random.bits() as u8).collect();
        let (old_table, old_work, old_bytes) = (table.clone(), work.clone(), bytes.clone());

        let run = engine_run(&sheet, budget, &mut table, &mut work, &mut bytes);
        let (outcome, units, text) = answer(&sheet, budget, bytes.len());
        assert_eq!(
            (run.outcome, run.units, run.length as usize),
            (outcome, units, text.len()),
            "seed {seed}, {family:?}"
        );
        // "On 1 to 5 no buffer changes."
        if sheet.len() > 16_384 {
            assert_eq!(outcome, common::refused(1, 0));
            assert_eq!((table, work, bytes), (old_table, old_work, old_bytes));
            continue;
        }
        assert!(table[..8_192]
            .iter()
            .chain(&work[..demanded])
            .all(|&number| number == 0));
        assert_eq!(table[8_192..], old_table[8_192..]);
        assert_eq!(work[demanded..], old_work[demanded..]);
        assert_eq!(bytes[..text.len()], text);
        assert_eq!(bytes[text.len()..], old_bytes[text.len()..]);

        let demanded = 64 * text.iter().filter(|&&byte| byte == b'\n').count();
        let (mut table, mut work) = (old_table.clone(), dirty(&mut random, demanded));
        work.resize(demanded + 5, 9);
        let verdict = check_text(&sheet, &text, &mut table, &mut work);
        assert_eq!(verdict, check(&sheet, &text));
        assert!(table[..8_192]
            .iter()
            .chain(&work[..demanded])
            .all(|&number| number == 0));
        assert_eq!(table[8_192..], old_table[8_192..]);
        assert_eq!(work[demanded..], [9; 5]);
    }
}

/// Damaged proofs: the checker and the judge by substitution say the same, line for line.
#[test]
fn damaged_texts() {
    let (mut texts, mut accepted, mut unjudged) = (0, 0, 0);
    for seed in 0..SHEETS {
        let (family, sheet) = sheet(seed);
        let (Outcome::Proved, _, text) = answer(&sheet, budget(seed), 65_535) else {
            continue;
        };
        let judge = Judge::new(&sheet);
        let mut random = Random::new(seed ^ 0x5EED);
        for _ in 0..12 {
            let mut changed = damaged(&text, &mut random);
            for _ in 0..random.below(3) {
                changed = damaged(&changed, &mut random);
            }
            texts += 1;
            let lines = changed.split_inclusive(|&byte| byte == b'\n').count() as u32;
            let line = match check(&sheet, &changed) {
                Verdict::Valid => {
                    accepted += 1;
                    0
                }
                Verdict::Invalid(line) => {
                    assert!((1..=lines + 1).contains(&line), "seed {seed}, {family:?}");
                    line
                }
                // Lines put in twice can make a text longer than 65,535 bytes.
                Verdict::Refused(refusal) => {
                    assert!(refusal.number == 4 && changed.len() > 65_535);
                    continue;
                }
            };
            match &judge {
                Some(judge) => assert_eq!(
                    line,
                    judge.judge(&changed),
                    "seed {seed}, {family:?}\n{}\n{}",
                    String::from_utf8_lossy(&sheet),
                    String::from_utf8_lossy(&changed)
                ),
                // Without the judge only a change of the units is known to keep a text valid.
                None => {
                    let after_first = |text: &[u8]| text.splitn(2, |&byte| byte == b'\n').nth(1).map(<[u8]>::to_vec);
                    assert!(
                        line > 0 || after_first(&changed) == after_first(&text),
                        "seed {seed}, {family:?}"
                    );
                    unjudged += 1;
                }
            }
        }
    }
    println!("{texts} damaged texts, {accepted} accepted, {unjudged} not judged by substitution");
    assert!(accepted > 0);
}

/// The texts by which a checker is compared with this one: the judge by substitution says the same of all that are
/// short.
#[test]
fn texts_of_calls() {
    let (mut judged, mut valid) = (0, 0);
    for seed in 0..SHEETS {
        for call in checks(seed) {
            let verdict = check(&call.sheet, &call.text);
            if matches!(verdict, Verdict::Refused(_)) || call.text.len() > 3_000 {
                continue;
            }
            let Some(judge) = Judge::new(&call.sheet) else {
                continue;
            };
            let line = match verdict {
                Verdict::Invalid(line) => line,
                _ => 0,
            };
            assert_eq!(
                line,
                judge.judge(&call.text),
                "seed {seed}\n{}\n{}",
                String::from_utf8_lossy(&call.sheet),
                String::from_utf8_lossy(&call.text)
            );
            judged += 1;
            valid += u32::from(line == 0);
        }
    }
    println!("{judged} texts judged twice, {valid} valid");
    assert!(judged > 2 * SHEETS as u32 && valid > judged / 10);
}
