//! Sheets at a limit of document 01 or one past it.

use reference::limits::{SHEET_BYTES, TEXT_BYTES};
use reference::{answer, Outcome};

use super::builder::Builder;
use super::numbers::some_number;
use crate::random::Random;

pub fn limits(random: &mut Random) -> Vec<u8> {
    let past = random.below(2);
    match random.below(24) {
        0 => symbols(past, random),
        1 => nodes(past, random),
        2 | 3 => clauses(past),
        4..=6 => members(past, random),
        7..=9 => term_size(past, random),
        10..=14 => forms(random),
        15..=18 => ends(past, random),
        19 => sheet_bytes(past),
        20 => text_bytes(random.below(3)),
        _ => repeated_names(random),
    }
}

/// 256 or 257 symbols, the last of them now and then declared before, which is refused under another number.
fn symbols(past: usize, random: &mut Random) -> Vec<u8> {
    let mut builder = Builder::new(false);
    for number in 0..255 + past {
        builder.function(&format!("a{number}"), 0);
    }
    let last = *random.pick(&["p", "p", "a7"]);
    let p = builder.predicate(last, 0);
    let atom = builder.apply(p, &[]);
    builder.clause(atom);
    builder.goal(atom)
}

/// 1,024 or 1,025 nodes: true, or numbers and true.
fn nodes(past: usize, random: &mut Random) -> Vec<u8> {
    let mut builder = Builder::new(false);
    let numbers = random.one_in(2);
    let mut goals = vec![builder.truth()];
    for _ in 1..1_024 + past {
        if numbers && random.one_in(2) {
            builder.number(some_number(random));
        } else {
            goals.push(builder.truth());
        }
    }
    goals.retain(|&goal| goal < 1_024);
    builder.goal(*random.pick(&goals))
}

fn clauses(past: usize) -> Vec<u8> {
    let mut builder = Builder::new(false);
    let p = builder.predicate("p", 0);
    let atom = builder.apply(p, &[]);
    for _ in 0..128 + past {
        builder.clause(atom);
    }
    builder.goal(atom)
}

/// 64 or 65 members, as a clause, as an assumption, or as a goal, which may have more.
fn members(past: usize, random: &mut Random) -> Vec<u8> {
    let mut builder = Builder::new(false);
    let p = builder.predicate("p", 0);
    let atom = builder.apply(p, &[]);
    let mut clause = atom;
    for _ in 0..63 + past {
        clause = builder.and(clause, atom);
    }
    match random.below(3) {
        0 => {
            builder.clause(clause);
            builder.goal(atom)
        }
        1 => {
            let goal = builder.implies(clause, atom);
            builder.goal(goal)
        }
        _ => {
            builder.clause(atom);
            builder.goal(clause)
        }
    }
}

/// A term of 1,024 or 1,025 variables, numbers and symbols.
fn term_size(past: usize, random: &mut Random) -> Vec<u8> {
    let mut builder = Builder::new(false);
    let g = builder.function("g", 2);
    let s = builder.function("s", 1);
    let mut term = if random.one_in(2) {
        builder.variable(0)
    } else {
        builder.number(some_number(random))
    };
    for _ in 0..9 {
        term = builder.apply(g, &[term, term]);
    }
    for _ in 0..1 + past {
        term = builder.apply(s, &[term]);
    }
    let p = builder.predicate("p", 1);
    let atom = builder.apply(p, &[term]);
    let clause = builder.every(0, atom);
    builder.clause(clause);
    builder.goal(atom)
}

/// Names, numbers, arities, variables and field counts at the edge of their forms.
fn forms(random: &mut Random) -> Vec<u8> {
    let long = |length: usize| "n".repeat(length);
    let edge = match random.below(15) {
        0 => format!("F {} 4", long(16 + random.below(2))),
        1 => format!("P {} 0", long(16 + random.below(2))),
        2 => format!("F m {}", 4 + random.below(2)),
        3 => format!("V {}", 7 + random.below(2)),
        4 => format!("E {} 1", 7 + random.below(2)),
        5 => format!("U {} 1", 7 + random.below(2)),
        6 => format!("& {} 1", 65_535 + random.below(2)),
        7 => format!("A {}", 65_535 + random.below(2)),
        8 => format!("C {}", 65_535 + random.below(2)),
        9 => format!("A 0{}", " 0".repeat(4 + random.below(2))),
        10 => format!("> {}1 1", "0".repeat(random.below(2))),
        11 => format!("N {}", 65_535 + random.below(2)),
        12 => format!("N {}7", "0".repeat(random.below(2))),
        13 => format!("N{}", " 7".repeat(random.below(3))),
        _ => format!("F {}m 0", random.pick(&["", "_", "9", "z"])),
    };
    let mut builder = Builder::new(false);
    builder.function("f", 4);
    builder.variable(0);
    let truth = builder.truth();
    builder.line(&edge);
    builder.goal(truth)
}

/// A clause with a variable left free, a missing Q line, lines after it.
fn ends(past: usize, random: &mut Random) -> Vec<u8> {
    let mut builder = Builder::new(false);
    let p = builder.predicate("p", 1);
    let v = builder.variable(5);
    let atom = builder.apply(p, &[v]);
    let clause = builder.every(5 - past as u8, atom);
    builder.clause(clause);
    let mut sheet = builder.goal(atom);
    match random.below(4) {
        0 => sheet.truncate(sheet.len() - 4),
        1 => sheet.extend(b"Q\t1\n"),
        2 => sheet.truncate(sheet.len() - 1),
        _ => {}
    }
    sheet
}

/// A name declared again, as the same kind or as the other.
fn repeated_names(random: &mut Random) -> Vec<u8> {
    let mut builder = Builder::new(false);
    builder.function("n", 0);
    match random.below(3) {
        0 => builder.function("n", 1),
        1 => builder.predicate("n", 0),
        _ => builder.predicate("m", 0),
    };
    let truth = builder.truth();
    builder.goal(truth)
}

/// A sheet of 16,384 or 16,385 bytes.
fn sheet_bytes(past: usize) -> Vec<u8> {
    let mut builder = Builder::new(false);
    let f = builder.function("f", 4);
    for _ in 0..=100 {
        builder.variable(0);
    }
    let truth = builder.truth();
    let left = |builder: &Builder| SHEET_BYTES + past - builder.sheet.len() - "Q\t101\n".len();
    // Lines of 20 bytes, at most one of 13, and lines of 2.
    while left(&builder) >= 33 {
        builder.apply(f, &[100, 100, 100, 100]);
    }
    if left(&builder) % 2 == 1 {
        builder.apply(f, &[0, 0, 0, 10]);
    }
    while left(&builder) > 0 {
        builder.truth();
    }
    builder.goal(truth)
}

/// A sheet whose answer text has 65,534, 65,535 or 65,536 bytes: two large terms, each shown twice, and lines of 7 and
/// 9 bytes.
fn text_bytes(which: usize) -> Vec<u8> {
    let (Outcome::Proved, _, text) = answer(&large_answer(0, 0), 50_000, TEXT_BYTES) else {
        unreachable!("the sheet without such lines is proved")
    };
    let wanted = TEXT_BYTES - 1 + which - text.len();
    let nines = (0..7)
        .find(|nines| (wanted - 9 * nines).is_multiple_of(7))
        .expect("7 and 9 have no common divisor");
    large_answer((wanted - 9 * nines) / 7, nines)
}

/// A sheet with an answer text of some 63,000 bytes, with so many lines `D left` and `D assume` more.
fn large_answer(lefts: usize, assumptions: usize) -> Vec<u8> {
    let mut builder = Builder::new(true);
    let g = builder.function("large_function_g", 2);
    let leaf = builder.function("leaf_of_12_b", 0);
    let idle = builder.predicate("idle", 0);
    let e = builder.equality();
    let mut term = builder.apply(leaf, &[]);
    for _ in 0..9 {
        term = builder.apply(g, &[term, term]);
    }
    let (x, y, idle) = (builder.variable(0), builder.variable(1), builder.apply(idle, &[]));
    let (first, second) = (builder.apply(e, &[x, term]), builder.apply(e, &[y, term]));
    let mut goal = builder.and(first, second);
    for _ in 0..lefts {
        goal = builder.or(goal, goal);
    }
    for _ in 0..assumptions {
        goal = builder.implies(idle, goal);
    }
    builder.goal(goal)
}

#[cfg(test)]
mod tests {
    use super::*;

    #[test]
    fn sizes_are_exact() {
        for past in 0..2 {
            let sheet = sheet_bytes(past);
            assert_eq!(sheet.len(), SHEET_BYTES + past);
            let outcome = answer(&sheet, 10, 100).0;
            assert_eq!(outcome == Outcome::Proved, past == 0, "{outcome:?}");
        }
        for which in 0..3 {
            let (outcome, _, text) = answer(&text_bytes(which), 50_000, 100_000);
            match which {
                2 => assert!(matches!(outcome, Outcome::Refused(_))),
                _ => assert_eq!((outcome, text.len()), (Outcome::Proved, TEXT_BYTES - 1 + which)),
            }
        }
    }
}
