//! Sheets with texts made for one part of the checker: depth, length, numbering, levels, places, assumptions.
//! Mostly short; the long ones are as long as a text can be.

use crate::random::Random;

/// A sheet and a text for it.
pub fn special_text(random: &mut Random) -> (Vec<u8>, Vec<u8>) {
    let large = random.one_in(100);
    match random.below(8) {
        0 => deep(if large { 21_800 } else { random.below(60) }, random),
        1 if large => exact_length(65_533 + random.below(4)),
        1 => exact_length(40 + random.below(200)),
        2 | 6 => numbered(if large { 11 } else { random.below(6) }, random),
        7 => made(if large { 11 } else { random.below(6) }, random),
        3 => placed(if large { 1_024 } else { random.below(8) }, random),
        4 => leveled(if large { 1_500 } else { random.below(12) }, random),
        _ => assumed(if large { 2_000 } else { random.below(12) }, random),
    }
}

fn bytes(lines: &str) -> Vec<u8> {
    let mut bytes = Vec::new();
    for line in lines.split(';').map(str::trim) {
        bytes.extend(line.replace(' ', "\t").bytes());
        bytes.push(b'\n');
    }
    bytes
}

/// Some v true, with a witness of that depth, now and then with a bracket too many or too few.
fn deep(depth: usize, random: &mut Random) -> (Vec<u8>, Vec<u8>) {
    let closing = match random.below(10) {
        0 => depth + 1,
        1 => depth.saturating_sub(1),
        _ => depth,
    };
    let leaf = *random.pick(&["a", "_0@0", "!0@0", "_0@1", "b", "", "0", "65535", "65536", "07"]);
    let term = format!("{}{leaf}{}", "s(".repeat(depth), ")".repeat(closing));
    (
        bytes("F s 1; F a 0; Y; E 0 0; Q 1"),
        bytes(&format!("R proved 2; D some {term}; D true")),
    )
}

/// A right text of that many bytes.
fn exact_length(length: usize) -> (Vec<u8>, Vec<u8>) {
    let around = "R\tproved\t2\nD\tsome\t\nD\ttrue\n".len();
    let left = length - around;
    let name = ["a", "bb", "ccc"][(left + 2) % 3];
    let depth = (left - name.len()) / 3;
    let term = format!("{}{name}{}", "s(".repeat(depth), ")".repeat(depth));
    (
        bytes("F s 1; F a 0; F bb 0; F ccc 0; Y; E 0 0; Q 1"),
        bytes(&format!("R proved 2; D some {term}; D true")),
    )
}

/// 2^doublings goals "some v true", under "every": new variables and constants, and ones shown before, each with its
/// level 0 or 1; now and then a wrong number, or a number with another level.
fn numbered(doublings: usize, random: &mut Random) -> (Vec<u8>, Vec<u8>) {
    let rare = if doublings > 8 { 4_000 } else { 60 };
    let mut text = String::from("R proved 9; D all !0@1");
    // How many are shown of each kind; the first constant is the one above.
    let mut shown = [0, 1];
    for leaf in 0..1 << doublings {
        text.push_str(&ands_before(leaf, doublings));
        let kind = random.below(2);
        let number = if random.one_in(rare) {
            shown[kind] + 1
        } else if shown[kind] > 0 && random.one_in(4) {
            random.below(shown[kind])
        } else {
            shown[kind]
        };
        shown[kind] = shown[kind].max(number + 1);
        let level = (number + 1 + usize::from(random.one_in(rare))) % 2;
        let mark = ["_", "!"][kind];
        text.push_str(&format!("; D some {mark}{number}@{level}; D true"));
    }
    let sheet = doubled("Y; E 0 0", doublings);
    (
        bytes(&format!("{sheet}; U 1 {}; Q {}", doublings + 1, doublings + 2)),
        bytes(&text),
    )
}

/// 2^doublings goals "every v true": the constants are new or shown before, now and then of a wrong level.
fn made(doublings: usize, random: &mut Random) -> (Vec<u8>, Vec<u8>) {
    let mut text = String::from("R proved 9");
    let mut shown = 0;
    for leaf in 0..1 << doublings {
        text.push_str(&ands_before(leaf, doublings));
        let number = if random.one_in(3) {
            random.below(shown + 1)
        } else {
            shown
        };
        shown = shown.max(number + 1);
        let level = if random.one_in(40) { random.below(3) } else { 1 };
        let mark = if random.one_in(60) { '_' } else { '!' };
        text.push_str(&format!("; D all {mark}{number}@{level}; D true"));
    }
    let sheet = doubled("Y; U 0 0", doublings);
    (bytes(&format!("{sheet}; Q {}", doublings + 1)), bytes(&text))
}

/// A sheet's node 1 doubled so often by "and".
fn doubled(sheet: &str, doublings: usize) -> String {
    let mut sheet = String::from(sheet);
    for node in 1..=doublings {
        sheet.push_str(&format!("; & {node} {node}"));
    }
    sheet
}

/// The "and" lines of the subtrees that begin with a leaf.
fn ands_before(leaf: usize, doublings: usize) -> String {
    let begun = if leaf == 0 {
        doublings
    } else {
        leaf.trailing_zeros() as usize
    };
    "; D and".repeat(begun)
}

/// The lines of a sheet in some order, and how many assumptions stand before its clauses for each that is made. Now and
/// then the number is that of the other order, so that the places are wrong.
fn ordered(sheet: &str, random: &mut Random) -> (Vec<u8>, usize) {
    let latest = random.one_in(2);
    let before = latest != random.one_in(10);
    let sheet = if latest {
        format!("O latest; {sheet}")
    } else {
        sheet.to_string()
    };
    (bytes(&sheet), usize::from(before))
}

/// p if (64 times p implies p), so often used: the last place is any, with the edge of the numbers among them.
fn placed(rounds: usize, random: &mut Random) -> (Vec<u8>, Vec<u8>) {
    let sheet = "P p 0; A 0; & 0 0; & 1 1; & 2 2; & 3 3; & 4 4; & 5 5; > 6 0; > 7 0; C 8; Q 0";
    let (sheet, before) = ordered(sheet, random);
    let mut text = String::from("R proved 1");
    for round in 0..rounds {
        text.push_str(&format!("; D clause {}; D assume", 64 * before * round + 1));
    }
    let last = match random.below(4) {
        0 => 64 * rounds + random.below(3),
        1 => random.below(64 * rounds + 3),
        2 => 65_535,
        _ => 65_536,
    };
    (sheet, bytes(&format!("{text}; D clause {last}")))
}

/// p if every v p, so often used, with the constants of their levels, now and then a wrong one; then p as a fact.
fn leveled(rounds: usize, random: &mut Random) -> (Vec<u8>, Vec<u8>) {
    let mut text = String::from("R proved 1");
    for round in 0..rounds {
        let level = round
            + if random.one_in(3 * rounds.max(4)) {
                random.below(3)
            } else {
                1
            };
        text.push_str(&format!("; D clause 1; D all !{round}@{level}"));
    }
    (
        bytes("P p 0; A 0; U 0 0; > 1 0; C 2; C 0; Q 0"),
        bytes(&format!("{text}; D clause 2")),
    )
}

/// p if (q(v) implies p), so often used with any term for v; then q(a), or q(7), from one of the assumptions.
fn assumed(rounds: usize, random: &mut Random) -> (Vec<u8>, Vec<u8>) {
    let (wanted, terms) = if random.one_in(2) {
        ("A 2", ["b", "b", "b", "2", "a"])
    } else {
        ("N 7", ["8", "263", "b", "65535", "7"])
    };
    let rules = "P p 0; P q 1; F a 0; F b 0; V 0; A 1 0; A 0; > 1 2; > 3 2; U 0 4; C 5";
    let (sheet, before) = ordered(&format!("{rules}; {wanted}; A 1 6; > 7 2; C 8; Q 2"), random);
    let mut text = String::from("R proved 1");
    for round in 0..rounds {
        let term = *random.pick(&terms);
        text.push_str(&format!("; D clause {} {term}; D assume", before * round + 1));
    }
    // The two rules stand before the assumptions, or behind them.
    let last = 1 + 2 * (1 - before) + random.below(rounds + 1);
    let rule = before * rounds + 2;
    (sheet, bytes(&format!("{text}; D clause {rule}; D clause {last}")))
}
