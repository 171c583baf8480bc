//! Damaged bytes.

use crate::random::Random;

/// The bytes with one thing changed: a byte, a number, a field or a line.
pub fn damaged(bytes: &[u8], random: &mut Random) -> Vec<u8> {
    if bytes.is_empty() {
        return b"\n".to_vec();
    }
    let mut changed = bytes.to_vec();
    let at = random.below(bytes.len());
    let some_byte = |random: &mut Random| *random.pick(b"\t\n 0123456789abfgp_!@(),&|>EUVNAYCQFPORBD\r\0\xff");
    match random.below(10) {
        0 => changed[at] = some_byte(random),
        1 => {
            changed.remove(at);
        }
        2 => changed.insert(at, some_byte(random)),
        3 => changed.truncate(at),
        4 | 5 => {
            // A digit becomes another one.
            let digits: Vec<usize> = (0..bytes.len())
                .filter(|&place| bytes[place].is_ascii_digit())
                .collect();
            if !digits.is_empty() {
                changed[*random.pick(&digits)] = b'0' + random.below(10) as u8;
            }
        }
        6 => changed[at] ^= 1 << random.below(8),
        change => {
            let mut lines: Vec<&[u8]> = bytes.split_inclusive(|&byte| byte == b'\n').collect();
            let (one, other) = (random.below(lines.len()), random.below(lines.len()));
            match change {
                7 => lines.swap(one, other),
                8 => {
                    lines.remove(one);
                }
                _ => lines.insert(one, lines[other]),
            }
            changed = lines.concat();
        }
    }
    changed
}

/// Bytes without a plan: any at all, or lines of letters, numbers, names and tabs in any order.
pub fn noise(random: &mut Random) -> Vec<u8> {
    const PIECES: [&str; 45] = [
        "F", "P", "V", "N", "A", "Y", "&", "|", ">", "E", "U", "C", "Q", "O", "R", "B", "D", "\t", "\t", "\t", "\t",
        "\n", "\n", "\n", "0", "1", "2", "3", "10", "65535", "65536", "a", "p", "f", "_0@0", "!0@1", "(", ")", ",",
        "proved", "clause", "some", "Pp", "SOME", "latest",
    ];
    let most = if random.one_in(50) { 20_000 } else { 120 };
    let length = random.below(most);
    match random.below(3) {
        0 => (0..length).map(|_| random.bits() as u8).collect(),
        1 => (0..length).flat_map(|_| random.pick(&PIECES).bytes()).collect(),
        _ => {
            let order: &[u8] = if random.one_in(4) { b"O\tlatest\n" } else { b"" };
            let lines = (0..length / 4).flat_map(|_| line_of_any_form(random));
            order.iter().copied().chain(lines).collect()
        }
    }
}

/// A line of a right form with small numbers: what it names may not be there.
fn line_of_any_form(random: &mut Random) -> Vec<u8> {
    const FORMS: [&str; 17] = [
        "F f# n", "P p# n", "F a# 0", "V n", "N #", "A n", "A n n", "A n n n", "Y", "& # #", "| # #", "> # #", "E n #",
        "U n #", "C #", "F A# 0", "P P# n",
    ];
    let form = match random.below(60) {
        0..=4 => "Q #",
        5 => "O latest",
        _ => *random.pick(&FORMS),
    };
    let small = random.below(5).to_string();
    let any = random.below(30).to_string();
    let line = form.replace('n', &small).replace('#', &any).replace(' ', "\t");
    (line + "\n").into_bytes()
}
