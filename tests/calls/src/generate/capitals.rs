//! Names typed in capitals (W-201): on sheets, in texts, and capitals where a word or a letter of a line must be exact.

use super::damage::damaged;
use crate::random::Random;

/// One sheet in three with capitals in its names, each name in a mix of its own. Now and then a name is declared again
/// in another mix, or nearly so, a byte of a name is exchanged for one with the same low bits, or a letter of a line is
/// in the wrong case. Most names of generated sheets have one letter, so `ending` is put after each name.
pub fn with_capitals(sheet: Vec<u8>, ending: &str, random: &mut Random) -> Vec<u8> {
    if !random.one_in(3) {
        return sheet;
    }
    let lines = sheet.split_inclusive(|&byte| byte == b'\n');
    let mut lines: Vec<Vec<u8>> = lines
        .map(|line| match name(line) {
            Some((start, end)) => {
                let name = respelled(&[&line[start..end], ending.as_bytes()].concat(), random);
                [&line[..start], &name, &line[end..]].concat()
            }
            None => line.to_vec(),
        })
        .collect();
    match random.below(50) {
        0..=2 => declare_again(&mut lines, random),
        3 => {
            let line = random.below(lines.len().max(1));
            if let Some((start, end)) = lines.get(line).and_then(|line| name(line)) {
                shift(&mut lines[line][start..end], random);
            }
        }
        4 => return changed_case(&lines.concat(), random),
        _ => {}
    }
    lines.concat()
}

/// Where the name of an F or P line stands.
fn name(line: &[u8]) -> Option<(usize, usize)> {
    let declares = line.starts_with(b"F\t") || line.starts_with(b"P\t");
    let length = line.get(2..)?.iter().take_while(|&&byte| is_name_byte(byte)).count();
    declares.then_some((2, 2 + length))
}

fn is_name_byte(byte: u8) -> bool {
    byte.is_ascii_alphanumeric() || byte == b'_'
}

/// A name all small, all in capitals, with its first letter alone as a capital, or in any mix.
fn respelled(name: &[u8], random: &mut Random) -> Vec<u8> {
    let way = random.below(4);
    let spell = |(place, byte): (usize, &u8)| {
        let capital = match way {
            0 => false,
            1 => true,
            2 => place == 0,
            _ => random.one_in(2),
        };
        if capital {
            byte.to_ascii_uppercase()
        } else {
            byte.to_ascii_lowercase()
        }
    };
    name.iter().enumerate().map(spell).collect()
}

/// A byte exchanged for another that ends in the same five bits: a letter in the other case, a digit for a letter, byte
/// 127 for `_`.
fn shift(bytes: &mut [u8], random: &mut Random) {
    if !bytes.is_empty() {
        let place = random.below(bytes.len());
        bytes[place] ^= random.pick(&[0x20, 0x40, 0x60]);
    }
}

/// A line more, below a declaration and above the last line, with the same name in some mix of cases, or one byte
/// shifted.
fn declare_again(lines: &mut Vec<Vec<u8>>, random: &mut Random) {
    let declared: Vec<usize> = (0..lines.len()).filter(|&line| name(&lines[line]).is_some()).collect();
    if declared.is_empty() {
        return;
    }
    let first = *random.pick(&declared);
    if let Some((start, end)) = name(&lines[first]) {
        let letter = *random.pick(b"FP");
        let mut name = respelled(&lines[first][start..end], random);
        if random.one_in(3) {
            shift(&mut name, random);
        }
        let arity = b'0' + random.below(5) as u8;
        let again = [&[letter, b'\t'][..], &name, &[b'\t', arity, b'\n']].concat();
        let below = lines.len() - first - 1;
        lines.insert(first + 1 + random.below(below.max(1)), again);
    }
}

/// The text with every name in a mix of its own: it spells the same derivation. In the lines of a proof only names have
/// letters after the second tab.
pub fn respelled_text(text: &[u8], random: &mut Random) -> Vec<u8> {
    let mut changed = Vec::new();
    for line in text.split_inclusive(|&byte| byte == b'\n') {
        let (words, terms) = line.split_at(words(line));
        changed.extend(words);
        let same_kind = |left: &u8, right: &u8| is_name_byte(*left) == is_name_byte(*right);
        for part in terms.chunk_by(same_kind) {
            changed.extend(respelled(part, random));
        }
    }
    changed
}

/// A byte of a name shifted.
pub fn shifted_name(text: &[u8], random: &mut Random) -> Vec<u8> {
    let mut changed = text.to_vec();
    let mut names: Vec<&mut [u8]> = Vec::new();
    for line in changed.split_inclusive_mut(|&byte| byte == b'\n') {
        let (_, terms) = line.split_at_mut(words(line));
        let parts = terms.chunk_by_mut(|left, right| is_name_byte(*left) == is_name_byte(*right));
        names.extend(parts.filter(|part| part[0].is_ascii_alphabetic()));
    }
    if !names.is_empty() {
        let place = random.below(names.len());
        shift(names[place], random);
    }
    changed
}

/// The bytes of a line up to its second tab, or all of them: a letter and a word.
fn words(line: &[u8]) -> usize {
    let mut tabs = (0..line.len()).filter(|&place| line[place] == b'\t');
    tabs.nth(1).unwrap_or(line.len())
}

/// The text with the case of a letter changed in the letter or the word of a line, or of all letters there: that line
/// breaks.
pub fn changed_case(text: &[u8], random: &mut Random) -> Vec<u8> {
    let mut letters = Vec::new();
    let mut start = 0;
    for line in text.split_inclusive(|&byte| byte == b'\n') {
        let words = start..start + words(line);
        letters.extend(words.filter(|&place| text[place].is_ascii_alphabetic()));
        start += line.len();
    }
    if letters.is_empty() {
        return damaged(text, random);
    }
    let place = *random.pick(&letters);
    let one = random.one_in(2);
    let mut changed = text.to_vec();
    let field = |place: &usize| !b"\t\n".contains(&text[*place]);
    let before = (0..place).rev().take_while(field);
    let after = (place..text.len()).take_while(field);
    for other in before.chain(after).filter(|&other| !one || other == place) {
        changed[other] = other_case(text[other]);
    }
    changed
}

fn other_case(byte: u8) -> u8 {
    if byte.is_ascii_lowercase() {
        byte.to_ascii_uppercase()
    } else {
        byte.to_ascii_lowercase()
    }
}
