//! The forms that sheets and answer texts share: lines, fields, numbers and names.

use crate::limits::{LARGEST_NUMBER, NAME_BYTES};

/// A line without its LF; `closed` says whether the LF is there.
#[derive(Clone, Copy)]
pub struct Line<'a> {
    pub bytes: &'a [u8],
    pub closed: bool,
}

/// The lines of a byte string; only the last can lack its LF, and an empty rest is no line.
pub fn lines(bytes: &[u8]) -> Vec<Line<'_>> {
    let mut lines: Vec<Line> = bytes
        .split(|&byte| byte == b'\n')
        .map(|bytes| Line { bytes, closed: true })
        .collect();
    let mut rest = lines.pop().expect("a split has at least one part");
    if !rest.bytes.is_empty() {
        rest.closed = false;
        lines.push(rest);
    }
    lines
}

/// "fields are parted by one tab"
pub fn fields(line: &[u8]) -> Vec<&[u8]> {
    line.split(|&byte| byte == b'\t').collect()
}

/// "Numbers are in base ten, without sign or leading zeros, up to 65,535."
pub fn number(field: &[u8]) -> Option<u32> {
    let digits = field.iter().all(u8::is_ascii_digit);
    let leading_zero = field.len() > 1 && field[0] == b'0';
    if field.is_empty() || field.len() > 5 || !digits || leading_zero {
        return None;
    }
    let value = field
        .iter()
        .fold(0, |value, digit| 10 * value + u32::from(digit - b'0'));
    (value <= LARGEST_NUMBER).then_some(value)
}

/// "Names are 1 to 16 of a to z, 0 to 9 and `_`, a letter first", and since W-201 they "may now hold A to Z".
pub fn is_name(field: &[u8]) -> bool {
    (1..=NAME_BYTES).contains(&field.len())
        && field[0].is_ascii_alphabetic()
        && field.iter().all(|&byte| is_name_byte(byte))
}

pub fn is_name_byte(byte: u8) -> bool {
    byte.is_ascii_alphabetic() || byte.is_ascii_digit() || byte == b'_'
}

/// W-201: "two names are equal if they differ only in the case of those letters".
pub fn same_name(left: &[u8], right: &[u8]) -> bool {
    left.iter().map(small).eq(right.iter().map(small))
}

/// A capital letter as the small one; any other byte as it is.
fn small(byte: &u8) -> u8 {
    match byte {
        b'A'..=b'Z' => byte - b'A' + b'a',
        _ => *byte,
    }
}
