//! What the tests share.
// Each test is a crate of its own and uses a part of this.
#![allow(dead_code)]

pub mod derivations;
pub mod naive;

use reference::{Outcome, Refusal};

/// A sheet or text from its lines: `;` ends a line, a blank parts two fields.
pub fn lines(short: &str) -> Vec<u8> {
    let mut bytes = Vec::new();
    for line in short.split(';').map(str::trim) {
        bytes.extend(line.replace(' ', "\t").bytes());
        bytes.push(b'\n');
    }
    bytes
}

/// The same without the closing LF.
pub fn unclosed(short: &str) -> Vec<u8> {
    let mut bytes = lines(short);
    bytes.pop();
    bytes
}

pub fn refused(number: u32, line: u32) -> Outcome {
    Outcome::Refused(Refusal { number, line })
}

/// The outcome of a sheet with 256 units.
pub fn outcome(sheet: &[u8]) -> Outcome {
    reference::answer(sheet, 256, 65_535).0
}

/// The nodes of a clause of the given number of members, p each time, joined by &; the last one is the clause.
pub fn members(count: usize) -> String {
    let joined: String = (0..count - 1).map(|node| format!("; & {node} 0")).collect();
    format!("P p 0; A 0{joined}")
}

/// A sheet with that clause.
pub fn clause_of_members(count: usize) -> String {
    format!("{}; C {}; Q 0", members(count), count - 1)
}
