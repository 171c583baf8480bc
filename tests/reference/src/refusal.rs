//! Document 01, "Turned back": a number from 1 to 12, or 13 (W-202), and a line.

/// One numbered refusal; lines count from 1, and line 0 says that no line of the sheet is at fault.
#[derive(Clone, Copy, PartialEq, Eq, Debug)]
pub struct Refusal {
    pub number: u32,
    pub line: u32,
}

impl Refusal {
    pub fn new(number: u32, line: u32) -> Refusal {
        Refusal { number, line }
    }
}
