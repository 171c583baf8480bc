//! The sheet runner of document 01: a sheet on standard input, its answer text or refusal on standard output. With an
//! argument it asks for so many proofs (W-202).

use std::env;
use std::io::{self, Read, Write};

fn main() -> io::Result<()> {
    let mut sheet = Vec::new();
    // One byte past the limit is enough to be refused.
    io::stdin().take(16_385).read_to_end(&mut sheet)?;
    let printed = match env::args().nth(1) {
        None => reference::runner(&sheet),
        Some(proofs) => reference::runner_for(&sheet, proofs.as_bytes()),
    };
    io::stdout().write_all(&printed)
}
