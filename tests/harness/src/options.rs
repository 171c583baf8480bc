//! How much is tried, by environment variables: the tests of the gate take what is written here, longer runs more.
//!
//! | variable | meaning |
//! |---|---|
//! | `RULES_SHEETS` | generated sheets |
//! | `RULES_TEXTS` | texts, at the least |
//! | `RULES_SEED` | the first seed; with the count 1 a single sheet is tried again |
//! | `RULES_FUZZ_SECONDS` | seconds of fuzzing |

use std::env;

fn number(name: &str, otherwise: u64) -> u64 {
    match env::var(name) {
        Ok(value) => value
            .replace(['_', ','], "")
            .parse()
            .unwrap_or_else(|_| panic!("{name}={value} is no number")),
        Err(_) => otherwise,
    }
}

pub fn sheets() -> u64 {
    number("RULES_SHEETS", 100_000)
}

pub fn texts() -> u64 {
    number("RULES_TEXTS", 100_000)
}

pub fn first_seed() -> u64 {
    number("RULES_SEED", 0)
}

pub fn fuzz_seconds() -> u64 {
    number("RULES_FUZZ_SECONDS", 20)
}
