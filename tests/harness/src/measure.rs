//! Times: seconds of processor time for one performance, so that other work on the machine is not counted.

use std::fs;
use std::time::{Duration, Instant};

/// The kernel counts to some milliseconds, so a batch is much longer.
const BATCH: Duration = Duration::from_millis(60);
const ROUNDS: usize = 6;

/// Processor time of this thread so far; where the kernel does not tell it, the time of day since a first call.
fn now(first: Instant) -> Duration {
    let told = fs::read_to_string("/proc/thread-self/schedstat").ok();
    let nanoseconds = told.and_then(|told| told.split(' ').next()?.parse().ok());
    nanoseconds.map_or_else(|| first.elapsed(), Duration::from_nanos)
}

/// Performs a work as often as fills a batch; seconds for each.
fn batch(work: &mut impl FnMut()) -> f64 {
    let first = Instant::now();
    let start = now(first);
    let mut performed = 0;
    let mut at_once = 1;
    loop {
        for _ in 0..at_once {
            work();
        }
        performed += at_once;
        let spent = now(first) - start;
        if spent >= BATCH {
            return spent.as_secs_f64() / f64::from(performed);
        }
        // Asking for the time costs some microseconds.
        at_once = (2 * at_once).min(1_000);
    }
}

/// So many works, known by their numbers, measured in turn, so that all meet the same machine: the least time of each
/// over some rounds. Where one of them takes seconds there is one round only.
pub fn in_turn<const WORKS: usize>(mut work: impl FnMut(usize)) -> [f64; WORKS] {
    let mut least = [f64::MAX; WORKS];
    for _ in 0..ROUNDS {
        for (number, least) in least.iter_mut().enumerate() {
            *least = least.min(batch(&mut || work(number)));
        }
        if least.iter().any(|&time| time > 1.0) {
            break;
        }
    }
    least
}

/// A difference of two measured times, which noise must not make negative.
pub fn without(whole: f64, part: f64) -> f64 {
    (whole - part).max(whole / 1_000.0)
}

pub fn microseconds(seconds: f64) -> String {
    format!("{:.1} µs", seconds * 1e6)
}
