//! Engine and checker on random and mutated bytes, on buffers between pages that can be neither read nor written: any
//! access outside a lent buffer ends the program, and so does a write to sheet or text. What is left is compared with
//! the independent implementation. For RULES_FUZZ_SECONDS, 20 if it is not set.

use std::sync::atomic::Ordering;
use std::sync::Mutex;
use std::thread;
use std::time::{Duration, Instant};

use harness::fuzz::{fuzz, Rooms};
use harness::guard::{report_forbidden_access, AT_WORK};
use harness::options;
use harness::tally::{processors, Tally};

#[test]
fn fuzzing() {
    report_forbidden_access();
    let end = Instant::now() + Duration::from_secs(options::fuzz_seconds());
    let threads = processors().min(AT_WORK.len());
    let all = Mutex::new(Tally::default());
    thread::scope(|scope| {
        for (number, at_work) in AT_WORK.iter().enumerate().take(threads) {
            let all = &all;
            scope.spawn(move || {
                let mut rooms = Rooms::new();
                let mut tally = Tally::default();
                let mut seed = 1 + options::first_seed() + number as u64;
                while Instant::now() < end {
                    at_work.store(seed, Ordering::Relaxed);
                    match fuzz(seed, &mut rooms) {
                        Ok(codes) => codes.into_iter().for_each(|code| tally.count(code)),
                        Err(difference) => panic!("fuzz seed {seed}: {difference}"),
                    }
                    seed += threads as u64;
                }
                all.lock().expect("no panic").add(tally);
            });
        }
    });
    let tally = all.into_inner().expect("no panic");
    println!("{} calls fuzzed: {}", tally.total(), tally.line());
    assert!(tally.total() > 1_000);
}
