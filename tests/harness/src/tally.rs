//! Seeds worked through on all processors, and what came of them, counted.

use std::collections::BTreeMap;
use std::sync::atomic::{AtomicU64, Ordering};
use std::thread;

#[derive(Default)]
pub struct Tally(BTreeMap<String, u64>);

impl Tally {
    pub fn count(&mut self, name: impl Into<String>) {
        *self.0.entry(name.into()).or_default() += 1;
    }

    pub fn add(&mut self, other: Tally) {
        for (name, count) in other.0 {
            *self.0.entry(name).or_default() += count;
        }
    }

    pub fn of(&self, name: &str) -> u64 {
        self.0.get(name).copied().unwrap_or(0)
    }

    pub fn total(&self) -> u64 {
        self.0.values().sum()
    }

    pub fn line(&self) -> String {
        let parts: Vec<String> = self.0.iter().map(|(name, count)| format!("{name} {count}")).collect();
        parts.join(", ")
    }
}

/// Every seed once, on as many threads as there are processors. A panic in one of them is a panic of all.
pub fn over_seeds(first: u64, count: u64, work: impl Fn(u64, &mut Tally) + Sync) -> Tally {
    const TAKEN_AT_ONCE: u64 = 64;
    let next = AtomicU64::new(first);
    let end = first + count;
    let worker = || {
        let mut tally = Tally::default();
        loop {
            let from = next.fetch_add(TAKEN_AT_ONCE, Ordering::Relaxed);
            if from >= end {
                return tally;
            }
            for seed in from..(from + TAKEN_AT_ONCE).min(end) {
                work(seed, &mut tally);
            }
        }
    };
    thread::scope(|scope| {
        let workers: Vec<_> = (0..processors()).map(|_| scope.spawn(worker)).collect();
        let mut all = Tally::default();
        for worker in workers {
            all.add(worker.join().expect("no difference"));
        }
        all
    })
}

pub fn processors() -> usize {
    thread::available_parallelism().map_or(1, usize::from)
}
