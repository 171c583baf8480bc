//! Counts the outcomes of generated sheets, for each family.

use std::collections::BTreeMap;

use calls::generate;
use reference::{answer, Outcome};

fn main() {
    let count: u64 = std::env::args()
        .nth(1)
        .and_then(|count| count.parse().ok())
        .unwrap_or(3_000);
    let mut outcomes: BTreeMap<(generate::Family, String), usize> = BTreeMap::new();
    for seed in 0..count {
        let (family, sheet) = generate::sheet(seed);
        let outcome = match answer(&sheet, 2_000, 65_535).0 {
            Outcome::Refused(refusal) => format!("refused {:02}", refusal.number),
            outcome => format!("{outcome:?}"),
        };
        *outcomes.entry((family, outcome)).or_default() += 1;
    }
    for ((family, outcome), count) in outcomes {
        println!("{family:?}\t{outcome}\t{count}");
    }
}
