//! The proved checker beside the independent implementation on texts: proofs, changed proofs, other sheets' texts,
//! texts made for one part of the checker; verdict, line, refusal, and every number of every buffer afterwards.

use calls::generate::{checks, sheet};
use harness::compare::{check_name, compare_check, describe_check};
use harness::options;
use harness::tally::over_seeds;

#[test]
fn generated_texts() {
    // A seed has at least two texts, on average more than three.
    let (first, texts) = (options::first_seed(), options::texts());
    let seeds = texts.div_ceil(3);
    let tally = over_seeds(first, seeds, |seed, tally| {
        for call in checks(seed) {
            match compare_check(&call) {
                Ok(after) => tally.count(check_name(&call, &after)),
                Err(difference) => panic!(
                    "seed {seed}, {:?}: {difference}\n{}",
                    sheet(seed).0,
                    describe_check(&call)
                ),
            }
        }
    });
    println!("{seeds} seeds, {} texts: {}", tally.total(), tally.line());
    if texts >= 100_000 {
        assert!(tally.total() >= texts, "fewer texts than wanted");
        for verdict in ["valid", "not valid"] {
            assert!(tally.of(verdict) > texts / 10, "{verdict} is rare");
        }
        for refusal in [1, 2, 4, 5, 6, 7, 8, 9, 10, 11] {
            let name = format!("refused {refusal:2}");
            assert!(tally.of(&name) > texts / 5_000, "{name} is rare");
        }
    }
}
