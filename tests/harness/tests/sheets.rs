//! The proved engine beside the independent implementation on generated sheets: outcome, units, number of proofs, text,
//! refusal, line, and every number of every buffer afterwards, with soiled buffers that are exact, longer than needed or
//! one too short. Of a text with several proofs each is judged by itself.

use calls::generate::{asks, runs, sheet};
use harness::compare::{ask_name, compare_ask, compare_run, describe_ask, describe_run, judged_proofs, run_name};
use harness::options;
use harness::tally::{over_seeds, Tally};

#[test]
fn generated_sheets() {
    let (first, count) = (options::first_seed(), options::sheets());
    let tally = over_seeds(first, count, |seed, tally| {
        for call in runs(seed) {
            match compare_run(&call) {
                Ok(after) => tally.count(run_name(&call, &after)),
                Err(difference) => panic!(
                    "seed {seed}, {:?}: {difference}\n{}",
                    sheet(seed).0,
                    describe_run(&call)
                ),
            }
        }
        several_proofs(seed, tally);
    });
    println!("{count} sheets, runs: {}", tally.line());
    if count >= 100_000 {
        for outcome in ["proved", "no", "spent"] {
            assert!(tally.of(outcome) > count / 20, "{outcome} is rare");
        }
        for refusal in [1, 2, 3, 5, 6, 7, 8, 9, 10, 11, 12] {
            let name = format!("refused {refusal:2}");
            assert!(tally.of(&name) > count / 1_000, "{name} is rare");
        }
        for outcome in ["proved", "no", "spent", "no after proofs", "spent after proofs"] {
            assert!(
                tally.of(&format!("asked: {outcome}")) > count / 100,
                "{outcome} is rare"
            );
        }
        for refusal in [1, 2, 3, 5, 6, 7, 8, 9, 10, 11, 12, 13] {
            let name = format!("asked: refused {refusal:2}");
            assert!(tally.of(&name) > count / 5_000, "{name} is rare");
        }
        assert!(tally.of("proofs judged") > count / 10, "texts have few proofs");
    }
}

/// The runs for several proofs of a seed (W-202).
fn several_proofs(seed: u64, tally: &mut Tally) {
    for call in asks(seed) {
        let wrong = |difference| -> ! {
            panic!(
                "seed {seed}, {:?}: {difference}\n{}",
                sheet(seed).0,
                describe_ask(&call)
            )
        };
        let after = compare_ask(&call).unwrap_or_else(|difference| wrong(difference));
        tally.count(format!("asked: {}", ask_name(&call, &after)));
        // The answer is as long as is told, where the result is long enough to tell it and the number of proofs.
        let (true, Some(&length), Some(&told)) = (after.code < 3, after.result.get(2), after.result.get(5)) else {
            continue;
        };
        let proofs = judged_proofs(&call.run.sheet, &after.answer[..length as usize]);
        let proofs = proofs.unwrap_or_else(|difference| wrong(difference));
        if proofs != told {
            wrong(format!("{proofs} proofs stand in the text, {told} are told"));
        }
        (0..proofs).for_each(|_| tally.count("proofs judged"));
    }
}
