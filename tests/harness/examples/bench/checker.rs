//! The checker: on proofs, and on its worst cases with their growth.

use harness::measure::in_turn;
use harness::sheets;
use harness::texts::{hard_texts as hard, showings_after_names};
use rules::{Outcome, Verdict};

use crate::lent::Lent;

/// Bytes per second on the engine's own texts.
pub fn proofs() {
    println!("Checker on proofs: milliseconds, MB per second, and the ratio to the independent implementation's time");
    let lent = &mut Lent::new();
    for (name, sheet) in sheets::searches() {
        let run = lent.run(&sheet, 50_000);
        if run.outcome != Outcome::Proved {
            continue;
        }
        let text = lent.text(run);
        assert_eq!(lent.check(&sheet, &text), Verdict::Valid);
        let [library, reference] = in_turn(|work| match work {
            0 => _ = lent.check(&sheet, &text),
            _ => _ = reference::check(&sheet, &text),
        });
        println!(
            "  {name}: {} bytes in {:.2} ms, {:.1} MB per second, ratio {:.2}",
            text.len(),
            library * 1e3,
            text.len() as f64 / library / 1e6,
            reference / library
        );
    }
}

/// Milliseconds at half and at full size.
pub fn hard_texts() {
    println!(
        "Checker's worst cases: milliseconds at 32,767 and at 65,535 bytes, growth (2 is linear, 4 is quadratic),"
    );
    println!("  and the independent implementation's milliseconds");
    let lent = &mut Lent::new();
    for (half, full) in hard(32_767).into_iter().zip(hard(65_535)) {
        let mut valid = true;
        let [of_half, of_full, reference] = in_turn(|work| match work {
            0 => valid &= lent.check(&half.sheet, &half.text) == Verdict::Valid,
            1 => valid &= lent.check(&full.sheet, &full.text) == Verdict::Valid,
            _ => _ = reference::check(&full.sheet, &full.text),
        });
        assert!(valid, "{}", full.name);
        println!(
            "  {}: {:.2}, {:.2}, growth {:.2}; {:.2}",
            full.name,
            of_half * 1e3,
            of_full * 1e3,
            of_full / of_half,
            reference * 1e3
        );
    }
}

/// The longest call that is known.
pub fn worst() {
    println!("Worst time of a check:");
    let lent = &mut Lent::new();
    let hard = showings_after_names(65_535);
    assert_eq!(lent.check(&hard.sheet, &hard.text), Verdict::Valid);
    let [time] = in_turn(|_| _ = lent.check(&hard.sheet, &hard.text));
    println!("  {}, {} bytes: {:.2} s", hard.name, hard.text.len(), time);
}
