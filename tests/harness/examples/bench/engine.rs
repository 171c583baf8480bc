//! The engine: searching, clearing, reading and writing, each by itself.

use harness::measure::{in_turn, microseconds, without};
use harness::sheets::{self, full_sheet, trivial};
use reference::answer;
use rules::Outcome;

use crate::lent::Lent;

const BUDGETS: [u32; 6] = [1_000, 2_000, 5_000, 10_000, 20_000, 50_000];

/// Units per second on searches that end.
pub fn searches() {
    println!("Searches: one unit short of their end, so that nothing is written; reading and clearing taken off.");
    println!("  million units per second: library, independent implementation, ratio; then clearing and writing");
    let lent = &mut Lent::new();
    for (name, sheet) in sheets::searches() {
        search(lent, name, &sheet);
    }
}

fn search(lent: &mut Lent, name: &str, sheet: &[u8]) {
    let trivial = trivial();
    let whole = lent.run(sheet, 50_000);
    let short = whole.units - 1;
    let [written, spent, clearing, one_unit, nothing, other, other_reading] = in_turn(|work| match work {
        0 => _ = lent.run(sheet, whole.units),
        1 => _ = lent.run(sheet, short),
        2 => _ = lent.run(&trivial, short),
        3 => _ = lent.run(sheet, 1),
        4 => _ = lent.run(&trivial, 1),
        5 => _ = answer(sheet, short, 65_535),
        _ => _ = answer(sheet, 1, 65_535),
    });
    let library = without(spent, clearing + without(one_unit, nothing));
    let reference = without(other, other_reading);
    let writing = match whole.outcome {
        Outcome::Proved => {
            let time = microseconds(without(written, spent));
            format!("{} bytes written in {time}", whole.length)
        }
        _ => "no text".to_string(),
    };
    let speed = |seconds: f64| f64::from(short) / seconds / 1e6;
    println!(
        "  {name}: {} units; {:.1}, {:.1}, ratio {:.2}; clearing {}, {writing}",
        whole.units,
        speed(library),
        speed(reference),
        reference / library,
        microseconds(clearing)
    );
}

/// The time of k proofs beside the walk and the writing, both as the first proof's take them for each unit and each byte. Whether all
/// proofs fit is known only when the last has been found.
pub fn several_proofs() {
    println!("Several proofs: reading and clearing taken off. One proof asked for, over the run without a number; then k proofs,");
    println!("  their walk and their writing as the first takes them; the last number is (time - writing) over the walk, at most 2");
    let lent = &mut Lent::new();
    for (name, sheet) in sheets::short_searches() {
        several_ways(lent, name, &sheet);
    }
    for (name, sheet) in [
        ("64 facts", sheets::many_facts()),
        ("a list of 16 elements parted", sheets::list_split(16)),
    ] {
        let all = lent.ask(&sheet, 50_000, 64);
        let first = lent.run(&sheet, 50_000);
        let [whole, one] = in_turn(|work| match work {
            0 => _ = lent.ask(&sheet, all.units, 64),
            _ => _ = lent.run(&sheet, first.units),
        });
        println!(
            "  {name}: {} proofs of {} bytes and {} units in {}, the first alone in {}",
            all.proofs,
            all.length,
            all.units,
            microseconds(whole),
            microseconds(one)
        );
    }
}

fn several_ways(lent: &mut Lent, name: &str, sheet: &[u8]) {
    let (trivial, either) = (trivial(), sheets::doubled(sheet, 6));
    let one = lent.run(sheet, 50_000);
    let told = |proofs: u32| lent.ask(&either, 50_000, proofs);
    // As many as fit into a text and the largest budget.
    let tried = [64, 48, 32, 24, 16, 12, 8, 6, 4, 3, 2].map(told);
    let all = *tried
        .iter()
        .find(|run| run.outcome == Outcome::Proved)
        .expect("two proofs fit");
    let proofs = all.proofs;
    let short = one.units - 1;
    let [written, asked, spent, cleared, one_unit, nothing, several, all_cleared, either_read] =
        in_turn(|work| match work {
            0 => _ = lent.run(sheet, one.units),
            1 => _ = lent.ask(sheet, one.units, 1),
            2 => _ = lent.run(sheet, short),
            3 => _ = lent.run(&trivial, short),
            4 => _ = lent.run(sheet, 1),
            5 => _ = lent.run(&trivial, 1),
            6 => _ = lent.ask(&either, all.units, proofs),
            7 => _ = lent.run(&trivial, all.units),
            _ => _ = lent.run(&either, 1),
        });
    let walk = without(spent, cleared + without(one_unit, nothing)) * f64::from(all.units) / f64::from(short);
    let writing = without(written, spent) * all.length as f64 / one.length as f64;
    let several = without(several, all_cleared + without(either_read, nothing));
    println!(
        "  {name}: {:.2}; {proofs} proofs of {} bytes and {} units in {}, walk {}, writing {}; {:.2}",
        asked / written,
        all.length,
        all.units,
        microseconds(several),
        microseconds(walk),
        microseconds(writing),
        without(several, writing) / walk
    );
}

/// Clearing alone, at each budget.
pub fn clearing() {
    println!("Clearing the lent buffers (a goal `true`), by budget:");
    let lent = &mut Lent::new();
    let trivial = trivial();
    let times: [f64; BUDGETS.len()] = in_turn(|work| _ = lent.run(&trivial, BUDGETS[work]));
    for (budget, time) in BUDGETS.into_iter().zip(times) {
        let bytes = f64::from(4 * (64 * budget + 8_192));
        println!(
            "  {budget}: {}, {:.1} GB per second",
            microseconds(time),
            bytes / time / 1e9
        );
    }
}

/// Nanoseconds for each unit, by budget, on searches that never end.
pub fn growth() {
    println!("Growth: nanoseconds for each unit at budgets {BUDGETS:?}, clearing taken off;");
    println!("  the last number is that of the largest budget over that of the smallest (1 is linear)");
    let lent = &mut Lent::new();
    let trivial = trivial();
    for (name, sheet) in sheets::endless() {
        let times: [f64; 2 * BUDGETS.len()] = in_turn(|work| {
            let sheet = if work % 2 == 0 { &sheet } else { &trivial };
            lent.run(sheet, BUDGETS[work / 2]);
        });
        let each: Vec<f64> = BUDGETS
            .iter()
            .zip(times.chunks(2))
            .map(|(&budget, times)| without(times[0], times[1]) / f64::from(budget) * 1e9)
            .collect();
        let shown: Vec<String> = each.iter().map(|time| format!("{time:.1}")).collect();
        println!("  {name}: {}; {:.2}", shown.join(", "), each[each.len() - 1] / each[0]);
    }
}

/// The longest calls that are known.
pub fn worst() {
    println!("Worst times, 50,000 units:");
    let lent = &mut Lent::new();
    for (name, sheet) in sheets::worst() {
        let [time] = in_turn(|_| _ = lent.run(&sheet, 50_000));
        println!("  {name}, {} bytes: {:.1} ms", sheet.len(), time * 1e3);
    }
}

/// Bytes per second of the reader, on a full sheet and on one of half the size.
pub fn reader() {
    let (full, half, trivial) = (full_sheet(1), full_sheet(2), trivial());
    let lent = &mut Lent::new();
    let [of_full, of_half, nothing] = in_turn(|work| _ = lent.run([&full, &half, &trivial][work], 1));
    let (of_full, of_half) = (without(of_full, nothing), without(of_half, nothing));
    println!(
        "Reader: {} bytes in {}, {:.1} MB per second; {} bytes in {}, so {:.2} times as long for {:.2} times the bytes",
        full.len(),
        microseconds(of_full),
        full.len() as f64 / of_full / 1e6,
        half.len(),
        microseconds(of_half),
        of_full / of_half,
        full.len() as f64 / half.len() as f64
    );
}
