//! Long searches and texts that are hard to check, compared with the independent implementation in full.

use calls::generate::{AskCall, CheckCall, RunCall};
use harness::compare::{compare_ask, compare_check, compare_run, judged_proofs};
use harness::compare::{describe_check, describe_run, library_run};
use harness::measure::in_turn;
use harness::{sheets, texts};
use reference::api::work_demanded;
use reference::{check, Verdict};

fn whole_run(sheet: Vec<u8>, budget: u32) -> RunCall {
    RunCall {
        sheet,
        budget,
        table: 8_192,
        work: 64 * budget as usize,
        answer: 65_535,
        result: 5,
        dirt: 1,
    }
}

pub fn whole_check(sheet: Vec<u8>, text: Vec<u8>) -> CheckCall {
    CheckCall {
        sheet,
        table: 8_192,
        work: work_demanded(&text),
        text,
        result: 3,
        dirt: 1,
    }
}

#[test]
fn long_searches() {
    for (name, sheet) in sheets::searches().into_iter().chain(sheets::endless()) {
        for budget in [1_000, 50_000] {
            let call = whole_run(sheet.clone(), budget);
            let after = compare_run(&call).unwrap_or_else(|difference| panic!("{name}: {difference}"));
            let (code, units) = (after.result[0], after.result[1]);
            println!("{name}: budget {budget}, outcome {code}, units {units}");
            let text = after.answer[..after.result[2] as usize].to_vec();
            let call = whole_check(sheet.clone(), text);
            let after = compare_check(&call)
                .unwrap_or_else(|difference| panic!("{name}: {difference}\n{}", describe_check(&call)));
            assert_eq!(after.code, u32::from(code != 0), "a proof, and only a proof, is valid");
        }
    }
}

/// W-202: as many proofs as fit into the largest budget and a text, and up to the largest number; each is valid by itself.
#[test]
fn several_proofs_of_long_searches() {
    let short = sheets::short_searches().into_iter();
    let doubled = short.map(|(name, sheet)| (name, sheets::doubled(&sheet, 6)));
    let others = [
        ("64 facts", sheets::many_facts()),
        ("a list of 16 elements parted", sheets::list_split(16)),
        ("a list of 60 elements parted", sheets::list_split(60)),
    ];
    for (name, sheet) in doubled.chain(others).chain(sheets::searches()) {
        for proofs in [2, 5, 17, 64] {
            let mut run = whole_run(sheet.clone(), 50_000);
            run.result = 6;
            let call = AskCall {
                run,
                proofs,
                request: 2,
            };
            let after = compare_ask(&call).unwrap_or_else(|difference| panic!("{name}: {difference}"));
            let [code, units, length, _, _, told] = after.result[..] else {
                unreachable!("six numbers")
            };
            println!("{name}: {proofs} proofs asked for, outcome {code}, units {units}, proofs {told}, bytes {length}");
            let found = judged_proofs(&sheet, &after.answer[..length as usize]);
            assert_eq!(found, Ok(told), "{name}");
        }
    }
}

/// W-207: thousands of suppositions, 500 for each use of a rule, and then an atom that is looked for past all of them.
#[test]
fn suppositions_gone_through() {
    for uses in [1, 12] {
        let sheet = sheets::suppositions_gone_through(uses, 500, true);
        let call = whole_run(sheet.clone(), 50_000);
        let after = compare_run(&call).unwrap_or_else(|difference| panic!("{uses}: {difference}"));
        assert_eq!(after.code, 0, "proved");
        let text = after.answer[..after.result[2] as usize].to_vec();
        let last = format!("D\tclause\t{}\n", 2 + 500 * uses + 1);
        assert!(text.ends_with(last.as_bytes()));
        let call = whole_check(sheet, text);
        let after = compare_check(&call).unwrap_or_else(|difference| panic!("{uses}: {difference}"));
        assert_eq!(after.code, 0, "valid");
    }
    // More of them than a text has lines, and in the former order.
    for line in ["", "O\tlatest\n"] {
        let sheet = sheets::suppositions_gone_through(40, 500, false);
        let call = whole_run([line.as_bytes(), &sheet].concat(), 50_000);
        let after = compare_run(&call).unwrap_or_else(|difference| panic!("{line}: {difference}"));
        assert_eq!(after.code, 2, "spent");
    }
}

/// W-207: the oldest supposition comes first, and a program is linked from the latest on. To go from there to each member
/// would take the square of their number, four times as long for twice as many; what is wanted grows as their
/// number but for a logarithm.
#[test]
fn twice_as_many_suppositions() {
    let mut calls = [(20, 24_000), (40, 48_000)]
        .map(|(uses, budget)| whole_run(sheets::suppositions_gone_through(uses, 500, false), budget))
        .map(|call| (call.before(), call));
    let [half, whole] = in_turn(|work| {
        let (lent, call) = &mut calls[work];
        let (table, work) = (&mut lent.table, &mut lent.work);
        let code = library_run(
            &call.sheet,
            call.budget,
            table,
            work,
            &mut lent.answer,
            &mut lent.result,
        );
        assert_eq!(code, 2, "spent");
    });
    println!(
        "10,000 suppositions in {:.2} ms, 20,000 in {:.2} ms, growth {:.2}",
        half * 1e3,
        whole * 1e3,
        whole / half
    );
    assert!(whole < 3.0 * half);
}

#[test]
fn the_fullest_sheet() {
    let call = whole_run(sheets::full_sheet(1), 1);
    compare_run(&call).unwrap_or_else(|difference| panic!("{difference}\n{}", describe_run(&call)));
}

/// The worst cases at an eighth of their size, right and with their last bytes changed.
#[test]
fn hard_texts() {
    for hard in texts::hard_texts(8_192) {
        assert_eq!(check(&hard.sheet, &hard.text), Verdict::Valid, "{}", hard.name);
        let mut wrong = hard.text.clone();
        let last = wrong.len() - 3;
        wrong[last] = b'0';
        for text in [hard.text, wrong] {
            let call = whole_check(hard.sheet.clone(), text);
            compare_check(&call).unwrap_or_else(|difference| panic!("{}: {difference}", hard.name));
        }
    }
}
