//! The stored cases: the runner's output and the text with 50,000 units, byte for byte; the units that are needed; the
//! checker on these texts and on the stored ones; the runs for several proofs.

use calls::stored::{cases, stored, stored_checks, stored_ways};
use reference::limits::{RUNNER_ANSWER, RUNNER_BUDGET};
use reference::{answer, check, interface, runner, runner_for, Outcome, Verdict};

#[test]
fn runner_output() {
    let cases = cases();
    assert!(cases.len() > 100);
    for (name, sheet) in cases {
        assert_eq!(runner(&sheet), stored(&name, "256"), "{name}");
    }
}

#[test]
fn largest_budget() {
    for (name, sheet) in cases() {
        let expected = stored(&name, "50000");
        match answer(&sheet, 50_000, 65_535) {
            (Outcome::Refused(refusal), _, _) => {
                let told = format!("X\t{}\t{}\n", refusal.number, refusal.line);
                assert_eq!(told.as_bytes(), expected, "{name}");
            }
            (outcome, units, text) => {
                assert_eq!(text, expected, "{name}");
                let verdict = check(&sheet, &text);
                match outcome {
                    Outcome::Proved => assert_eq!(verdict, Verdict::Valid, "{name}"),
                    _ => assert_eq!(verdict, Verdict::Invalid(1), "{name}"),
                }
                assert!((1..=50_000).contains(&units));
            }
        }
    }
}

/// The units that are told suffice, and one fewer do not.
#[test]
fn needed_units() {
    let mut ended = 0;
    for (name, sheet) in cases() {
        let told = answer(&sheet, 50_000, 65_535);
        if !matches!(told.0, Outcome::Proved | Outcome::No) {
            continue;
        }
        ended += 1;
        let needed = told.1;
        assert_eq!(answer(&sheet, needed, 65_535), told, "{name}");
        if needed > 1 {
            let text = format!("R\tspent\t{}\n", needed - 1).into_bytes();
            let spent = (Outcome::Spent, needed - 1, text);
            assert_eq!(answer(&sheet, needed - 1, 65_535), spent, "{name}");
        }
    }
    assert!(ended > 100);
}

#[test]
fn checker_output() {
    let checks = stored_checks();
    assert!(checks.len() > 20);
    for case in checks {
        let printed = match check(&case.sheet, &case.text) {
            Verdict::Valid => "valid\n".to_string(),
            Verdict::Invalid(line) => format!("not valid\t{line}\n"),
            Verdict::Refused(refusal) => format!("X\t{}\t{}\n", refusal.number, refusal.line),
        };
        assert_eq!(printed.as_bytes(), case.verdict, "{}", case.name);
    }
}

#[test]
fn several_proofs() {
    let ways = stored_ways();
    assert!(ways.len() > 30);
    for case in ways {
        let (mut table, mut work) = (vec![7; case.table], vec![7; case.work]);
        let (mut bytes, mut result) = (vec![7; case.answer], [7; 7]);
        let request = [case.budget, case.proofs];
        let code = interface::ask(&case.sheet, &request, &mut table, &mut work, &mut bytes, &mut result);
        let numbers = case.numbers();
        assert_eq!(
            (code, &result[..6], result[6]),
            (numbers[0], &numbers[..], 7),
            "{}",
            case.name
        );
        let written = if code == 3 { &[][..] } else { &case.want };
        assert_eq!(&bytes[..written.len()], written, "{}", case.name);
        assert!(bytes[written.len()..].iter().all(|&byte| byte == 7), "{}", case.name);
    }
}

/// The sheet runner with a number of proofs, where the case's budget is the runner's and its text fits.
#[test]
fn runner_with_a_number() {
    let mut compared = 0;
    for case in stored_ways() {
        let tells_a_text = case.numbers()[3] != 12 && case.want.len() <= RUNNER_ANSWER;
        if case.budget == RUNNER_BUDGET && case.table >= 8_192 && tells_a_text {
            let printed = runner_for(&case.sheet, case.proofs.to_string().as_bytes());
            assert_eq!(printed, case.want, "{}", case.name);
            compared += 1;
        }
    }
    assert!(compared > 10);
    let sheet = stored("s01_strobe", "sheet");
    assert_eq!(runner_for(&sheet, b"64"), b"R\tproved\t3\nD\tclause\t1\nR\tno\t3\n");
    for none in [
        "",
        "0",
        "65",
        "01",
        "+1",
        "-1",
        " 1",
        "1 ",
        "1x",
        "a",
        "65536",
        "65537",
        "4294967297",
    ] {
        assert_eq!(runner_for(&sheet, none.as_bytes()), b"X\t13\t0\n", "{none}");
    }
}
