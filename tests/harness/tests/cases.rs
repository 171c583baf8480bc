//! The stored cases and the rehearsed sheets of document 01, through the Rust bindings.

use calls::stored::{cases, stored, stored_checks, stored_ways};
use rules::{ask, check, proofs_of, run, Outcome, Refusal, Request, Run, Verdict};

/// A run with buffers that are as long as they must be.
fn answer(sheet: &[u8], budget: u32, answer_bytes: usize) -> (Run, Vec<u8>) {
    let (mut table, mut work) = (vec![7; 8_192], vec![7; 64 * budget as usize]);
    let mut answer = vec![7; answer_bytes];
    let ended = run(sheet, budget, &mut table, &mut work, &mut answer).expect("a thread");
    answer.truncate(ended.length);
    (ended, answer)
}

fn verdict(sheet: &[u8], text: &[u8]) -> Verdict {
    let lines = text.iter().filter(|&&byte| byte == b'\n').count();
    let (mut table, mut work) = (vec![7; 8_192], vec![7; 64 * lines]);
    check(sheet, text, &mut table, &mut work).expect("a thread")
}

#[test]
fn stored_cases() {
    let cases = cases();
    assert!(cases.len() > 100);
    for (name, sheet) in cases {
        for (budget, answer_bytes) in [(256, 16_384), (50_000, 65_535)] {
            let (ended, text) = answer(&sheet, budget, answer_bytes);
            let printed = match ended.outcome {
                Outcome::Refused(Refusal { number, line }) => format!("X\t{number}\t{line}\n").into_bytes(),
                _ => text.clone(),
            };
            assert_eq!(printed, stored(&name, &budget.to_string()), "{name}, budget {budget}");
            match ended.outcome {
                Outcome::Proved => assert_eq!(verdict(&sheet, &text), Verdict::Valid, "{name}"),
                Outcome::No | Outcome::Spent => assert_eq!(verdict(&sheet, &text), Verdict::NotValid(1), "{name}"),
                Outcome::Refused(_) => {}
            }
        }
    }
}

#[test]
fn stored_texts() {
    let checks = stored_checks();
    assert!(checks.len() > 20);
    for case in checks {
        let printed = match verdict(&case.sheet, &case.text) {
            Verdict::Valid => "valid\n".to_string(),
            Verdict::NotValid(line) => format!("not valid\t{line}\n"),
            Verdict::Refused(Refusal { number, line }) => format!("X\t{number}\t{line}\n"),
        };
        assert_eq!(printed.as_bytes(), case.verdict, "{}", case.name);
    }
}

/// The marked cases of document 01 that are about budgets, buffers and limits.
#[test]
fn rehearsed() {
    let sheet = stored("s01_strobe", "sheet");
    let proved = b"R\tproved\t3\nD\tclause\t1\n".to_vec();
    let refused = |number, line| Outcome::Refused(Refusal { number, line });
    let ended = |outcome, units, length| Run {
        outcome,
        units,
        proofs: u32::from(outcome == Outcome::Proved),
        length,
    };
    assert_eq!(answer(&sheet, 3, 22), (ended(Outcome::Proved, 3, 22), proved.clone()));
    assert_eq!(
        answer(&sheet, 2, 22),
        (ended(Outcome::Spent, 2, 10), b"R\tspent\t2\n".to_vec())
    );
    assert_eq!(answer(&sheet, 3, 21), (ended(refused(12, 0), 0, 0), Vec::new()));
    assert_eq!(
        answer(&sheet, 50_000, 22),
        (ended(Outcome::Proved, 3, 22), proved.clone())
    );
    assert_eq!(answer(&sheet, 50_001, 22), (ended(refused(3, 0), 0, 0), Vec::new()));
    assert_eq!(answer(b"", 3, 22), (ended(refused(11, 1), 0, 0), Vec::new()));
    assert_eq!(verdict(&sheet, &proved), Verdict::Valid);
    assert_eq!(verdict(b"", &proved), Verdict::Refused(Refusal { number: 11, line: 1 }));
}

/// The stored runs for several proofs (W-202): what is handed back, the text, and each proof by itself.
#[test]
fn several_proofs() {
    let ways = stored_ways();
    assert!(ways.len() > 30);
    for case in ways {
        let (mut table, mut work) = (vec![7; case.table], vec![7; case.work]);
        let mut answer = vec![7; case.answer];
        let request = Request {
            budget: case.budget,
            proofs: case.proofs,
        };
        let ended = ask(&case.sheet, request, &mut table, &mut work, &mut answer).expect("a thread");
        let [code, units, length, number, line, proofs] = case.numbers();
        let outcomes = [Outcome::Proved, Outcome::No, Outcome::Spent];
        let expected = Run {
            outcome: outcomes
                .get(code as usize)
                .copied()
                .unwrap_or(Outcome::Refused(Refusal { number, line })),
            units,
            proofs,
            length: length as usize,
        };
        assert_eq!(ended, expected, "{}", case.name);
        let (text, rest) = answer.split_at(ended.length);
        assert!(rest.iter().all(|&byte| byte == 7), "{}", case.name);
        let unchanged = matches!(number, 1 | 2 | 3 | 5 | 13);
        let left = if unchanged { 7 } else { 0 };
        assert!(table.iter().chain(&work).all(|&number| number == left), "{}", case.name);
        if number != 0 {
            continue;
        }
        assert_eq!(text, case.want, "{}", case.name);
        let found: Vec<&[u8]> = proofs_of(text).collect();
        assert_eq!(found.len(), proofs as usize, "{}", case.name);
        for proof in &found {
            assert_eq!(verdict(&case.sheet, proof), Verdict::Valid, "{}", case.name);
        }
        if let [first, _, ..] = found[..] {
            let lines = first.iter().filter(|&&byte| byte == b'\n').count() as u32;
            assert_eq!(
                verdict(&case.sheet, text),
                Verdict::NotValid(lines + 1),
                "{}",
                case.name
            );
        }
    }
}

#[test]
fn proofs_of_texts() {
    let none: [&[u8]; 0] = [];
    for text in ["", "R\tno\t3\n", "R\tspent\t2\n"] {
        assert_eq!(proofs_of(text.as_bytes()).collect::<Vec<_>>(), none);
    }
    let (first, second) = ("R\tproved\t2\nD\tleft\nD\ttrue\n", "R\tproved\t3\nB\t0\tR\nD\ttrue\n");
    assert_eq!(proofs_of(first.as_bytes()).collect::<Vec<_>>(), [first.as_bytes()]);
    for last in ["", "R\tno\t3\n", "R\tspent\t9\n"] {
        let text = [first, second, last].concat();
        let proofs: Vec<&[u8]> = proofs_of(text.as_bytes()).collect();
        assert_eq!(proofs, [first.as_bytes(), second.as_bytes()]);
    }
}
