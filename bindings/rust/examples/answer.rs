//! Runs a sheet, prints the answer, and checks it: answer SHEET [BUDGET [ANSWER_BYTES [PROOFS]]]
//!
//! Prints the answer text and then the checker's verdict on its proof, or, where a number of proofs is given, on each in
//! order; for a refusal `X`, its number and its line.

use std::io::{self, Write};
use std::process::ExitCode;
use std::{env, fs};

use rules::{ask, check, proofs_of, run, Outcome, Refusal, Request, Verdict};
use rules::{LARGEST_BUDGET, TABLE_NUMBERS, TEXT_BYTES, WORK_NUMBERS};

/// The verdict on a proof, in words.
fn verdict(sheet: &[u8], text: &[u8]) -> io::Result<String> {
    let lines = text.iter().filter(|&&byte| byte == b'\n').count();
    let (mut table, mut work) = (vec![0; TABLE_NUMBERS], vec![0; lines * WORK_NUMBERS]);
    Ok(match check(sheet, text, &mut table, &mut work)? {
        Verdict::Valid => "valid\n".to_string(),
        Verdict::NotValid(line) => format!("not valid\t{line}\n"),
        Verdict::Refused(Refusal { number, line }) => format!("X\t{number}\t{line}\n"),
    })
}

fn main() -> io::Result<ExitCode> {
    let arguments: Vec<String> = env::args().skip(1).collect();
    let number = |place: usize, otherwise: u32| {
        arguments
            .get(place)
            .map_or(Ok(otherwise), |argument| argument.parse())
            .map_err(io::Error::other)
    };
    let Some(path) = arguments.first() else {
        eprintln!("usage: answer SHEET [BUDGET [ANSWER_BYTES [PROOFS]]]");
        return Ok(ExitCode::from(2));
    };
    let sheet = fs::read(path)?;
    let (budget, answer_bytes) = (number(1, 256)?, number(2, TEXT_BYTES as u32)?);

    let mut table = vec![0; TABLE_NUMBERS];
    let mut work = vec![0; budget.min(LARGEST_BUDGET) as usize * WORK_NUMBERS];
    let mut answer = vec![0; answer_bytes as usize];
    let ended = if arguments.len() < 4 {
        run(&sheet, budget, &mut table, &mut work, &mut answer)?
    } else {
        let proofs = number(3, 1)?;
        ask(&sheet, Request { budget, proofs }, &mut table, &mut work, &mut answer)?
    };
    let text = &answer[..ended.length];

    let mut out = io::stdout();
    if let Outcome::Refused(Refusal { number, line }) = ended.outcome {
        writeln!(out, "X\t{number}\t{line}")?;
        return Ok(ExitCode::SUCCESS);
    }
    out.write_all(text)?;
    for proof in proofs_of(text) {
        out.write_all(verdict(&sheet, proof)?.as_bytes())?;
    }
    Ok(ExitCode::SUCCESS)
}
