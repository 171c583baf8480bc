//! The checker for a sheet file and a text file: `valid`, `not valid` and a line, or `X`, number and line.

use std::process::ExitCode;
use std::{env, fs};

use reference::{check, Verdict};

fn main() -> ExitCode {
    let paths: Vec<String> = env::args().skip(1).collect();
    let [sheet, text] = &paths[..] else {
        eprintln!("usage: check SHEET TEXT");
        return ExitCode::from(2);
    };
    let (Ok(sheet), Ok(text)) = (fs::read(sheet), fs::read(text)) else {
        eprintln!("check: cannot read {sheet} or {text}");
        return ExitCode::from(2);
    };
    match check(&sheet, &text) {
        Verdict::Valid => println!("valid"),
        Verdict::Invalid(line) => println!("not valid\t{line}"),
        Verdict::Refused(refusal) => println!("X\t{}\t{}", refusal.number, refusal.line),
    }
    ExitCode::SUCCESS
}
