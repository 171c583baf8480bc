//! Memory: what is lent, and the stack that the deepest terms need.

use std::env;
use std::process::{Command, Stdio};
use std::thread;

use harness::{sheets, texts};

use crate::lent::Lent;

/// The first argument of a process that performs a case on a stack of given size.
pub const CHILD: &str = "--on-a-stack";

const CASES: [(&str, &str); 3] = [
    ("written", "the engine at the deepest term written"),
    ("tried", "the engine at the deepest term tried"),
    ("checked", "the checker at the deepest term"),
];

/// Performs a case on a stack of so many bytes; too few end the process.
pub fn perform(case: &str, bytes: usize) {
    let case = case.to_string();
    let work = move || {
        let mut lent = Lent::new();
        match &case[..] {
            "written" => _ = lent.run(&sheets::deep_term(1_002, 6, 0), 50_000),
            "tried" => _ = lent.run(&sheets::deep_term(960, 48, 0), 50_000),
            _ => {
                let hard = texts::deepest_witness();
                lent.check(&hard.sheet, &hard.text);
            }
        }
    };
    let thread = thread::Builder::new().stack_size(bytes).spawn(work);
    thread.expect("a thread").join().expect("no panic");
}

fn succeeds(case: &str, kilobytes: usize) -> bool {
    let program = env::current_exe().expect("this program");
    let status = Command::new(program)
        .args([CHILD, case, &(kilobytes * 1_024).to_string()])
        .stderr(Stdio::null())
        .status();
    status.is_ok_and(|status| status.success())
}

pub fn figures() {
    println!("Memory: lent are 32 KB of table, 256 bytes of work buffer for each unit of budget (12.8 MB for 50,000)");
    println!("  or line of text, and the answer. Stack of a thread on which the deepest terms pass, to 16 KB:");
    for (case, name) in CASES {
        // The least multiple of 16 KB that is enough, if 64 MB are.
        let (mut short, mut enough) = (0, 64 * 64);
        if !succeeds(case, 16 * enough) {
            println!("  {name}: more than 64 MB");
            continue;
        }
        while enough - short > 1 {
            let middle = (short + enough) / 2;
            if succeeds(case, 16 * middle) {
                enough = middle;
            } else {
                short = middle;
            }
        }
        println!("  {name}: {} KB", 16 * enough);
    }
}
