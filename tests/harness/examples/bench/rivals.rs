//! The search beside ELPI and SWI-Prolog, where they are installed: the same sheets, translated.

use std::fs;
use std::path::{Path, PathBuf};
use std::process::Command;
use std::time::Instant;

use harness::comparison;
use harness::measure::{in_turn, without};
use harness::sheets::trivial;
use harness::translate::{elpi, prolog};
use rules::{Outcome, Refusal};

use crate::lent::Lent;

const BUDGET: u32 = 50_000;
const ROUNDS: usize = 3;
/// A process is to take that many seconds longer for its solutions than without them.
const LONG: f64 = 0.5;

/// Microseconds of each, the ratio of ours to theirs, and the geometric means of the ratios.
pub fn searches() {
    println!("Searches beside ELPI and SWI-Prolog: units; microseconds of ours (reading, clearing and writing taken off, every");
    println!("  unit counted), ELPI's and the ratio of ours to it, SWI-Prolog's and the ratio; a dash where it is not installed");
    println!("  or the sheet has what Prolog has not");
    let lent = &mut Lent::new();
    let (mut over_elpi, mut over_prolog) = (Vec::new(), Vec::new());
    for (name, sheet) in comparison::sheets() {
        let (outcome, units, ours) = search(lent, &sheet);
        let lambda = Process::elpi().and_then(|process| process.solves(outcome, |times| Some(elpi(&sheet, times))));
        let horn = Process::prolog().and_then(|process| process.solves(outcome, |times| prolog(&sheet, times)));
        println!(
            "  {name}: {units} units, {outcome}; {:.0}; ELPI {}; SWI-Prolog {}",
            ours * 1e6,
            ratio(ours, lambda, &mut over_elpi),
            ratio(ours, horn, &mut over_prolog)
        );
    }
    println!(
        "  geometric mean of the ratios: over ELPI {}, over SWI-Prolog {}",
        mean(&over_elpi),
        mean(&over_prolog)
    );
}

/// The outcome, the units and the time of a search that is stopped one unit short of its end, so that nothing is written.
fn search(lent: &mut Lent, sheet: &[u8]) -> (&'static str, u32, f64) {
    let trivial = trivial();
    let outcome = match lent.run(sheet, BUDGET).outcome {
        Outcome::No => "no",
        // A proof whose text is too long is refused under 12.
        Outcome::Proved | Outcome::Refused(Refusal { number: 12, .. }) => "proved",
        other => panic!("the search does not end: {other:?}"),
    };
    let (mut short, mut whole) = (0, BUDGET);
    while short + 1 < whole {
        let budget = (short + whole) / 2;
        match lent.run(sheet, budget).outcome {
            Outcome::Spent => short = budget,
            _ => whole = budget,
        }
    }
    let [spent, clearing, one_unit, nothing] = in_turn(|work| match work {
        0 => _ = lent.run(sheet, short),
        1 => _ = lent.run(&trivial, short),
        2 => _ = lent.run(sheet, 1),
        _ => _ = lent.run(&trivial, 1),
    });
    (outcome, whole, without(spent, clearing + without(one_unit, nothing)))
}

fn ratio(ours: f64, theirs: Option<f64>, ratios: &mut Vec<f64>) -> String {
    let Some(theirs) = theirs else {
        return "-".to_string();
    };
    ratios.push(ours / theirs);
    format!("{:.0}, ratio {:.2}", theirs * 1e6, ours / theirs)
}

fn mean(ratios: &[f64]) -> String {
    match ratios {
        [] => "-".to_string(),
        _ => format!(
            "{:.2} ({} sheets)",
            (ratios.iter().map(|ratio| ratio.ln()).sum::<f64>() / ratios.len() as f64).exp(),
            ratios.len()
        ),
    }
}

/// A program of another's, run in a process of its own.
struct Process {
    command: &'static str,
    arguments: &'static [&'static str],
    file: PathBuf,
}

impl Process {
    fn elpi() -> Option<Process> {
        Process::new("elpi", &["-no-tc", "-test"], "elpi")
    }

    fn prolog() -> Option<Process> {
        Process::new("swipl", &["-q"], "pl")
    }

    fn new(command: &'static str, arguments: &'static [&'static str], ending: &str) -> Option<Process> {
        let paths = std::env::var_os("PATH")?;
        std::env::split_paths(&paths).find(|path| Path::new(path).join(command).is_file())?;
        let file = std::env::temp_dir().join(format!("rules-bench-{}.{ending}", std::process::id()));
        Some(Process {
            command,
            arguments,
            file,
        })
    }

    /// Seconds for one solution: the time of many less the time of none, both the least of some rounds. The outcome is compared with
    /// ours.
    fn solves(&self, outcome: &str, program: impl Fn(u32) -> Option<String>) -> Option<f64> {
        let none = self.least(outcome, &program(0)?);
        let mut times = 100;
        loop {
            let many = without(self.least(outcome, &program(times)?), none);
            if many > LONG {
                return Some(many / f64::from(times));
            }
            times = (f64::from(times) * (1.2 * LONG / many).clamp(2.0, 50.0)) as u32;
        }
    }

    fn least(&self, outcome: &str, program: &str) -> f64 {
        fs::write(&self.file, program).expect("a file for the program");
        let mut least = f64::MAX;
        for _ in 0..ROUNDS {
            let start = Instant::now();
            let output = Command::new(self.command).args(self.arguments).arg(&self.file).output();
            least = least.min(start.elapsed().as_secs_f64());
            let output = output.expect("a process");
            let printed = [output.stdout, output.stderr].concat();
            let printed = String::from_utf8_lossy(&printed);
            assert!(
                printed.lines().any(|line| line == outcome),
                "{} says {printed}",
                self.command
            );
        }
        let _ = fs::remove_file(&self.file);
        least
    }
}
