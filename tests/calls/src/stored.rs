//! The stored cases (tests/cases): sheets with the answers known from outside, texts with their verdicts
//! (tests/cases/checks), and runs for several proofs (tests/cases/ways).

use std::fs;
use std::path::{Path, PathBuf};

fn folder() -> PathBuf {
    PathBuf::from(env!("CARGO_MANIFEST_DIR")).join("../cases")
}

/// The names of the sheets of a folder, sorted.
fn names(folder: &Path) -> Vec<String> {
    let entries = fs::read_dir(folder).expect("a folder of cases");
    let files = entries.map(|entry| entry.expect("an entry").file_name());
    let mut names: Vec<String> = files
        .map(|file| file.into_string().expect("a plain name"))
        .filter_map(|file| file.strip_suffix(".sheet").map(str::to_string))
        .collect();
    names.sort();
    names
}

fn file(folder: &Path, name: &str, ending: &str) -> Vec<u8> {
    fs::read(folder.join(format!("{name}.{ending}"))).expect("a stored file")
}

/// The file of a case: its sheet, or its answer by the budget.
pub fn stored(name: &str, ending: &str) -> Vec<u8> {
    file(&folder(), name, ending)
}

/// Name and sheet of every case.
pub fn cases() -> Vec<(String, Vec<u8>)> {
    let sheet = |name: String| {
        let sheet = stored(&name, "sheet");
        (name, sheet)
    };
    names(&folder()).into_iter().map(sheet).collect()
}

/// A text to be checked, and what the answer checker prints for it.
pub struct StoredCheck {
    pub name: String,
    pub sheet: Vec<u8>,
    pub text: Vec<u8>,
    pub verdict: Vec<u8>,
}

/// Every text of tests/cases/checks.
pub fn stored_checks() -> Vec<StoredCheck> {
    let folder = folder().join("checks");
    let check = |name: String| StoredCheck {
        sheet: file(&folder, &name, "sheet"),
        text: file(&folder, &name, "text"),
        verdict: file(&folder, &name, "verdict"),
        name,
    };
    names(&folder).into_iter().map(check).collect()
}

/// A run for several proofs: what is asked for, the lengths of the buffers, and the text or the refusal that is told.
pub struct StoredWays {
    pub name: String,
    pub sheet: Vec<u8>,
    pub budget: u32,
    pub proofs: u32,
    pub table: usize,
    pub work: usize,
    pub answer: usize,
    pub want: Vec<u8>,
}

impl StoredWays {
    /// Outcome, units, length, refusal, line and number of proofs, as `rules_ask` hands them back. W-202: "The run hands
    /// back the outcome and units of the last R line and the number of proofs".
    pub fn numbers(&self) -> [u32; 6] {
        let want = std::str::from_utf8(&self.want).expect("a text is ASCII");
        let number = |field: &str| field.parse().expect("a number");
        if let Some(refusal) = want.strip_prefix("X\t") {
            let (refusal, line) = refusal.trim_end().split_once('\t').expect("a number and a line");
            return [3, 0, 0, number(refusal), number(line), 0];
        }
        let told: Vec<&str> = want.lines().filter_map(|line| line.strip_prefix("R\t")).collect();
        let (outcome, units) = told[told.len() - 1].split_once('\t').expect("an outcome and units");
        let code = ["proved", "no", "spent"].iter().position(|word| *word == outcome);
        let proofs = told.iter().filter(|line| line.starts_with("proved")).count();
        let code = code.expect("an outcome") as u32;
        [code, number(units), want.len() as u32, 0, 0, proofs as u32]
    }
}

/// Every run of tests/cases/ways.
pub fn stored_ways() -> Vec<StoredWays> {
    let folder = folder().join("ways");
    let ways = |name: String| {
        let arguments = String::from_utf8(file(&folder, &name, "args")).expect("numbers");
        let numbers: Vec<u32> = arguments
            .split_whitespace()
            .map(|number| number.parse().expect("a number"))
            .collect();
        let [budget, proofs, table, work, answer] = numbers[..] else {
            panic!("{name}: five numbers are wanted")
        };
        StoredWays {
            sheet: file(&folder, &name, "sheet"),
            want: file(&folder, &name, "want"),
            name,
            budget,
            proofs,
            table: table as usize,
            work: work as usize,
            answer: answer as usize,
        }
    };
    names(&folder).into_iter().map(ways).collect()
}
