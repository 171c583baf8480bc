//! Seeded generators: sheets, each family aimed at a way in which a program can go wrong; answer texts; damaged bytes;
//! and the calls of engine and checker that are tried with them.

mod alternatives;
mod bindings;
pub mod builder;
mod calls;
mod capitals;
mod damage;
mod formulas;
mod language;
mod levels;
mod limits;
mod numbers;
mod prefixes;
mod special;
mod suppositions;
mod symbols;
mod terms;
mod texts;

pub use calls::{asks, asks_of, checks, runs, runs_of, AskCall, CheckCall, RunCall};
pub use capitals::{changed_case, respelled_text};
pub use damage::{damaged, noise};
pub use special::special_text;
pub use suppositions::{in_other_order, LATEST};
pub use texts::changed_text;

use crate::random::Random;
use capitals::with_capitals;
use numbers::with_numbers;
use suppositions::with_order;

#[derive(Clone, Copy, PartialEq, Eq, Debug, PartialOrd, Ord)]
pub enum Family {
    /// Any goals and clauses.
    Formulas,
    /// The same with two variables only, so that quantifiers hide each other.
    Shadowing,
    /// The same with equal nodes written once.
    Sharing,
    /// Lines drawn from the nodes so far: goals that unfold without measure.
    Graphs,
    /// Goals and clauses without arguments: scopes and orders.
    Propositions,
    /// Assumptions beside the goals that want them.
    Scopes,
    /// Suppositions inside one another, each of several members: places that differ between the orders.
    Suppositions,
    /// Clauses under many quantifiers, idle and hidden ones among them.
    Prefixes,
    /// Quantifiers before equations: levels lowered.
    Equations,
    /// Equations that fail after lowering, beside ones that want the old levels.
    Restoring,
    /// Variables bound to variables.
    Chains,
    /// Chains of bindings, looked through on either side and in range checks.
    Bindings,
    /// Terms that unfold to a power of two.
    Unfolding,
    /// Deep and wide terms.
    Terms,
    /// Addition and joined lists.
    Recursion,
    /// Searches that grow their program.
    Growth,
    /// Facts and goals over a few numbers.
    Channels,
    /// Many ways to the same goal.
    Alternatives,
    /// Sheets at a limit or one past it.
    Limits,
    /// Any other sheet with some bytes or lines changed.
    Damaged,
}

pub const FAMILIES: [Family; 20] = [
    Family::Formulas,
    Family::Shadowing,
    Family::Sharing,
    Family::Graphs,
    Family::Propositions,
    Family::Scopes,
    Family::Suppositions,
    Family::Prefixes,
    Family::Equations,
    Family::Restoring,
    Family::Chains,
    Family::Bindings,
    Family::Unfolding,
    Family::Terms,
    Family::Recursion,
    Family::Growth,
    Family::Channels,
    Family::Alternatives,
    Family::Limits,
    Family::Damaged,
];

/// The sheet of a seed; the families take turns. A third of the sheets have N lines, a third capitals in their names, and
/// longer names, and a third an O line. Sheets at a limit, where the length of a line counts, have no longer names, and
/// some have N lines of their own.
pub fn sheet(seed: u64) -> (Family, Vec<u8>) {
    let family = family(seed);
    let mut sheet = of_family(family, &mut Random::new(seed));
    if !matches!(family, Family::Channels | Family::Limits) {
        sheet = with_numbers(sheet, &mut Random::new(seed ^ 0x204));
    }
    let random = &mut Random::new(seed ^ 0xCA9);
    let ending = match family {
        Family::Limits => "",
        _ => *random.pick(&["", "_1", "bc", "z_y"]),
    };
    let sheet = with_capitals(sheet, ending, random);
    (family, with_order(sheet, &mut Random::new(seed ^ 0x207)))
}

/// The family of a seed's sheet.
pub fn family(seed: u64) -> Family {
    FAMILIES[(seed % FAMILIES.len() as u64) as usize]
}

pub fn of_family(family: Family, random: &mut Random) -> Vec<u8> {
    match family {
        Family::Formulas => formulas::formulas(random, 8, false),
        Family::Shadowing => formulas::formulas(random, 2, false),
        Family::Sharing => formulas::formulas(random, 4, true),
        Family::Graphs => formulas::graphs(random),
        Family::Propositions => formulas::propositions(random),
        Family::Scopes => formulas::scopes(random),
        Family::Suppositions => suppositions::suppositions(random),
        Family::Prefixes => prefixes::prefixes(random),
        Family::Equations => levels::equations(random),
        Family::Restoring => levels::restoring(random),
        Family::Chains => levels::chains(random),
        Family::Bindings => bindings::bindings(random),
        Family::Unfolding => terms::unfolding(random),
        Family::Terms => terms::terms(random),
        Family::Recursion => terms::recursion(random),
        Family::Growth => terms::growth(random),
        Family::Channels => numbers::channels(random),
        Family::Alternatives => alternatives::alternatives(random),
        Family::Limits => limits::limits(random),
        Family::Damaged => {
            let other = FAMILIES[random.below(FAMILIES.len() - 1)];
            let mut sheet = of_family(other, random);
            for _ in 0..1 + random.below(3) {
                sheet = damaged(&sheet, random);
            }
            sheet
        }
    }
}
