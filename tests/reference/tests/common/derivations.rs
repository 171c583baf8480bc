//! All derivations over a few constants, by trying every term in every place: document 01, "Derivations", rule by rule,
//! with neither matching nor variables. For sheets without functions that have arguments, on which few terms suffice: a
//! derivation stays one if a leftover variable is exchanged for a constant.

use std::collections::BTreeSet;

use super::naive::{free, members, replaced, Formula, Judge, Member, Sequent, Term};

/// What a derivation chooses, line by line: 0 and 1 for the sides of an "or", the place for an atom.
pub type Choices = Vec<u32>;

/// The choices of every derivation of an instance of the goal over these constants, in walk order; none if there is too
/// much to be tried.
pub fn derivations(sheet: &[u8], constants: &[String], most: usize) -> Option<BTreeSet<Choices>> {
    let judge = Judge::new(sheet)?;
    let constants = constants.iter().map(|name| Term::Applied(name.clone(), Vec::new()));
    let mut search = Search {
        latest: judge.latest,
        constants: constants.map(|constant| (0, constant)).collect(),
        left: most,
        found: BTreeSet::new(),
    };
    let variables: Vec<u8> = (0..8).filter(|&variable| free(&judge.goal, variable)).collect();
    for terms in search.choices_of_terms(variables.len(), 0) {
        let goal = filled(&judge.goal, &variables, &terms);
        let program = judge.program.clone();
        let first = Sequent {
            program,
            goal,
            level: 0,
        };
        search.derive(vec![first], Vec::new())?;
    }
    Some(search.found)
}

/// The choices that a proof's lines tell.
pub fn choices(proof: &[u8]) -> Choices {
    let lines = std::str::from_utf8(proof).expect("a text is ASCII").lines();
    let derivation = lines.filter_map(|line| line.strip_prefix("D\t"));
    derivation
        .filter_map(|line| match line.split('\t').collect::<Vec<_>>()[..] {
            ["left"] => Some(0),
            ["right"] => Some(1),
            ["clause", place, ..] => Some(place.parse().expect("a place")),
            _ => None,
        })
        .collect()
}

fn filled(formula: &Formula, variables: &[u8], terms: &[Term]) -> Formula {
    let pairs = variables.iter().zip(terms);
    pairs.fold(formula.clone(), |formula, (&variable, term)| {
        replaced(&formula, variable, term)
    })
}

struct Search {
    latest: bool,
    /// The constants, and those made above the goal at hand, with their levels.
    constants: Vec<(usize, Term)>,
    left: usize,
    found: BTreeSet<Choices>,
}

impl Search {
    /// Every choice of so many terms of at most this level.
    fn choices_of_terms(&self, count: usize, level: usize) -> Vec<Vec<Term>> {
        let allowed: Vec<&Term> = self
            .constants
            .iter()
            .filter(|(own, _)| *own <= level)
            .map(|(_, term)| term)
            .collect();
        (0..count).fold(vec![Vec::new()], |chosen, _| {
            let longer = chosen.iter().flat_map(|terms| {
                let with = |term: &&Term| [&terms[..], &[(*term).clone()]].concat();
                allowed.iter().map(with).collect::<Vec<_>>()
            });
            longer.collect()
        })
    }

    /// Adds what closes all the open sequents, the last of which comes first.
    fn derive(&mut self, mut open: Vec<Sequent>, chosen: Choices) -> Option<()> {
        self.left = self.left.checked_sub(1)?;
        let Some(Sequent {
            mut program,
            goal,
            level,
        }) = open.pop()
        else {
            self.found.insert(chosen);
            return Some(());
        };
        let with = |program: Vec<Formula>, goals: Vec<Formula>, level: usize| {
            let more = goals.into_iter().rev().map(|goal| Sequent {
                program: program.clone(),
                goal,
                level,
            });
            open.iter().cloned().chain(more).collect::<Vec<Sequent>>()
        };
        let choosing = |choice: u32| [&chosen[..], &[choice]].concat();
        match goal {
            Formula::True => self.derive(open, chosen),
            Formula::And(left, right) => self.derive(with(program, vec![*left, *right], level), chosen),
            Formula::Or(left, right) => {
                self.derive(with(program.clone(), vec![*left], level), choosing(0))?;
                self.derive(with(program, vec![*right], level), choosing(1))
            }
            Formula::Implies(clause, goal) => {
                let place = if self.latest { 0 } else { program.len() };
                program.insert(place, *clause);
                self.derive(with(program, vec![*goal], level), chosen)
            }
            Formula::Some(variable, goal) => {
                for terms in self.choices_of_terms(1, level) {
                    let goal = replaced(&goal, variable, &terms[0]);
                    self.derive(with(program.clone(), vec![goal], level), chosen.clone())?;
                }
                Some(())
            }
            Formula::Every(variable, goal) => {
                let constant = Term::Applied(format!("!{}@{}", self.constants.len(), level + 1), Vec::new());
                let goal = replaced(&goal, variable, &constant);
                self.constants.push((level + 1, constant));
                let derived = self.derive(with(program, vec![goal], level + 1), chosen);
                self.constants.pop();
                derived
            }
            Formula::Atom(..) => {
                let all: Vec<Member> = program.iter().flat_map(members).collect();
                for (place, member) in all.iter().enumerate() {
                    for terms in self.choices_of_terms(member.prefix.len(), level) {
                        if filled(&member.head, &member.prefix, &terms) == goal {
                            let body = member.body.iter().map(|body| filled(body, &member.prefix, &terms));
                            let open = with(program.clone(), body.collect(), level);
                            self.derive(open, choosing(place as u32 + 1))?;
                        }
                    }
                }
                Some(())
            }
        }
    }
}
