//! Document 01, "The walk": goal-directed search for a proof, unit for unit; with W-202 for as many as are wanted.

use std::rc::Rc;

use crate::formula::{Member, Node, Shape};
use crate::list::List;
use crate::program;
use crate::sheet::Sheet;
use crate::term::{Constant, Environment, Fresh, Variable};
use crate::unification::{unify, Applied, OutOfUnits, Store, Units};

type Clause = program::Clause<Fresh>;
type Program = program::Program<Fresh>;

/// An open goal: a sequent to be derived.
#[derive(Clone)]
struct Goal {
    formula: Rc<Node>,
    environment: Environment<Fresh>,
    program: Program,
    level: u32,
}

/// One line of the derivation, its terms still to be looked through the final bindings.
pub enum Step {
    True,
    And,
    Left,
    Right,
    Some(Variable),
    All(Constant),
    Assume,
    Clause { place: u32, prefix: Vec<Fresh> },
}

/// A point of the walk. Persistent: its clone can be come back to.
#[derive(Clone)]
struct State {
    goals: List<Goal>,
    store: Store,
    /// The steps so far, latest first.
    steps: List<Rc<Step>>,
}

/// The members left at an atom.
#[derive(Clone)]
struct Candidates {
    program: Program,
    /// The clauses of which every member was tried.
    clauses: u32,
    /// The next member within the clause after these.
    next: usize,
    /// The place of the member tried last.
    place: u32,
}

/// A choice point.
enum Alternative {
    /// The other side of an "or", already in front of the goals.
    Side(State),
    /// The members left at an atom; `state` has the goals after the atom.
    Members {
        goal: Goal,
        candidates: Candidates,
        state: State,
    },
}

/// A proof found: the units so far, its steps in order, and the bindings and levels at its end.
pub struct Proof {
    pub units: u32,
    /// The goal's free variables, ascending.
    pub answers: Vec<(u8, Variable)>,
    pub steps: Vec<Rc<Step>>,
    pub store: Store,
}

pub enum End {
    /// As many proofs are found as are wanted.
    Proved,
    /// No alternative is left.
    No,
    Spent,
}

/// What the walk came to: the proofs in the order found, and how it ended, with the units to be told then.
pub struct Ended {
    pub proofs: Vec<Proof>,
    pub end: End,
    pub units: u32,
    /// How many bindings were looked through, and the most in a row: for tests.
    pub bindings: u32,
    pub longest_chain: u32,
}

/// The walk up to so many proofs, at least one.
pub fn search(sheet: &Sheet, budget: u32, wanted: usize) -> Ended {
    let mut walk = Walk {
        sheet,
        units: Units::new(budget),
        variables: 0,
        constants: 0,
        alternatives: Vec::new(),
    };
    let mut proofs = Vec::new();
    let (end, units) = match walk.run(wanted, &mut proofs) {
        Ok(end) => (end, walk.units.taken),
        Err(OutOfUnits) => (End::Spent, budget),
    };
    Ended {
        proofs,
        end,
        units,
        bindings: walk.units.bindings,
        longest_chain: walk.units.longest_chain,
    }
}

/// The walk: depth-first search for a uniform proof, with chronological backtracking.
struct Walk<'a> {
    sheet: &'a Sheet,
    units: Units,
    /// Variables made so far, in all branches.
    variables: u32,
    /// Made constants so far, in all branches.
    constants: u32,
    /// Latest last.
    alternatives: Vec<Alternative>,
}

impl Walk<'_> {
    /// Walks on until so many proofs are found, and adds each as it is found.
    fn run(&mut self, wanted: usize, proofs: &mut Vec<Proof>) -> Result<End, OutOfUnits> {
        let free = self.sheet.goal.free.ascending();
        let answers: Vec<(u8, Variable)> = free.iter().map(|&v| (v, self.fresh_variable(0))).collect();
        let mut state = State {
            goals: List::empty().with(self.first_goal(&answers)),
            store: Store::empty(),
            steps: List::empty(),
        };
        loop {
            let taken = match state.goals.split() {
                Some((goal, rest)) => {
                    let (goal, goals) = (goal.clone(), rest.clone());
                    self.take(goal, State { goals, ..state })?
                }
                None => {
                    proofs.push(self.proof(&answers, state));
                    if proofs.len() == wanted {
                        return Ok(End::Proved);
                    }
                    // W-202: "the walk goes on after each proof as if it had failed".
                    None
                }
            };
            let next = match taken {
                None => self.take_up_latest()?,
                next => next,
            };
            match next {
                None => return Ok(End::No),
                Some(next) => state = next,
            }
        }
    }

    /// The proof of a state that has no goal left.
    fn proof(&self, answers: &[(u8, Variable)], state: State) -> Proof {
        let mut steps: Vec<Rc<Step>> = state.steps.iter().cloned().collect();
        steps.reverse();
        Proof {
            units: self.units.taken,
            answers: answers.to_vec(),
            steps,
            store: state.store,
        }
    }

    fn first_goal(&self, answers: &[(u8, Variable)]) -> Goal {
        let environment = Environment::empty();
        Goal {
            formula: self.sheet.goal.clone(),
            environment: answers.iter().fold(environment, |environment, &(v, variable)| {
                environment.with(v, Fresh::Variable(variable))
            }),
            program: Program::of_sheet(self.sheet),
            level: 0,
        }
    }

    /// Takes a goal; `after` is the state without it. None is a failure.
    fn take(&mut self, goal: Goal, after: State) -> Result<Option<State>, OutOfUnits> {
        self.units.act()?;
        let part = |formula: &Rc<Node>| Goal {
            formula: formula.clone(),
            ..goal.clone()
        };
        Ok(Some(match &goal.formula.shape {
            Shape::True => after.with_step(Step::True),
            Shape::And(left, right) => after.with_step(Step::And).with_goal(part(right)).with_goal(part(left)),
            Shape::Or(left, right) => {
                let other = after.with_step(Step::Right).with_goal(part(right));
                self.alternatives.push(Alternative::Side(other));
                after.with_step(Step::Left).with_goal(part(left))
            }
            Shape::Some(v, formula) => {
                let variable = self.fresh_variable(goal.level);
                after.with_step(Step::Some(variable)).with_goal(Goal {
                    environment: goal.environment.with(*v, Fresh::Variable(variable)),
                    ..part(formula)
                })
            }
            Shape::Every(v, formula) => {
                let constant = self.made_constant(goal.level + 1);
                after.with_step(Step::All(constant)).with_goal(Goal {
                    environment: goal.environment.with(*v, Fresh::Constant(constant)),
                    level: constant.level,
                    ..part(formula)
                })
            }
            Shape::Implies(clause, formula) => {
                let assumed = Clause {
                    members: self.sheet.members[clause.number].clone(),
                    environment: goal.environment.clone(),
                };
                after.with_step(Step::Assume).with_goal(Goal {
                    program: goal.program.with(assumed),
                    ..part(formula)
                })
            }
            Shape::Atom(..) => {
                let candidates = Candidates {
                    program: goal.program.clone(),
                    clauses: 0,
                    next: 0,
                    place: 0,
                };
                return self.try_members(goal, candidates, after);
            }
            Shape::Variable(_) | Shape::Number(_) | Shape::Application(..) => unreachable!("a term is no goal"),
        }))
    }

    /// Goes back to the latest choice point that does not fail. Neither the "or" nor the atom is taken again.
    fn take_up_latest(&mut self) -> Result<Option<State>, OutOfUnits> {
        while let Some(alternative) = self.alternatives.pop() {
            let next = match alternative {
                Alternative::Side(state) => Some(state),
                Alternative::Members {
                    goal,
                    candidates,
                    state,
                } => self.try_members(goal, candidates, state)?,
            };
            if next.is_some() {
                return Ok(next);
            }
        }
        Ok(None)
    }

    /// "atom: members are tried in turn"
    fn try_members(
        &mut self,
        goal: Goal,
        mut candidates: Candidates,
        after: State,
    ) -> Result<Option<State>, OutOfUnits> {
        while let Some((clause, member)) = candidates.next_member() {
            self.units.act()?;
            candidates.place += 1;
            let prefix: Vec<Fresh> = member
                .prefix
                .iter()
                .map(|_| Fresh::Variable(self.fresh_variable(goal.level)))
                .collect();
            let environment = clause.environment.with_all(&member.prefix, &prefix);
            let mut store = after.store.clone();
            let atom = Applied::new(&goal.formula, &goal.environment);
            let head = Applied::new(&member.head, &environment);
            if !unify(atom, head, &mut store, &mut self.units)? {
                continue;
            }
            let place = candidates.place;
            let mut next = after.with_step(Step::Clause { place, prefix });
            next.store = store;
            if let Some(body) = &member.body {
                next = next.with_goal(Goal {
                    formula: body.clone(),
                    environment,
                    ..goal.clone()
                });
            }
            self.alternatives.push(Alternative::Members {
                goal,
                candidates,
                state: after,
            });
            return Ok(Some(next));
        }
        Ok(None)
    }

    fn fresh_variable(&mut self, level: u32) -> Variable {
        self.variables += 1;
        Variable {
            id: self.variables - 1,
            born: level,
        }
    }

    fn made_constant(&mut self, level: u32) -> Constant {
        self.constants += 1;
        Constant {
            id: self.constants - 1,
            level,
        }
    }
}

impl State {
    fn with_step(&self, step: Step) -> State {
        State {
            steps: self.steps.with(Rc::new(step)),
            ..self.clone()
        }
    }

    /// The state with a goal in front of the others.
    fn with_goal(self, goal: Goal) -> State {
        State {
            goals: self.goals.with(goal),
            ..self
        }
    }
}

impl Candidates {
    /// The next member in trying order, with its clause.
    fn next_member(&mut self) -> Option<(Clause, Rc<Member>)> {
        loop {
            let clause = self.program.clause(self.clauses)?;
            if let Some(member) = clause.members.get(self.next) {
                self.next += 1;
                return Some((clause.clone(), member.clone()));
            }
            self.clauses += 1;
            self.next = 0;
        }
    }
}
