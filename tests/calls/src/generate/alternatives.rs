//! Sheets with several proofs (W-202): facts that stand twice, both sides of an "or", the same atom by a rule and by a
//! supposition, variables and constants made anew on each way.

use super::builder::Builder;
use crate::random::Random;

pub fn alternatives(random: &mut Random) -> Vec<u8> {
    match random.below(8) {
        0 => splits(random),
        1 => endless(random),
        2 => large(random),
        3 => choices(random),
        _ => facts(random),
    }
}

/// The symbols of facts.
struct Facts {
    constants: Vec<usize>,
    p: usize,
    q: usize,
    r: usize,
}

/// The variables of goals; clauses have others, so that both can be in a supposition.
const VARIABLES: usize = 3;

/// Facts, many of them equal or more general than others, and goals over them.
fn facts(random: &mut Random) -> Vec<u8> {
    let mut builder = Builder::new(random.one_in(2));
    let facts = Facts {
        constants: ["a", "b", "c"].map(|name| builder.function(name, 0)).to_vec(),
        p: builder.predicate("p", 1),
        q: builder.predicate("q", 2),
        r: builder.predicate("r", 0),
    };
    for _ in 0..1 + random.below(5) {
        let clause = facts.clause(&mut builder, random);
        // The same line twice is two members.
        for _ in 0..1 + usize::from(random.one_in(3)) + usize::from(random.one_in(6)) {
            builder.clause(clause);
        }
    }
    let depth = 1 + random.below(3);
    let goal = facts.goal(&mut builder, random, depth);
    builder.goal(goal)
}

impl Facts {
    fn term(&self, builder: &mut Builder, random: &mut Random, variables: [u8; 2]) -> usize {
        if random.one_in(3) {
            builder.variable(*random.pick(&variables))
        } else {
            builder.apply(*random.pick(&self.constants), &[])
        }
    }

    fn atom(&self, builder: &mut Builder, random: &mut Random, variables: [u8; 2]) -> usize {
        match random.below(6) {
            0 => builder.apply(self.r, &[]),
            1 | 2 => {
                let arguments = [(); 2].map(|()| self.term(builder, random, variables));
                builder.apply(self.q, &arguments)
            }
            _ => {
                let argument = self.term(builder, random, variables);
                builder.apply(self.p, &[argument])
            }
        }
    }

    /// A fact, or a rule by a fact, by one of two, or by some term.
    fn clause(&self, builder: &mut Builder, random: &mut Random) -> usize {
        let variables = [6, 7];
        let mut clause = self.atom(builder, random, variables);
        if random.one_in(4) {
            let first = self.atom(builder, random, variables);
            let second = self.atom(builder, random, variables);
            let body = match random.below(4) {
                0 => builder.or(first, second),
                1 => builder.and(first, second),
                2 => builder.implies(second, first),
                _ => first,
            };
            clause = builder.implies(body, clause);
        }
        for variable in variables {
            clause = builder.every(variable, clause);
        }
        clause
    }

    fn goal(&self, builder: &mut Builder, random: &mut Random, depth: usize) -> usize {
        let variables = [(); 2].map(|()| random.below(VARIABLES) as u8);
        if depth == 0 {
            return self.atom(builder, random, variables);
        }
        match random.below(12) {
            0..=3 => {
                let left = self.goal(builder, random, depth - 1);
                let right = self.goal(builder, random, depth - 1);
                builder.and(left, right)
            }
            4..=6 => {
                let left = self.goal(builder, random, depth - 1);
                let right = if random.one_in(2) {
                    left
                } else {
                    self.goal(builder, random, depth - 1)
                };
                builder.or(left, right)
            }
            7 | 8 => {
                let mut supposed = self.clause(builder, random);
                if random.one_in(2) {
                    let more = self.atom(builder, random, variables);
                    supposed = builder.and(supposed, more);
                }
                let goal = self.goal(builder, random, depth - 1);
                builder.implies(supposed, goal)
            }
            9 => {
                let goal = self.goal(builder, random, depth - 1);
                builder.some(variables[0], goal)
            }
            10 => {
                let goal = self.goal(builder, random, depth - 1);
                builder.every(variables[0], goal)
            }
            _ => self.atom(builder, random, variables),
        }
    }
}

/// join(n, y, y); join(c(h, x), y, c(h, z)) if join(x, y, z); the goal join(x, y, list): a way for each place to part
/// the list, and then no.
fn splits(random: &mut Random) -> Vec<u8> {
    let mut builder = Builder::new(true);
    let (nil, cons) = (builder.function("n", 0), builder.function("c", 2));
    let elements = ["a", "b"].map(|name| builder.function(name, 0));
    let join = builder.predicate("join", 3);
    let [x, y, z, h] = [0, 1, 2, 3].map(|variable| builder.variable(variable));
    let nothing = builder.apply(nil, &[]);
    let fact = builder.apply(join, &[nothing, y, y]);
    let fact = builder.every(1, fact);
    let (longer, longer_joined) = (builder.apply(cons, &[h, x]), builder.apply(cons, &[h, z]));
    let (body, head) = (
        builder.apply(join, &[x, y, z]),
        builder.apply(join, &[longer, y, longer_joined]),
    );
    let mut rule = builder.implies(body, head);
    for variable in 0..4 {
        rule = builder.every(variable, rule);
    }
    let mut clauses = vec![fact, rule];
    if random.one_in(4) {
        clauses.push(fact);
    }
    while !clauses.is_empty() {
        builder.clause(clauses.swap_remove(random.below(clauses.len())));
    }
    let mut list = if random.one_in(4) { z } else { nothing };
    for _ in 0..random.below(6) {
        let element = match random.below(3) {
            0 => h,
            _ => builder.apply(*random.pick(&elements), &[]),
        };
        list = builder.apply(cons, &[element, list]);
    }
    let mut goal = builder.apply(join, &[x, y, list]);
    if random.one_in(3) {
        // The parts exchanged join to the same list.
        let other = builder.apply(join, &[y, x, list]);
        goal = builder.and(goal, other);
    }
    if random.one_in(2) {
        goal = builder.some(0, goal);
    }
    builder.goal(goal)
}

/// n(z); n(s(x)) if n(x): proofs without end, or none where the rule comes first.
fn endless(random: &mut Random) -> Vec<u8> {
    let mut builder = Builder::new(true);
    let (zero, s) = (builder.function("z", 0), builder.function("s", 1));
    let n = builder.predicate("n", 1);
    let x = builder.variable(0);
    let (nothing, next) = (builder.apply(zero, &[]), builder.apply(s, &[x]));
    let fact = builder.apply(n, &[nothing]);
    let (body, head) = (builder.apply(n, &[x]), builder.apply(n, &[next]));
    let rule = builder.implies(body, head);
    let rule = builder.every(0, rule);
    let mut clauses = vec![fact, rule];
    if random.one_in(5) {
        clauses.reverse();
    }
    for clause in clauses {
        builder.clause(clause);
    }
    let goal = match random.below(3) {
        0 => body,
        1 => builder.some(0, body),
        _ => {
            let y = builder.variable(1);
            let other = builder.apply(n, &[y]);
            builder.and(body, other)
        }
    };
    builder.goal(goal)
}

/// v1 = f(v2, v2, v2, v2) and so on down to a constant, or one side or the other of an "or" of such goals: few units for
/// proofs of many bytes, so that the whole text passes a limit that each of them keeps.
fn large(random: &mut Random) -> Vec<u8> {
    let mut builder = Builder::new(true);
    let count = 3 + random.below(4);
    let name = "f".repeat(8 + random.below(9));
    let (f, leaf) = (builder.function(&name, 4), builder.function("leaf_of_some_len", 0));
    let e = builder.equality();
    let variables: Vec<usize> = (0..count).map(|variable| builder.variable(variable as u8)).collect();
    let constant = builder.apply(leaf, &[]);
    let mut goal = builder.apply(e, &[variables[count - 1], constant]);
    for place in (0..count - 1).rev() {
        let term = builder.apply(f, &[variables[place + 1]; 4]);
        let link = builder.apply(e, &[variables[place], term]);
        goal = builder.and(link, goal);
    }
    if random.one_in(2) {
        goal = builder.some(0, goal);
    }
    for _ in 0..1 + random.below(4) {
        goal = builder.or(goal, goal);
    }
    for _ in 0..random.below(9) {
        let truth = builder.truth();
        goal = builder.and(truth, goal);
    }
    builder.goal(goal)
}

/// Both sides of one "or" in another, with "every" and "some" between them: constants and variables made on each way
/// again.
fn choices(random: &mut Random) -> Vec<u8> {
    let mut builder = Builder::new(true);
    let e = builder.equality();
    let (x, y) = (builder.variable(0), builder.variable(1));
    let equal = builder.apply(e, &[x, y]);
    let same = builder.apply(e, &[x, x]);
    let mut goal = *random.pick(&[equal, same]);
    let truth = builder.truth();
    for _ in 0..2 + random.below(6) {
        goal = match random.below(8) {
            0..=2 => builder.or(goal, goal),
            3 => builder.or(goal, truth),
            4 => builder.and(goal, *random.pick(&[equal, same, truth])),
            5 => builder.some(random.below(2) as u8, goal),
            6 => builder.every(random.below(2) as u8, goal),
            _ => builder.implies(*random.pick(&[equal, same]), goal),
        };
    }
    builder.goal(goal)
}
