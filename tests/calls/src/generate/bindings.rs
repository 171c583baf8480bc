//! Chains of bindings: grown one by one, then looked through on either side of a pair, on both, and in range checks.

use super::builder::Builder;
use super::levels::{equation_term, quantified};
use crate::random::Random;

/// The variables of the goal.
const VARIABLES: usize = 4;

/// The symbols of such a sheet: a, f and g; the predicates e, r and q.
struct Symbols {
    functions: [usize; 3],
    equal: usize,
    any: usize,
    sought: usize,
}

/// The clauses e(z,z) and r(z) for every z, and facts for q. The goal lets chains grow and then looks through them; now
/// and then a part of it fails first, so that its bindings are undone.
pub fn bindings(random: &mut Random) -> Vec<u8> {
    let mut builder = Builder::new(random.one_in(2));
    let functions = [
        builder.function("a", 0),
        builder.function("f", 1),
        builder.function("g", 2),
    ];
    let equal = builder.equality();
    let symbols = Symbols {
        functions,
        equal,
        any: builder.predicate("r", 1),
        sought: builder.predicate("q", 1),
    };
    let z = builder.variable(7);
    let fact = builder.apply(symbols.any, &[z]);
    let fact = builder.every(7, fact);
    builder.clause(fact);
    for _ in 0..random.below(3) {
        let fact = atom(&mut builder, random, &symbols);
        let fact = (0..VARIABLES as u8).fold(fact, |fact, variable| builder.every(variable, fact));
        builder.clause(fact);
    }
    let mut goal = looked_through(&mut builder, random, &symbols);
    let most = if random.one_in(6) { 22 } else { 9 };
    for _ in 0..1 + random.below(most) {
        let growing = growing(&mut builder, random, &symbols);
        goal = if random.one_in(12) {
            let stop = builder.apply(symbols.functions[0], &[]);
            let stop = builder.apply(symbols.sought, &[stop]);
            let failing = builder.and(growing, stop);
            builder.or(failing, goal)
        } else {
            builder.and(growing, goal)
        };
    }
    let variables = random.below(VARIABLES + 1);
    let goal = quantified(&mut builder, random, variables, goal);
    builder.goal(goal)
}

/// q of any term.
fn atom(builder: &mut Builder, random: &mut Random, symbols: &Symbols) -> usize {
    let term = equation_term(builder, random, symbols.functions, VARIABLES, 2);
    builder.apply(symbols.sought, &[term])
}

/// A goal that makes a chain longer: mostly of the first variable.
fn growing(builder: &mut Builder, random: &mut Random, symbols: &Symbols) -> usize {
    let variable = |random: &mut Random| if random.one_in(4) { random.below(VARIABLES) } else { 0 };
    let left = builder.variable(variable(random) as u8);
    match random.below(4) {
        0 => {
            let right = builder.variable(variable(random) as u8);
            builder.apply(symbols.equal, &[left, right])
        }
        1 if random.one_in(3) => {
            let right = equation_term(builder, random, symbols.functions, VARIABLES, 1);
            builder.apply(symbols.equal, &[left, right])
        }
        _ => builder.apply(symbols.any, &[left]),
    }
}

/// A goal that looks through the chains: in the goal, in a supposition, in both, in terms.
fn looked_through(builder: &mut Builder, random: &mut Random, symbols: &Symbols) -> usize {
    let first = atom(builder, random, symbols);
    match random.below(6) {
        0 => first,
        1 => {
            let left = equation_term(builder, random, symbols.functions, VARIABLES, 2);
            let right = equation_term(builder, random, symbols.functions, VARIABLES, 2);
            builder.apply(symbols.equal, &[left, right])
        }
        2 => {
            let second = atom(builder, random, symbols);
            let third = atom(builder, random, symbols);
            let both = builder.and(second, third);
            builder.implies(first, both)
        }
        3 => {
            let second = atom(builder, random, symbols);
            let both = builder.and(first, second);
            let third = atom(builder, random, symbols);
            builder.implies(both, third)
        }
        _ => {
            let second = atom(builder, random, symbols);
            builder.implies(first, second)
        }
    }
}
