//! Levels lowered and restored, and variables bound to variables.

use super::builder::Builder;
use crate::random::Random;

/// A term over some variables, for equations.
pub(super) fn equation_term(
    builder: &mut Builder,
    random: &mut Random,
    symbols: [usize; 3],
    variables: usize,
    depth: usize,
) -> usize {
    let [a, f, g] = symbols;
    match random.below(if depth == 0 { 8 } else { 12 }) {
        0..=6 => builder.variable(random.below(variables) as u8),
        7 => builder.apply(a, &[]),
        8..=10 => {
            let part = equation_term(builder, random, symbols, variables, depth - 1);
            builder.apply(f, &[part])
        }
        _ => {
            let left = equation_term(builder, random, symbols, variables, depth - 1);
            let right = equation_term(builder, random, symbols, variables, depth - 1);
            builder.apply(g, &[left, right])
        }
    }
}

/// Variables 0 to n under random quantifiers, around a goal.
pub(super) fn quantified(builder: &mut Builder, random: &mut Random, variables: usize, mut goal: usize) -> usize {
    for variable in (0..variables as u8).rev() {
        goal = if random.below(5) < 2 {
            builder.every(variable, goal)
        } else {
            builder.some(variable, goal)
        };
    }
    goal
}

pub fn equations(random: &mut Random) -> Vec<u8> {
    let mut builder = Builder::new(random.one_in(3));
    let symbols = [
        builder.function("a", 0),
        builder.function("f", 1),
        builder.function("g", 2),
    ];
    let e = builder.equality();
    let variables = 2 + random.below(5);
    let mut goal = None;
    for _ in 0..1 + random.below(4) {
        let left = equation_term(&mut builder, random, symbols, variables, 2);
        let right = equation_term(&mut builder, random, symbols, variables, 2);
        let equation = builder.apply(e, &[left, right]);
        goal = Some(match goal {
            None => equation,
            Some(goal) if random.one_in(5) => builder.or(goal, equation),
            Some(goal) => builder.and(goal, equation),
        });
    }
    let goal = quantified(&mut builder, random, variables, goal.expect("an equation"));
    builder.goal(goal)
}

pub fn restoring(random: &mut Random) -> Vec<u8> {
    let mut builder = Builder::new(random.one_in(3));
    let symbols = [
        builder.function("a", 0),
        builder.function("f", 1),
        builder.function("g", 2),
    ];
    let [a, f, g] = symbols;
    let stop = builder.predicate("stop", 0);
    let e = builder.equality();
    // Some 0, every 1, some 2: the lowering makes 2 unfit for 1, and it fails.
    let (x, y, z) = (builder.variable(0), builder.variable(1), builder.variable(2));
    let lowering = match random.below(4) {
        0 => z,
        1 => builder.apply(f, &[z]),
        2 => builder.apply(g, &[z, z]),
        _ => {
            let inner = builder.apply(f, &[z]);
            builder.apply(g, &[inner, x])
        }
    };
    let wanted = match random.below(3) {
        0 => builder.apply(e, &[y, z]),
        1 => builder.apply(e, &[z, y]),
        _ => {
            let y = builder.apply(f, &[y]);
            builder.apply(e, &[z, y])
        }
    };
    let lower = if random.one_in(2) {
        builder.apply(e, &[x, lowering])
    } else {
        builder.apply(e, &[lowering, x])
    };
    let inner = match random.below(4) {
        0 => {
            let stopped = builder.apply(stop, &[]);
            let failing = builder.and(lower, stopped);
            builder.or(failing, wanted)
        }
        1 => {
            // The first member's body lowers and fails, the second is a fact.
            let m = builder.predicate("m", 2);
            let (v, w) = (builder.variable(3), builder.variable(4));
            let w_in = if random.one_in(2) { w } else { builder.apply(f, &[w]) };
            let equal = builder.apply(e, &[v, w_in]);
            let stopped = builder.apply(stop, &[]);
            let body = builder.and(equal, stopped);
            let head = builder.apply(m, &[v, w]);
            let rule = builder.implies(body, head);
            for part in [rule, head] {
                let inner = builder.every(4, part);
                let clause = builder.every(3, inner);
                builder.clause(clause);
            }
            let call = builder.apply(m, &[x, z]);
            builder.and(call, wanted)
        }
        2 => {
            // The first member's head lowers in its second pair and fails in its third.
            let m = builder.predicate("m", 3);
            let b = builder.function("b", 0);
            let (go, halt) = (builder.apply(a, &[]), builder.apply(b, &[]));
            let (v, w) = (builder.variable(3), builder.variable(4));
            let first = builder.apply(m, &[v, v, halt]);
            let first = builder.every(3, first);
            builder.clause(first);
            let second = builder.apply(m, &[v, w, go]);
            let second = builder.every(4, second);
            let second = builder.every(3, second);
            builder.clause(second);
            let call = if lowering == z {
                let deep = builder.apply(f, &[z]);
                builder.apply(m, &[x, deep, go])
            } else {
                builder.apply(m, &[x, lowering, go])
            };
            builder.and(call, wanted)
        }
        // Really lowered: no restoring, so the goal fails.
        _ => builder.and(lower, wanted),
    };
    let mut goal = builder.some(2, inner);
    for _ in 0..random.below(2) {
        goal = builder.some(5, goal);
    }
    goal = builder.every(1, goal);
    for _ in 0..random.below(2) {
        goal = builder.every(6, goal);
    }
    goal = builder.some(0, goal);
    builder.goal(goal)
}

pub fn chains(random: &mut Random) -> Vec<u8> {
    let mut builder = Builder::new(true);
    let symbols = [
        builder.function("a", 0),
        builder.function("f", 1),
        builder.function("g", 2),
    ];
    let e = builder.equality();
    // A loop whose variables are bound one to the next, around an assumption that keeps the first.
    let loops = builder.predicate("loop", 2);
    let kept = builder.predicate("kept", 1);
    let (n, x) = (builder.variable(0), builder.variable(1));
    let next = builder.apply(symbols[1], &[n]);
    let head = builder.apply(loops, &[next, x]);
    let call = builder.apply(loops, &[n, x]);
    let mut body = call;
    if random.one_in(2) {
        let held = builder.apply(kept, &[x]);
        body = builder.and(held, call);
    }
    let rule = builder.implies(body, head);
    let rule = builder.every(1, rule);
    let rule = builder.every(0, rule);
    builder.clause(rule);
    let end = builder.apply(symbols[0], &[]);
    let last = builder.apply(loops, &[end, x]);
    let last = builder.every(1, last);
    builder.clause(last);
    let mut count = end;
    let most = if random.one_in(4) { 60 } else { 8 };
    for _ in 0..random.below(most) {
        count = builder.apply(symbols[1], &[count]);
    }
    let call = builder.apply(loops, &[count, x]);
    let held = builder.apply(kept, &[x]);
    let mut goal = builder.implies(held, call);
    for _ in 0..random.below(4) {
        let (left, right) = (
            builder.variable(random.below(4) as u8),
            builder.variable(random.below(4) as u8),
        );
        let equation = builder.apply(e, &[left, right]);
        goal = if random.one_in(2) {
            builder.and(equation, goal)
        } else {
            builder.and(goal, equation)
        };
    }
    if random.one_in(2) {
        let end = builder.apply(e, &[x, end]);
        goal = builder.and(goal, end);
    }
    let free = random.below(5);
    for variable in (free..4).rev() {
        goal = if random.one_in(5) {
            builder.every(variable as u8, goal)
        } else {
            builder.some(variable as u8, goal)
        };
    }
    builder.goal(goal)
}
