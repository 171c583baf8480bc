//! Any goals and clauses: formulas, shared graphs of nodes, propositions, scopes of assumptions.

use super::builder::Builder;
use super::language::Language;
use crate::random::Random;

pub fn formulas(random: &mut Random, variables: u8, sharing: bool) -> Vec<u8> {
    let mut builder = Builder::new(sharing);
    let language = Language::new(&mut builder, random, variables);
    for _ in 0..random.below(5) {
        let depth = random.below(4);
        // Now and then a variable is left free: refusal 10.
        let outer: Vec<u8> = (0..random.below(3))
            .map(|_| random.below(usize::from(variables)) as u8)
            .collect();
        let mut clause = language.clause(&mut builder, random, &outer, depth);
        let forgotten = random.one_in(40);
        for &variable in outer.iter().skip(usize::from(forgotten)) {
            clause = builder.every(variable, clause);
        }
        builder.clause(clause);
    }
    let free: Vec<u8> = (0..random.below(3))
        .map(|_| random.below(usize::from(variables)) as u8)
        .collect();
    let depth = 1 + random.below(5);
    let goal = language.goal(&mut builder, random, &free, depth);
    builder.goal(goal)
}

pub fn graphs(random: &mut Random) -> Vec<u8> {
    let mut builder = Builder::new(false);
    let a = builder.function("a", 0);
    let g = builder.function("g", 2);
    let p = builder.predicate("p", 1);
    let q = builder.predicate("q", 0);
    let mut terms = vec![builder.apply(a, &[])];
    terms.push(builder.variable(0));
    let mut goals = vec![builder.truth()];
    let mut clauses = Vec::new();
    let mut atoms = vec![builder.apply(q, &[])];
    goals.push(atoms[0]);
    clauses.push(atoms[0]);
    let count = if random.one_in(10) { 900 } else { 8 + random.below(40) };
    for _ in 0..count {
        let variable = random.below(3) as u8;
        match random.below(20) {
            0 | 1 => terms.push(builder.variable(variable)),
            // Sizes add up fast; the few that pass 1,024 are refusal 9.
            2 if terms.len() < 12 => {
                let arguments = [*random.pick(&terms), *random.pick(&terms)];
                terms.push(builder.apply(g, &arguments));
            }
            3..=5 => {
                let atom = builder.apply(p, &[*random.pick(&terms)]);
                atoms.push(atom);
                goals.push(atom);
                clauses.push(atom);
            }
            6 => clauses.push(builder.implies(*random.pick(&goals), *random.pick(&atoms))),
            7 if clauses.len() < 8 => clauses.push(builder.and(*random.pick(&clauses), *random.pick(&clauses))),
            8 => clauses.push(builder.every(variable, *random.pick(&clauses))),
            9..=11 => {
                let part = recent(random, &goals);
                goals.push(builder.every(variable, part));
            }
            12 | 13 => {
                let part = recent(random, &goals);
                goals.push(builder.some(variable, part));
            }
            14 => {
                let part = recent(random, &goals);
                goals.push(builder.or(part, *random.pick(&goals)));
            }
            15 | 16 => {
                let part = recent(random, &goals);
                goals.push(builder.implies(*random.pick(&clauses), part));
            }
            _ => {
                let (left, right) = (recent(random, &goals), recent(random, &goals));
                goals.push(builder.and(left, right));
            }
        }
    }
    for _ in 0..random.below(4) {
        let mut clause = *random.pick(&clauses);
        for variable in 0..3 {
            clause = builder.every(variable, clause);
        }
        builder.clause(clause);
    }
    let goal = recent(random, &goals);
    builder.goal(goal)
}

/// One of the last few.
fn recent(random: &mut Random, nodes: &[usize]) -> usize {
    let from = nodes.len().saturating_sub(4);
    *random.pick(&nodes[from..])
}

pub fn propositions(random: &mut Random) -> Vec<u8> {
    let mut builder = Builder::new(random.one_in(2));
    let mut predicates = Vec::new();
    for name in ["a", "b", "c", "d"] {
        predicates.push((builder.predicate(name, 0), 0));
    }
    let language = Language {
        functions: Vec::new(),
        predicates,
        variables: 1,
    };
    for _ in 0..random.below(6) {
        let depth = random.below(4);
        let clause = language.clause(&mut builder, random, &[], depth);
        builder.clause(clause);
    }
    let depth = 1 + random.below(5);
    let goal = language.goal(&mut builder, random, &[], depth);
    builder.goal(goal)
}

pub fn scopes(random: &mut Random) -> Vec<u8> {
    let mut builder = Builder::new(false);
    let p = builder.predicate("p", 1);
    let q = builder.predicate("q", 1);
    let names = ["a", "b", "c"];
    let constants: Vec<usize> = names.iter().map(|name| builder.function(name, 0)).collect();
    let fact = |builder: &mut Builder, random: &mut Random| {
        let argument = if random.one_in(3) {
            builder.variable(0)
        } else {
            builder.apply(*random.pick(&constants), &[])
        };
        builder.apply(*random.pick(&[p, p, q]), &[argument])
    };
    // p(x) from q(x): what is assumed for one side must not carry the other.
    if random.one_in(2) {
        let x = builder.variable(0);
        let (body, head) = (builder.apply(q, &[x]), builder.apply(p, &[x]));
        let rule = builder.implies(body, head);
        let rule = builder.every(0, rule);
        builder.clause(rule);
    }
    let mut goal = fact(&mut builder, random);
    for _ in 0..2 + random.below(8) {
        let other = fact(&mut builder, random);
        goal = match random.below(7) {
            0 | 1 => builder.implies(other, goal),
            2 => {
                let more = fact(&mut builder, random);
                let both = builder.and(other, more);
                builder.implies(both, goal)
            }
            3 => {
                let assumed = builder.implies(other, other);
                builder.and(assumed, goal)
            }
            4 => builder.and(goal, other),
            5 => builder.or(goal, other),
            _ => builder.some(0, goal),
        };
    }
    builder.goal(goal)
}
