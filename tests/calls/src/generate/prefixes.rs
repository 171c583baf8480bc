//! Clauses under many quantifiers: idle ones, ones that hide others, and "and" below them, so that each member has its
//! own prefix; with eight variables, prefixes as long as they get and eight free variables.

use super::builder::Builder;
use crate::random::Random;

/// What atoms are made of.
struct Parts {
    variables: usize,
    constant: usize,
    pair: usize,
    predicates: [(usize, usize); 3],
}

pub fn prefixes(random: &mut Random) -> Vec<u8> {
    let mut builder = Builder::new(random.one_in(3));
    let parts = Parts {
        variables: *random.pick(&[2, 4, 4, 8]),
        constant: builder.function("a", 0),
        pair: builder.function("g", 2),
        predicates: [("p", 4), ("q", 2), ("r", 1)].map(|(name, arity)| (builder.predicate(name, arity), arity)),
    };
    for _ in 0..1 + random.below(3) {
        let depth = random.below(4);
        let mut clause = parts.clause(&mut builder, random, depth);
        // In any order, and idle where the clause has no such variable left.
        let mut left: Vec<u8> = (0..parts.variables as u8).collect();
        while !left.is_empty() {
            let variable = left.remove(random.below(left.len()));
            clause = builder.every(variable, clause);
        }
        builder.clause(clause);
    }
    let mut goal = parts.atom(&mut builder, random);
    for _ in 0..random.below(4) {
        let other = parts.atom(&mut builder, random);
        goal = match random.below(4) {
            0 => builder.and(goal, other),
            1 => builder.or(goal, other),
            _ => {
                // Assumed with variables that stand free, some of them hidden inside.
                let depth = random.below(3);
                let assumed = parts.clause(&mut builder, random, depth);
                builder.implies(assumed, goal)
            }
        };
    }
    for _ in 0..random.below(5) {
        let variable = parts.variable(random);
        goal = if random.one_in(3) {
            builder.every(variable, goal)
        } else {
            builder.some(variable, goal)
        };
    }
    builder.goal(goal)
}

impl Parts {
    fn variable(&self, random: &mut Random) -> u8 {
        random.below(self.variables) as u8
    }

    fn term(&self, builder: &mut Builder, random: &mut Random) -> usize {
        if random.one_in(10) {
            return builder.apply(self.constant, &[]);
        }
        let variable = builder.variable(self.variable(random));
        if random.one_in(5) {
            let other = builder.variable(self.variable(random));
            builder.apply(self.pair, &[variable, other])
        } else {
            variable
        }
    }

    fn atom(&self, builder: &mut Builder, random: &mut Random) -> usize {
        let &(predicate, arity) = random.pick(&self.predicates);
        let arguments: Vec<usize> = (0..arity).map(|_| self.term(builder, random)).collect();
        builder.apply(predicate, &arguments)
    }

    fn clause(&self, builder: &mut Builder, random: &mut Random, depth: usize) -> usize {
        if depth == 0 {
            return self.member(builder, random);
        }
        let part = self.clause(builder, random, depth - 1);
        if random.one_in(3) {
            let right = self.clause(builder, random, depth - 1);
            return builder.and(part, right);
        }
        builder.every(self.variable(random), part)
    }

    /// An atom, or one with a body, whose variables may stand in the body alone.
    fn member(&self, builder: &mut Builder, random: &mut Random) -> usize {
        let head = self.atom(builder, random);
        if random.one_in(3) {
            return head;
        }
        let body = self.atom(builder, random);
        let body = if random.one_in(3) {
            builder.some(self.variable(random), body)
        } else {
            body
        };
        builder.implies(body, head)
    }
}
