//! Random terms, goals and clauses over a few symbols.

use super::builder::Builder;
use crate::random::Random;

/// The symbols of a random sheet, with their arities, and the variables that quantifiers may use.
pub struct Language {
    pub functions: Vec<(usize, usize)>,
    pub predicates: Vec<(usize, usize)>,
    pub variables: u8,
}

impl Language {
    pub fn new(builder: &mut Builder, random: &mut Random, variables: u8) -> Language {
        let mut functions = Vec::new();
        for (name, arity) in [("a", 0), ("b", 0), ("f", 1), ("g", 2)] {
            if name == "a" || !random.one_in(3) {
                functions.push((builder.function(name, arity), arity));
            }
        }
        let mut predicates = Vec::new();
        for (name, arity) in [("p", 1), ("q", 2), ("r", 0), ("s", 1), ("t", 3)] {
            if name == "p" || random.one_in(2) {
                predicates.push((builder.predicate(name, arity), arity));
            }
        }
        Language {
            functions,
            predicates,
            variables,
        }
    }

    pub fn term(&self, builder: &mut Builder, random: &mut Random, scope: &[u8], depth: usize) -> usize {
        if !scope.is_empty() && (depth == 0 || random.below(5) < 3) {
            return builder.variable(*random.pick(scope));
        }
        let &(symbol, arity) = random.pick(&self.functions);
        if depth == 0 && arity > 0 {
            return builder.apply(self.functions[0].0, &[]);
        }
        let arguments: Vec<usize> = (0..arity)
            .map(|_| self.term(builder, random, scope, depth - 1))
            .collect();
        builder.apply(symbol, &arguments)
    }

    pub fn atom(&self, builder: &mut Builder, random: &mut Random, scope: &[u8]) -> usize {
        let &(symbol, arity) = random.pick(&self.predicates);
        let arguments: Vec<usize> = (0..arity).map(|_| self.term(builder, random, scope, 2)).collect();
        builder.apply(symbol, &arguments)
    }

    pub fn goal(&self, builder: &mut Builder, random: &mut Random, scope: &[u8], depth: usize) -> usize {
        if depth == 0 {
            return self.atom(builder, random, scope);
        }
        match random.below(16) {
            0..=2 => self.atom(builder, random, scope),
            3 => builder.truth(),
            4..=6 => {
                let left = self.goal(builder, random, scope, depth - 1);
                let right = self.goal(builder, random, scope, depth - 1);
                builder.and(left, right)
            }
            7 | 8 => {
                let left = self.goal(builder, random, scope, depth - 1);
                let right = self.goal(builder, random, scope, depth - 1);
                builder.or(left, right)
            }
            9..=11 => {
                let left = self.clause(builder, random, scope, depth - 1);
                let right = self.goal(builder, random, scope, depth - 1);
                builder.implies(left, right)
            }
            quantifier => {
                let (variable, inner) = self.bound(random, scope);
                let part = self.goal(builder, random, &inner, depth - 1);
                if quantifier < 14 {
                    builder.some(variable, part)
                } else {
                    builder.every(variable, part)
                }
            }
        }
    }

    pub fn clause(&self, builder: &mut Builder, random: &mut Random, scope: &[u8], depth: usize) -> usize {
        if depth == 0 {
            return self.atom(builder, random, scope);
        }
        match random.below(8) {
            0 => self.atom(builder, random, scope),
            1..=3 => {
                let body = self.goal(builder, random, scope, depth - 1);
                let head = self.atom(builder, random, scope);
                builder.implies(body, head)
            }
            4 => {
                let left = self.clause(builder, random, scope, depth - 1);
                let right = self.clause(builder, random, scope, depth - 1);
                builder.and(left, right)
            }
            _ => {
                let (variable, inner) = self.bound(random, scope);
                let part = self.clause(builder, random, &inner, depth - 1);
                builder.every(variable, part)
            }
        }
    }

    pub fn bound(&self, random: &mut Random, scope: &[u8]) -> (u8, Vec<u8>) {
        let variable = random.below(usize::from(self.variables)) as u8;
        let mut inner = scope.to_vec();
        inner.push(variable);
        (variable, inner)
    }
}
