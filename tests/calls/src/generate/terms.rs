//! Terms that unfold, deep and wide terms, recursion, programs that grow.

use super::builder::Builder;
use crate::random::Random;

pub fn unfolding(random: &mut Random) -> Vec<u8> {
    let mut builder = Builder::new(true);
    let a = builder.function("a", 0);
    let g = builder.function("g", 2);
    let e = builder.equality();
    // Double(n, x): x is a tree of 2^n leaves.
    let s = builder.function("s", 1);
    let double = builder.predicate("double", 2);
    let (n, x, t) = (builder.variable(0), builder.variable(1), builder.variable(2));
    let zero = builder.apply(a, &[]);
    let base = builder.apply(double, &[zero, t]);
    let base = builder.every(2, base);
    builder.clause(base);
    let (next, pair) = (builder.apply(s, &[n]), builder.apply(g, &[x, x]));
    let (body, head) = (builder.apply(double, &[n, x]), builder.apply(double, &[next, pair]));
    let rule = builder.implies(body, head);
    let rule = builder.every(1, rule);
    let rule = builder.every(0, rule);
    builder.clause(rule);
    let mut count = zero;
    let most = if random.one_in(2) { 30 } else { 6 };
    for _ in 0..random.below(most) {
        count = builder.apply(s, &[count]);
    }
    let first = builder.apply(double, &[count, x]);
    let goal = match random.below(4) {
        0 => first,
        1 => builder.some(1, first),
        2 => {
            // Two trees of the same size compared node by node.
            let second = builder.apply(double, &[count, t]);
            let equal = builder.apply(e, &[x, t]);
            let both = builder.and(first, second);
            let all = builder.and(both, equal);
            let all = builder.some(1, all);
            builder.some(2, all)
        }
        _ => {
            // The tree under a made constant: its leaf is lowered or not allowed.
            let y = builder.variable(3);
            let third = builder.apply(e, &[x, y]);
            let both = builder.and(first, third);
            let inner = builder.some(1, both);
            let inner = if random.one_in(2) {
                builder.every(4, inner)
            } else {
                inner
            };
            builder.some(3, inner)
        }
    };
    builder.goal(goal)
}

pub fn terms(random: &mut Random) -> Vec<u8> {
    let mut builder = Builder::new(false);
    let a = builder.function("a", 0);
    let f = builder.function("f", 1);
    let h = builder.function("h", 4);
    let g = builder.function("g", 2);
    let p = builder.predicate("p", 4);
    let leaf = if random.one_in(2) {
        builder.variable(0)
    } else {
        builder.apply(a, &[])
    };
    let mut term = leaf;
    let mut size = 1;
    // Mostly near the limit of 1,024.
    let aim = if random.one_in(3) { 1_020 } else { 2 + random.below(600) };
    while size < aim && builder.nodes < 900 {
        if size <= (aim - 1) / 4 && random.one_in(2) {
            term = builder.apply(h, &[term, term, term, term]);
            size = 4 * size + 1;
        } else if size <= (aim - 1) / 2 && random.one_in(2) {
            term = builder.apply(g, &[term, term]);
            size = 2 * size + 1;
        } else if aim - size > 100 && size > 3 {
            let other = builder.apply(f, &[leaf]);
            term = builder.apply(g, &[other, term]);
            size += 3;
        } else {
            term = builder.apply(f, &[term]);
            size += 1;
        }
    }
    let (v, w) = (builder.variable(1), builder.variable(2));
    let fact = match random.below(3) {
        0 => builder.apply(p, &[v, v, w, w]),
        1 => builder.apply(p, &[v, w, v, term]),
        _ => builder.apply(p, &[v, w, w, v]),
    };
    let mut clause = fact;
    for variable in 0..3 {
        clause = builder.every(variable, clause);
    }
    builder.clause(clause);
    let other = if random.one_in(2) {
        term
    } else {
        builder.apply(f, &[leaf])
    };
    let x = builder.variable(3);
    let goal = match random.below(3) {
        0 => builder.apply(p, &[term, x, x, term]),
        1 => builder.apply(p, &[x, term, other, term]),
        _ => builder.apply(p, &[term, term, term, other]),
    };
    let goal = if random.one_in(2) { builder.every(0, goal) } else { goal };
    let goal = if random.one_in(2) { builder.some(3, goal) } else { goal };
    builder.goal(goal)
}

pub fn recursion(random: &mut Random) -> Vec<u8> {
    let mut builder = Builder::new(true);
    let zero = builder.function("z", 0);
    let s = builder.function("s", 1);
    let plus = builder.predicate("plus", 3);
    let (x, y, w) = (builder.variable(0), builder.variable(1), builder.variable(2));
    let nothing = builder.apply(zero, &[]);
    let base = builder.apply(plus, &[nothing, y, y]);
    let base = builder.every(1, base);
    let (sx, sw) = (builder.apply(s, &[x]), builder.apply(s, &[w]));
    let (body, head) = (builder.apply(plus, &[x, y, w]), builder.apply(plus, &[sx, y, sw]));
    let rule = builder.implies(body, head);
    let mut step = rule;
    for variable in [2, 1, 0] {
        step = builder.every(variable, step);
    }
    let order = if random.one_in(4) { [step, base] } else { [base, step] };
    for clause in order {
        builder.clause(clause);
    }
    let number = |builder: &mut Builder, value: usize| (0..value).fold(nothing, |term, _| builder.apply(s, &[term]));
    let mut goal = None;
    for _ in 0..1 + random.below(3) {
        let arguments: Vec<usize> = (0..3)
            .map(|_| {
                if random.one_in(2) {
                    builder.variable(3 + random.below(3) as u8)
                } else {
                    let value = random.below(7);
                    number(&mut builder, value)
                }
            })
            .collect();
        let call = builder.apply(plus, &arguments);
        goal = Some(match goal {
            None => call,
            Some(goal) => builder.and(goal, call),
        });
    }
    let goal = goal.expect("a call");
    let goal = if random.one_in(3) { builder.some(3, goal) } else { goal };
    builder.goal(goal)
}

pub fn growth(random: &mut Random) -> Vec<u8> {
    let mut builder = Builder::new(true);
    let a = builder.function("a", 0);
    let f = builder.function("f", 1);
    let p = builder.predicate("p", 1);
    let q = builder.predicate("q", 1);
    let x = builder.variable(0);
    let fx = builder.apply(f, &[x]);
    let (px, qx, qfx, pfx) = (
        builder.apply(p, &[x]),
        builder.apply(q, &[x]),
        builder.apply(q, &[fx]),
        builder.apply(p, &[fx]),
    );
    // p(x) from (assumption implies goal), under some quantifier.
    let assumption = match random.below(4) {
        0 => qx,
        1 => builder.and(qx, qfx),
        2 => builder.every(0, qfx),
        _ => builder.implies(pfx, qx),
    };
    let then = *random.pick(&[px, qx, pfx, qfx]);
    let inner = builder.implies(assumption, then);
    let body = match random.below(4) {
        0 => builder.every(1, inner),
        1 => builder.some(1, inner),
        2 => builder.every(0, inner),
        _ => inner,
    };
    let rule = builder.implies(body, px);
    let clause = builder.every(0, rule);
    let fact = builder.apply(a, &[]);
    let fact = if random.one_in(2) {
        builder.apply(q, &[fact])
    } else {
        builder.every(0, qfx)
    };
    let order = if random.one_in(2) {
        [clause, fact]
    } else {
        [fact, clause]
    };
    for clause in order {
        builder.clause(clause);
    }
    let goal = match random.below(4) {
        0 => px,
        1 => builder.every(0, px),
        2 => builder.some(0, pfx),
        _ => builder.and(px, qx),
    };
    builder.goal(goal)
}
