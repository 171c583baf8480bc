//! The eight sheets on which the search is set beside ELPI and SWI-Prolog.

use calls::generate::builder::Builder;

use crate::sheets::{self, add_clause, numeral, Named};

pub fn sheets() -> Vec<Named> {
    vec![
        ("list reversal, 30 elements", sheets::list_reversal(30)),
        ("Ackermann 3, 2", ackermann(3, 2)),
        ("Peano product, 10 times 20", sheets::multiplication(10, 20)),
        ("paths in a graph, 7 layers", sheets::graph_search(7)),
        ("map colouring, 8 regions", map_colouring()),
        ("a house of 60 rules, 12 cues", sheets::house()),
        ("nested suppositions, 58 deep", sheets::nested_suppositions(58)),
        ("overload, 5 circuits", overload(5)),
    ]
}

/// ack(z, n, s(n)); ack(s(m), z, r) if ack(m, s(z), r); ack(s(m), s(n), r) if ack(s(m), n, k) and ack(m, k, r).
fn ackermann(first: usize, second: usize) -> Vec<u8> {
    let mut b = Builder::new(true);
    let (zero, s) = (b.function("z", 0), b.function("s", 1));
    let ack = b.predicate("ack", 3);
    let [m, n, r, k] = [0, 1, 2, 3].map(|variable| b.variable(variable));
    let nothing = b.apply(zero, &[]);
    let [one, sm, sn] = [nothing, m, n].map(|term| b.apply(s, &[term]));
    let fact = b.apply(ack, &[nothing, n, sn]);
    add_clause(&mut b, &[1], fact);
    let (body, head) = (b.apply(ack, &[m, one, r]), b.apply(ack, &[sm, nothing, r]));
    let rule = b.implies(body, head);
    add_clause(&mut b, &[0, 2], rule);
    let (inner, outer) = (b.apply(ack, &[sm, n, k]), b.apply(ack, &[m, k, r]));
    let (body, head) = (b.and(inner, outer), b.apply(ack, &[sm, sn, r]));
    let rule = b.implies(body, head);
    add_clause(&mut b, &[0, 1, 2, 3], rule);
    let [first, second] = [first, second].map(|value| numeral(&mut b, zero, s, value));
    let goal = b.apply(ack, &[first, second, r]);
    let goal = b.some(2, goal);
    b.goal(goal)
}

/// Eight regions and three colours: neighbours differ. The regions 1 to 7 are a ring around region 0, so that three do not suffice.
fn map_colouring() -> Vec<u8> {
    let mut b = Builder::new(true);
    let differ = b.predicate("differ", 2);
    let colours = ["red", "green", "blue"].map(|name| {
        let colour = b.function(name, 0);
        b.apply(colour, &[])
    });
    for one in 0..3 {
        for other in (0..3).filter(|&other| other != one) {
            let fact = b.apply(differ, &[colours[one], colours[other]]);
            b.clause(fact);
        }
    }
    let regions = [0, 1, 2, 3, 4, 5, 6, 7].map(|variable| b.variable(variable));
    let ring = (1..8).map(|region| (region, region % 7 + 1));
    let borders = ring.chain((1..8).map(|region| (region, 0)));
    let pairs: Vec<usize> = borders
        .map(|(one, other)| b.apply(differ, &[regions[one], regions[other]]))
        .collect();
    let all = pairs
        .into_iter()
        .reduce(|goal, pair| b.and(goal, pair))
        .expect("some borders");
    let goal = (0..8).rev().fold(all, |goal, variable| b.some(variable, goal));
    b.goal(goal)
}

/// Each of so many circuits is on or off, which is supposed; the question is whether the loads of those that are on can come to more
/// than all of them together draw: no, once every choice has been tried.
fn overload(circuits: usize) -> Vec<u8> {
    let mut b = Builder::new(true);
    let (zero, s) = (b.function("z", 0), b.function("s", 1));
    let [choose, on, off] = ["choose", "on", "off"].map(|name| b.predicate(name, 1));
    let (total, plus, load) = (b.predicate("total", 2), b.predicate("plus", 3), b.predicate("load", 2));
    let [n, t, l, k] = [0, 1, 2, 3].map(|variable| b.variable(variable));
    let nothing = b.apply(zero, &[]);
    let [next, more, after] = [n, t, l].map(|term| b.apply(s, &[term]));
    // choose(s(n)) if (on(n) implies choose(n)) or (off(n) implies choose(n))
    let [is_on, is_off, others] = [on, off, choose].map(|predicate| b.apply(predicate, &[n]));
    let (with, without) = (b.implies(is_on, others), b.implies(is_off, others));
    let (body, head) = (b.or(with, without), b.apply(choose, &[next]));
    let rule = b.implies(body, head);
    add_clause(&mut b, &[0], rule);
    // total(z, z); total(s(n), t) if off(n) and total(n, t), or on(n), load(n, l), total(n, k) and plus(l, k, t)
    let fact = b.apply(total, &[nothing, nothing]);
    b.clause(fact);
    let head = b.apply(total, &[next, t]);
    let rest = b.apply(total, &[n, t]);
    let body = b.and(is_off, rest);
    let rule = b.implies(body, head);
    add_clause(&mut b, &[0, 1], rule);
    let parts = [(load, vec![n, l]), (total, vec![n, k]), (plus, vec![l, k, t])];
    let body = parts.into_iter().fold(is_on, |goal, (predicate, arguments)| {
        let part = b.apply(predicate, &arguments);
        b.and(goal, part)
    });
    let rule = b.implies(body, head);
    add_clause(&mut b, &[0, 1, 2, 3], rule);
    // plus(z, k, k); plus(s(t), k, s(l)) if plus(t, k, l)
    let fact = b.apply(plus, &[nothing, k, k]);
    add_clause(&mut b, &[3], fact);
    let (body, head) = (b.apply(plus, &[t, k, l]), b.apply(plus, &[more, k, after]));
    let rule = b.implies(body, head);
    add_clause(&mut b, &[1, 2, 3], rule);
    // Circuit n draws 1 or 2; choose(z) if total(all, more than all draw).
    let numbers: Vec<usize> = (0..=circuits).map(|value| numeral(&mut b, zero, s, value)).collect();
    for circuit in 0..circuits {
        let fact = b.apply(load, &[numbers[circuit], numbers[1 + circuit % 2]]);
        b.clause(fact);
    }
    let limit = numeral(&mut b, zero, s, circuits + circuits / 2 + 1);
    let (body, head) = (b.apply(total, &[numbers[circuits], limit]), b.apply(choose, &[nothing]));
    let rule = b.implies(body, head);
    b.clause(rule);
    let goal = b.apply(choose, &[numbers[circuits]]);
    b.goal(goal)
}
