//! Sheets with much to search, for figures and tests.

use calls::generate::builder::Builder;

/// A name for the figures, and the sheet.
pub type Named = (&'static str, Vec<u8>);

/// Searches of some ten thousand units that end by themselves.
pub fn searches() -> Vec<Named> {
    vec![
        ("list reversal, 24 elements", list_reversal(24)),
        ("Peano arithmetic, 10 times 10", multiplication(10, 10)),
        ("graph search, 7 layers, no path", graph_search(7)),
        ("nested suppositions, 58 deep", nested_suppositions(58)),
        ("a house of 60 rules, 12 cues", house()),
    ]
}

/// Searches of which several fit in one run (W-202).
pub fn short_searches() -> Vec<Named> {
    vec![
        ("list reversal, 4 elements", list_reversal(4)),
        ("list reversal, 8 elements", list_reversal(8)),
        ("Peano arithmetic, 2 times 3", multiplication(2, 3)),
        ("nested suppositions, 8 deep", nested_suppositions(8)),
        ("nested suppositions, 20 deep", nested_suppositions(20)),
    ]
}

/// The goal of a sheet or itself, and so on: 2^doublings ways for each way of the sheet.
pub fn doubled(sheet: &[u8], doublings: u32) -> Vec<u8> {
    let (mut sheet, mut goal, nodes) = parted(sheet);
    for node in nodes..nodes + doublings {
        sheet.extend(format!("|\t{goal}\t{goal}\n").bytes());
        goal = node;
    }
    sheet.extend(format!("Q\t{goal}\n").bytes());
    sheet
}

/// True, or the goal of a sheet: a short proof before those of the sheet.
pub fn true_or(sheet: &[u8]) -> Vec<u8> {
    let (mut sheet, goal, nodes) = parted(sheet);
    sheet.extend(format!("Y\n|\t{nodes}\t{goal}\nQ\t{}\n", nodes + 1).bytes());
    sheet
}

/// A right sheet without its Q line, the goal's node, and how many nodes there are.
fn parted(sheet: &[u8]) -> (Vec<u8>, u32, u32) {
    let lines: Vec<&[u8]> = sheet.split_inclusive(|&byte| byte == b'\n').collect();
    let (last, rest) = lines.split_last().expect("a Q line");
    let nodes = rest.iter().filter(|line| b"VNAY&|>EU".contains(&line[0])).count();
    let goal = std::str::from_utf8(&last[2..last.len() - 1]).expect("a number");
    (rest.concat(), goal.parse().expect("a number"), nodes as u32)
}

/// 64 facts of one predicate, and the goal that any of them closes.
pub fn many_facts() -> Vec<u8> {
    let mut b = Builder::new(true);
    let p = b.predicate("p", 1);
    for number in 0..64 {
        let name = b.function(&format!("fact{number}"), 0);
        let constant = b.apply(name, &[]);
        let fact = b.apply(p, &[constant]);
        b.clause(fact);
    }
    let x = b.variable(0);
    let goal = b.apply(p, &[x]);
    b.goal(goal)
}

/// join(n, y, y); join(c(h, x), y, c(h, z)) if join(x, y, z); the goal join(x, y, a list of so many elements).
pub fn list_split(length: usize) -> Vec<u8> {
    let mut b = Builder::new(true);
    let (nil, cons, element) = (b.function("n", 0), b.function("c", 2), b.function("e", 0));
    let join = b.predicate("join", 3);
    let [x, y, z, h] = [0, 1, 2, 3].map(|variable| b.variable(variable));
    let nothing = b.apply(nil, &[]);
    let fact = b.apply(join, &[nothing, y, y]);
    add_clause(&mut b, &[1], fact);
    let (longer, joined) = (b.apply(cons, &[h, x]), b.apply(cons, &[h, z]));
    let (body, head) = (b.apply(join, &[x, y, z]), b.apply(join, &[longer, y, joined]));
    let rule = b.implies(body, head);
    add_clause(&mut b, &[0, 1, 2, 3], rule);
    let element = b.apply(element, &[]);
    let list = (0..length).fold(nothing, |list, _| b.apply(cons, &[element, list]));
    let goal = b.apply(join, &[x, y, list]);
    b.goal(goal)
}

/// A sheet from its lines, parted by semicolons, their fields by spaces.
fn lines(short: &str) -> Vec<u8> {
    let lines: Vec<String> = short
        .split(';')
        .map(|line| line.trim().replace(' ', "\t") + "\n")
        .collect();
    lines.concat().into_bytes()
}

/// The searches of 50,000 units that take the longest of those that are known, and two that did before W-206, when looking through
/// bindings took no unit.
pub fn worst() -> Vec<Named> {
    vec![
        (
            "a chain of variables, 8,192 where bindings took no unit",
            variable_chain(2_048),
        ),
        (
            "a chain of variables, 17,200 where bindings took no unit",
            variable_chain(4_300),
        ),
        ("128 clauses of 950 quantifiers, one name", idle_quantifiers(1)),
        ("128 clauses of 950 quantifiers, eight names", idle_quantifiers(8)),
        ("members and quantifiers in turn, 62 deep", members_in_turn(62)),
        ("a text of terms at the ends of chains", linked_chain(11)),
    ]
}

/// q(a, b, c, d) for all terms, and the goal q(x, x, x, x) so many times: each pair of arguments goes from x to the end of its
/// chain, and makes it longer by one. Then the goal again, q(x, x, x, x) being assumed: each pair goes there on both sides.
fn variable_chain(times: u32) -> Vec<u8> {
    let mut b = Builder::new(true);
    let q = b.predicate("q", 4);
    let variables = [1, 2, 3, 4].map(|variable| b.variable(variable));
    let fact = b.apply(q, &variables);
    add_clause(&mut b, &[1, 2, 3, 4], fact);
    let x = b.variable(0);
    let atom = b.apply(q, &[x; 4]);
    let mut often = vec![atom];
    for doubling in 0..12 {
        often.push(b.and(often[doubling], often[doubling]));
    }
    let bits = (0..often.len()).filter(|bit| times >> bit & 1 == 1);
    let first = bits.map(|bit| often[bit]).reduce(|goal, more| b.and(goal, more));
    let again = b.implies(atom, often[12]);
    let goal = b.and(first.expect("at least once"), again);
    let goal = b.some(0, goal);
    b.goal(goal)
}

/// d0(w, w) for every term; d1(x, y) if d0(x, z) and d0(z, y); d2 by d1 likewise, and so on; the goal is the last. The variables
/// become one chain of 2^levels, each bound to the next by an act that follows at most one binding; writing follows it from each of them.
fn linked_chain(levels: usize) -> Vec<u8> {
    let mut b = Builder::new(true);
    let [x, y, z, w] = [0, 1, 2, 3].map(|variable| b.variable(variable));
    let mut link = b.predicate("d0", 2);
    let fact = b.apply(link, &[w, w]);
    add_clause(&mut b, &[3], fact);
    for level in 1..=levels {
        let (first, second) = (b.apply(link, &[x, z]), b.apply(link, &[z, y]));
        let both = b.and(first, second);
        link = b.predicate(&format!("d{level}"), 2);
        let head = b.apply(link, &[x, y]);
        let rule = b.implies(both, head);
        add_clause(&mut b, &[0, 1, 2], rule);
    }
    let goal = b.apply(link, &[x, y]);
    b.goal(goal)
}

/// 127 clauses for p, each behind 950 quantifiers that bind so many names in turn and stand free in nothing; and q if q, the goal.
fn idle_quantifiers(names: u8) -> Vec<u8> {
    let mut b = Builder::new(true);
    let (p, q) = (b.predicate("p", 0), b.predicate("q", 0));
    let mut clause = b.apply(p, &[]);
    for level in 0..950 {
        clause = b.every((level % u32::from(names)) as u8, clause);
    }
    for _ in 0..127 {
        b.clause(clause);
    }
    let goal = b.apply(q, &[]);
    let rule = b.implies(goal, goal);
    b.clause(rule);
    b.goal(goal)
}

/// p(4, 5, 6, 7) if p(0, 1, 2, 3), and every v of that and so on, so many times, v being each of eight names in turn: the walk to the last
/// member passes all of them. With q if q, the goal.
fn members_in_turn(depth: u8) -> Vec<u8> {
    let mut b = Builder::new(true);
    let (p, q) = (b.predicate("p", 4), b.predicate("q", 0));
    let variables: Vec<usize> = (0..8).map(|variable| b.variable(variable)).collect();
    let (body, head) = (b.apply(p, &variables[..4]), b.apply(p, &variables[4..]));
    let rule = b.implies(body, head);
    let mut clause = rule;
    for level in 0..depth {
        let inner = b.every(level % 8, clause);
        clause = b.and(rule, inner);
    }
    add_clause(&mut b, &[0, 1, 2, 3, 4, 5, 6, 7], clause);
    let goal = b.apply(q, &[]);
    let rule = b.implies(goal, goal);
    b.clause(rule);
    b.goal(goal)
}

/// Searches that never end, each growing something.
pub fn endless() -> Vec<Named> {
    vec![
        ("p if p: nothing grows", lines("P p 0; A 0; > 0 0; C 1; Q 0")),
        ("p if p and p: open goals", lines("P p 0; A 0; & 0 0; > 1 0; C 2; Q 0")),
        ("p if p or p: alternatives", lines("P p 0; A 0; | 0 0; > 1 0; C 2; Q 0")),
        (
            "p if (q implies p): assumptions",
            lines("P p 0; P q 0; A 0; A 1; > 1 0; > 2 0; C 3; Q 0"),
        ),
        ("p if every v p: levels", lines("P p 0; A 0; U 0 0; > 1 0; C 2; Q 0")),
        (
            "p(s(x)) if p(x): a term",
            lines("P p 1; F s 1; V 0; A 0 0; A 1 0; A 0 2; > 1 3; U 0 4; C 5; Q 1"),
        ),
        (
            "r(x) if k(x) and r(x): a chain of variables",
            lines("P r 1; P k 1; V 0; A 1 0; A 0 0; & 1 2; > 3 2; U 0 4; C 5; > 1 2; E 0 6; Q 7"),
        ),
    ]
}

pub(crate) fn numeral(builder: &mut Builder, zero: usize, successor: usize, value: usize) -> usize {
    let mut term = builder.apply(zero, &[]);
    for _ in 0..value {
        term = builder.apply(successor, &[term]);
    }
    term
}

/// The clause with its variables quantified, the first outermost.
pub(crate) fn add_clause(builder: &mut Builder, variables: &[u8], clause: usize) {
    let clause = variables
        .iter()
        .rev()
        .fold(clause, |clause, &variable| builder.every(variable, clause));
    builder.clause(clause);
}

pub(crate) fn list_reversal(length: usize) -> Vec<u8> {
    let mut b = Builder::new(true);
    let (nil, cons) = (b.function("nil", 0), b.function("cons", 2));
    let (app, rev) = (b.predicate("app", 3), b.predicate("rev", 2));
    let [x, l, m, n] = [0, 1, 2, 3].map(|variable| b.variable(variable));
    let empty = b.apply(nil, &[]);
    // app(nil, l, l); app(cons(x, l), m, cons(x, n)) if app(l, m, n)
    let fact = b.apply(app, &[empty, l, l]);
    add_clause(&mut b, &[1], fact);
    let (xl, xn) = (b.apply(cons, &[x, l]), b.apply(cons, &[x, n]));
    let (body, head) = (b.apply(app, &[l, m, n]), b.apply(app, &[xl, m, xn]));
    let rule = b.implies(body, head);
    add_clause(&mut b, &[0, 1, 2, 3], rule);
    // rev(nil, nil); rev(cons(x, l), n) if rev(l, m) and app(m, cons(x, nil), n)
    let fact = b.apply(rev, &[empty, empty]);
    b.clause(fact);
    let one = b.apply(cons, &[x, empty]);
    let (first, second) = (b.apply(rev, &[l, m]), b.apply(app, &[m, one, n]));
    let (body, head) = (b.and(first, second), b.apply(rev, &[xl, n]));
    let rule = b.implies(body, head);
    add_clause(&mut b, &[0, 1, 2, 3], rule);
    let mut list = empty;
    for element in 0..length {
        let element = b.function(&format!("e{element}"), 0);
        let element = b.apply(element, &[]);
        list = b.apply(cons, &[element, list]);
    }
    let goal = b.apply(rev, &[list, x]);
    let goal = b.some(0, goal);
    b.goal(goal)
}

pub(crate) fn multiplication(left: usize, right: usize) -> Vec<u8> {
    let mut b = Builder::new(true);
    let (zero, s) = (b.function("z", 0), b.function("s", 1));
    let (plus, times) = (b.predicate("plus", 3), b.predicate("times", 3));
    let [x, y, w, v] = [0, 1, 2, 3].map(|variable| b.variable(variable));
    let nothing = b.apply(zero, &[]);
    let (sx, sw) = (b.apply(s, &[x]), b.apply(s, &[w]));
    // plus(z, y, y); plus(s(x), y, s(w)) if plus(x, y, w)
    let fact = b.apply(plus, &[nothing, y, y]);
    add_clause(&mut b, &[1], fact);
    let (body, head) = (b.apply(plus, &[x, y, w]), b.apply(plus, &[sx, y, sw]));
    let rule = b.implies(body, head);
    add_clause(&mut b, &[0, 1, 2], rule);
    // times(z, y, z); times(s(x), y, w) if times(x, y, v) and plus(y, v, w)
    let fact = b.apply(times, &[nothing, y, nothing]);
    add_clause(&mut b, &[1], fact);
    let (first, second) = (b.apply(times, &[x, y, v]), b.apply(plus, &[y, v, w]));
    let (body, head) = (b.and(first, second), b.apply(times, &[sx, y, w]));
    let rule = b.implies(body, head);
    add_clause(&mut b, &[0, 1, 2, 3], rule);
    let [left, right] = [left, right].map(|value| numeral(&mut b, zero, s, value));
    let goal = b.apply(times, &[left, right, x]);
    let goal = b.some(0, goal);
    b.goal(goal)
}

/// Layers of two nodes, each with edges to both of the next; the node sought is in no layer.
pub(crate) fn graph_search(layers: usize) -> Vec<u8> {
    let mut b = Builder::new(true);
    let (edge, path) = (b.predicate("edge", 2), b.predicate("path", 2));
    let [x, y, z] = [0, 1, 2].map(|variable| b.variable(variable));
    let (to_y, to_z, from_z) = (b.apply(edge, &[x, y]), b.apply(edge, &[x, z]), b.apply(path, &[z, y]));
    let head = b.apply(path, &[x, y]);
    let direct = b.implies(to_y, head);
    add_clause(&mut b, &[0, 1], direct);
    let further = b.and(to_z, from_z);
    let further = b.implies(further, head);
    add_clause(&mut b, &[0, 1, 2], further);
    let mut nodes = Vec::new();
    for layer in 0..layers {
        for side in ["l", "r"] {
            let node = b.function(&format!("{side}{layer}"), 0);
            nodes.push(b.apply(node, &[]));
        }
    }
    for pair in nodes.chunks(2).collect::<Vec<_>>().windows(2) {
        for &from in pair[0] {
            for &to in pair[1] {
                let fact = b.apply(edge, &[from, to]);
                b.clause(fact);
            }
        }
    }
    let nowhere = b.function("nowhere", 0);
    let nowhere = b.apply(nowhere, &[]);
    let goal = b.apply(path, &[nodes[0], nowhere]);
    b.goal(goal)
}

/// r(s(n)) if (h(n) implies r(n)): so many assumptions, and then each is looked for.
pub(crate) fn nested_suppositions(depth: usize) -> Vec<u8> {
    let mut b = Builder::new(true);
    let (zero, s) = (b.function("z", 0), b.function("s", 1));
    let (r, h, all) = (b.predicate("r", 1), b.predicate("h", 1), b.predicate("all", 1));
    let n = b.variable(0);
    let (nothing, next) = (b.apply(zero, &[]), b.apply(s, &[n]));
    let (assumed, then) = (b.apply(h, &[n]), b.apply(r, &[n]));
    let (body, head) = (b.implies(assumed, then), b.apply(r, &[next]));
    let rule = b.implies(body, head);
    add_clause(&mut b, &[0], rule);
    // all(z); all(s(n)) if h(n) and all(n); r(z) if all(depth)
    let fact = b.apply(all, &[nothing]);
    b.clause(fact);
    let others = b.apply(all, &[n]);
    let (body, head) = (b.and(assumed, others), b.apply(all, &[next]));
    let rule = b.implies(body, head);
    add_clause(&mut b, &[0], rule);
    let number = numeral(&mut b, zero, s, depth);
    let (body, head) = (b.apply(all, &[number]), b.apply(r, &[nothing]));
    let rule = b.implies(body, head);
    b.clause(rule);
    let goal = b.apply(r, &[number]);
    b.goal(goal)
}

/// p(s(n)) if (q implies (q implies ... p(n))), with so many suppositions, and p(z) if (r implies r). The goal is p of so
/// many s, so that at the end r is looked for past all of them, oldest first; or, if it is not supposed, in vain, and p
/// after it.
pub fn suppositions_gone_through(uses: usize, suppositions: usize, supposed: bool) -> Vec<u8> {
    let mut b = Builder::new(true);
    let (zero, s) = (b.function("z", 0), b.function("s", 1));
    let (p, q, r) = (b.predicate("p", 1), b.predicate("q", 0), b.predicate("r", 0));
    let (n, q, r) = (b.variable(0), b.apply(q, &[]), b.apply(r, &[]));
    let mut body = b.apply(p, &[n]);
    for _ in 0..suppositions {
        body = b.implies(q, body);
    }
    let next = b.apply(s, &[n]);
    let head = b.apply(p, &[next]);
    let rule = b.implies(body, head);
    add_clause(&mut b, &[0], rule);
    let last = if supposed { b.implies(r, r) } else { r };
    let nothing = b.apply(zero, &[]);
    let head = b.apply(p, &[nothing]);
    let rule = b.implies(last, head);
    b.clause(rule);
    let number = numeral(&mut b, zero, s, uses);
    let goal = b.apply(p, &[number]);
    b.goal(goal)
}

/// Twelve areas with five rules each, and the question whether all twelve cues may go: a strobe may go if, whichever
/// door is opened, the warning lamp still stands, and somebody of the crew sees that the area is clear.
pub(crate) fn house() -> Vec<u8> {
    const AREAS: usize = 12;
    let mut b = Builder::new(true);
    let predicates = [
        ("may", 1),
        ("stands", 1),
        ("opened", 1),
        ("safe", 1),
        ("clear", 1),
        ("sees", 2),
    ];
    let [may, stands, opened, safe, clear, sees] = predicates.map(|(name, arity)| b.predicate(name, arity));
    let (door, person) = (b.variable(0), b.variable(1));
    let any_opened = b.apply(opened, &[door]);
    let mut cues = Vec::new();
    for area in 0..AREAS {
        let [cue, lamp, place, watch] = ["cue", "lamp", "area", "watch"].map(|kind| {
            let symbol = b.function(&format!("{kind}{area}"), 0);
            b.apply(symbol, &[])
        });
        let (is_safe, is_clear) = (b.apply(safe, &[place]), b.apply(clear, &[place]));
        let (may_go, lamp_stands) = (b.apply(may, &[cue]), b.apply(stands, &[lamp]));
        // The cue may go if its area is safe and clear.
        let both = b.and(is_safe, is_clear);
        let rule = b.implies(both, may_go);
        b.clause(rule);
        // The area is safe if, whichever door is opened, the lamp stands.
        let still = b.implies(any_opened, lamp_stands);
        let whichever = b.every(0, still);
        let rule = b.implies(whichever, is_safe);
        b.clause(rule);
        // The lamp stands if some door is opened.
        let some_door = b.some(0, any_opened);
        let rule = b.implies(some_door, lamp_stands);
        b.clause(rule);
        // The area is clear if somebody sees it, and its watch does.
        let seen = b.apply(sees, &[person, place]);
        let somebody = b.some(1, seen);
        let rule = b.implies(somebody, is_clear);
        b.clause(rule);
        let fact = b.apply(sees, &[watch, place]);
        b.clause(fact);
        cues.push(may_go);
    }
    // Each is asked for four times, in both orders.
    let forward = cues[1..].iter().fold(cues[0], |goal, &cue| b.and(goal, cue));
    let backward = cues[..AREAS - 1]
        .iter()
        .rev()
        .fold(cues[AREAS - 1], |goal, &cue| b.and(goal, cue));
    let once = b.and(forward, backward);
    let goal = b.and(once, once);
    b.goal(goal)
}

/// A sheet of nearly 16,384 bytes for the reader, or of that part of it: 250 long names and a thousand nodes.
pub fn full_sheet(part: usize) -> Vec<u8> {
    let (names, nodes) = (250 / part, 1_000 / part);
    let mut sheet = String::new();
    for name in 0..names {
        sheet.push_str(&format!("F\tname_of_len_x{name:03}\t1\n"));
    }
    sheet.push_str("V\t0\n");
    for node in 0..nodes {
        // The names take turns, those declared last among them.
        sheet.push_str(&format!("A\t{}\t{node}\n", names * 2 / 5 + node % (names * 3 / 5)));
    }
    sheet.push_str(&format!("Y\nQ\t{}\n", nodes + 1));
    sheet.into_bytes()
}

/// The least to do: the goal "true".
pub fn trivial() -> Vec<u8> {
    b"Y\nQ\t0\n".to_vec()
}

/// d(c(n), s^height(x)) if d(n, x); d(z, s^rest(x)) if e(x); e(a). The goal d(c^links(z), x) binds its variable to a
/// term of links * height + rest applications of s within each other, which is written, and so is what is left of it at
/// each prefix.
pub fn deep_term(height: usize, links: usize, rest: usize) -> Vec<u8> {
    let mut b = Builder::new(true);
    let [a, s, zero, c] = [("a", 0), ("s", 1), ("z", 0), ("c", 1)].map(|(name, arity)| b.function(name, arity));
    let (d, e) = (b.predicate("d", 2), b.predicate("e", 1));
    let (x, n) = (b.variable(0), b.variable(1));
    let mut towers = vec![x];
    for level in 0..height.max(rest) {
        towers.push(b.apply(s, &[towers[level]]));
    }
    let next = b.apply(c, &[n]);
    let (body, head) = (b.apply(d, &[n, x]), b.apply(d, &[next, towers[height]]));
    let rule = b.implies(body, head);
    add_clause(&mut b, &[0, 1], rule);
    let nothing = b.apply(zero, &[]);
    let (body, head) = (b.apply(e, &[x]), b.apply(d, &[nothing, towers[rest]]));
    let rule = b.implies(body, head);
    add_clause(&mut b, &[0], rule);
    let end = b.apply(a, &[]);
    let end = b.apply(e, &[end]);
    b.clause(end);
    let count = numeral(&mut b, zero, c, links);
    let goal = b.apply(d, &[count, x]);
    b.goal(goal)
}
