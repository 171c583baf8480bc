//! The order in force (W-207): O lines on sheets, and suppositions inside one another whose members have other places in
//! either order.

use reference::limits::SHEET_BYTES;

use super::builder::Builder;
use crate::random::Random;

/// The line for the former order.
pub const LATEST: &[u8] = b"O\tlatest\n";

/// One sheet in three with `O latest` as its first line; now and then an O line that is malformed, stands elsewhere or
/// stands twice. A sheet that would pass 16,384 bytes by it stays as it is.
pub fn with_order(sheet: Vec<u8>, random: &mut Random) -> Vec<u8> {
    if !random.one_in(3) || sheet.len() <= SHEET_BYTES && sheet.len() + LATEST.len() > SHEET_BYTES {
        return sheet;
    }
    match random.below(60) {
        0 => [some_order_line(random), sheet].concat(),
        1 => with_line(&sheet, LATEST, random),
        2 => with_line(&[LATEST, &sheet].concat(), LATEST, random),
        3 => with_line(&sheet, &some_order_line(random), random),
        // After the Q line, and where the sheet ends.
        4 => [&sheet, *random.pick(&[LATEST, b"O\tlatest", b"O\toldest\n", b"O"])].concat(),
        // Without LF, and alone.
        5 => [b"O\tlatest", &sheet[..]].concat(),
        6 => random.pick(&[LATEST, b"O\tlatest", b"O\n"]).to_vec(),
        _ => [LATEST, &sheet].concat(),
    }
}

/// The sheet in the other order: with the first line `O latest`, or without it.
pub fn in_other_order(sheet: &[u8]) -> Vec<u8> {
    match sheet.strip_prefix(LATEST) {
        Some(rest) => rest.to_vec(),
        None => [LATEST, sheet].concat(),
    }
}

/// A line more, in any place but the first.
fn with_line(sheet: &[u8], line: &[u8], random: &mut Random) -> Vec<u8> {
    let mut lines: Vec<&[u8]> = sheet.split_inclusive(|&byte| byte == b'\n').collect();
    let place = 1 + random.below(lines.len().max(1));
    lines.insert(place.min(lines.len()), line);
    lines.concat()
}

/// An O line with another word, or nearly the right one.
fn some_order_line(random: &mut Random) -> Vec<u8> {
    const LINES: [&str; 14] = [
        "O oldest",
        "O",
        "O ",
        "O first",
        "O Latest",
        "O LATEST",
        "o latest",
        "O lates",
        "O latests",
        "O latest ",
        "O latest latest",
        "O 1",
        "O latest\r",
        " O latest",
    ];
    format!("{}\n", random.pick(&LINES).replace(' ', "\t")).into_bytes()
}

/// The symbols of suppositions.
struct Suppositions {
    constants: [usize; 3],
    /// Of one argument each.
    predicates: [usize; 2],
    alone: usize,
}

/// The variables that the goal may leave free or quantify.
const VARIABLES: u8 = 3;

pub fn suppositions(random: &mut Random) -> Vec<u8> {
    if random.one_in(4) {
        return grown(random);
    }
    let mut builder = Builder::new(random.one_in(2));
    let suppositions = Suppositions {
        constants: ["a", "b", "c"].map(|name| builder.function(name, 0)),
        predicates: ["p", "q"].map(|name| builder.predicate(name, 1)),
        alone: builder.predicate("r", 0),
    };
    for _ in 0..random.below(4) {
        let mut clause = suppositions.clause(&mut builder, random);
        for variable in 0..VARIABLES {
            clause = builder.every(variable, clause);
        }
        builder.clause(clause);
    }
    let goal = suppositions.goal(&mut builder, random);
    builder.goal(goal)
}

impl Suppositions {
    /// Suppositions of one to five members around a goal, with goals beside it and quantifiers between them.
    fn goal(&self, builder: &mut Builder, random: &mut Random) -> usize {
        let depth = if random.one_in(8) {
            20 + random.below(40)
        } else {
            1 + random.below(6)
        };
        let mut goal = self.sought(builder, random);
        for _ in 0..depth {
            let mut supposed = self.clause(builder, random);
            for _ in 0..random.below(5) {
                let more = self.clause(builder, random);
                supposed = builder.and(supposed, more);
            }
            goal = builder.implies(supposed, goal);
            let variable = random.below(usize::from(VARIABLES)) as u8;
            goal = match random.below(16) {
                0 => {
                    let other = self.sought(builder, random);
                    builder.and(goal, other)
                }
                1 => {
                    let other = self.sought(builder, random);
                    builder.and(other, goal)
                }
                2 => {
                    let other = self.sought(builder, random);
                    builder.or(other, goal)
                }
                3 => builder.some(variable, goal),
                4 => builder.every(variable, goal),
                _ => goal,
            };
        }
        goal
    }

    fn sought(&self, builder: &mut Builder, random: &mut Random) -> usize {
        let first = self.atom(builder, random);
        if random.one_in(3) {
            let second = self.atom(builder, random);
            return builder.and(first, second);
        }
        first
    }

    fn atom(&self, builder: &mut Builder, random: &mut Random) -> usize {
        if random.one_in(6) {
            return builder.apply(self.alone, &[]);
        }
        let argument = if random.one_in(2) {
            builder.variable(random.below(usize::from(VARIABLES)) as u8)
        } else {
            builder.apply(*random.pick(&self.constants), &[])
        };
        builder.apply(*random.pick(&self.predicates), &[argument])
    }

    /// A fact, a rule, or a rule whose body supposes more.
    fn clause(&self, builder: &mut Builder, random: &mut Random) -> usize {
        let head = self.atom(builder, random);
        match random.below(10) {
            0 => {
                let body = self.atom(builder, random);
                builder.implies(body, head)
            }
            1 => {
                let (left, right) = (self.atom(builder, random), self.atom(builder, random));
                let supposed = builder.and(left, right);
                let then = self.atom(builder, random);
                let body = builder.implies(supposed, then);
                builder.implies(body, head)
            }
            2 => builder.every(random.below(usize::from(VARIABLES)) as u8, head),
            _ => head,
        }
    }
}

/// n(s(x)) if ((h(x), k(x) and so on) implies n(x)): each use supposes some members more. Then n(z) if h(y) and k(y) for
/// some y that the sheet has w(y) for, so that the members are gone through in the order in force.
fn grown(random: &mut Random) -> Vec<u8> {
    let mut builder = Builder::new(true);
    let (zero, s) = (builder.function("z", 0), builder.function("s", 1));
    let [n, h, k, w] = ["n", "h", "k", "w"].map(|name| builder.predicate(name, 1));
    let x = builder.variable(0);
    let next = builder.apply(s, &[x]);
    let mut supposed = builder.apply(h, &[x]);
    for _ in 0..random.below(4) {
        let argument = if random.one_in(4) { next } else { x };
        let more = builder.apply(*random.pick(&[h, k]), &[argument]);
        supposed = if random.one_in(2) {
            builder.and(supposed, more)
        } else {
            builder.and(more, supposed)
        };
    }
    let (then, head) = (builder.apply(n, &[x]), builder.apply(n, &[next]));
    let body = builder.implies(supposed, then);
    let rule = builder.implies(body, head);
    let rule = builder.every(0, rule);
    let nothing = builder.apply(zero, &[]);
    let first = builder.apply(h, &[x]);
    let second = builder.apply(*random.pick(&[h, k, w]), &[x]);
    let third = builder.apply(w, &[x]);
    let sought = builder.and(second, third);
    let sought = builder.and(first, sought);
    let sought = builder.some(0, sought);
    let end = builder.apply(n, &[nothing]);
    let last = builder.implies(sought, end);
    let most = if random.one_in(4) { 25 } else { 7 };
    let depth = 1 + random.below(most);
    let mut numerals = vec![nothing];
    for level in 0..depth {
        numerals.push(builder.apply(s, &[numerals[level]]));
    }
    let wanted = builder.apply(w, &[*random.pick(&numerals)]);
    let mut clauses = vec![rule, last, wanted];
    if random.one_in(3) {
        clauses.push(builder.apply(h, &[*random.pick(&numerals)]));
    }
    while !clauses.is_empty() {
        builder.clause(clauses.swap_remove(random.below(clauses.len())));
    }
    let goal = builder.apply(n, &[numerals[depth]]);
    builder.goal(goal)
}

#[cfg(test)]
mod tests {
    use super::*;

    #[test]
    fn other_orders() {
        let sheet = b"Y\nQ\t0\n";
        let other = in_other_order(sheet);
        assert_eq!(other, b"O\tlatest\nY\nQ\t0\n");
        assert_eq!(in_other_order(&other), sheet);
    }

    /// A line more is never the first.
    #[test]
    fn lines_elsewhere() {
        let random = &mut Random::new(0);
        for sheet in [&b"Y\nQ\t0\n"[..], b"Y\n", b"Y"] {
            for _ in 0..20 {
                let more = with_line(sheet, LATEST, random);
                assert_eq!(more.len(), sheet.len() + LATEST.len());
                assert!(more.starts_with(b"Y"));
            }
        }
    }
}
