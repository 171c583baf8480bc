//! Numbers as terms (W-204): N lines on sheets, and numbers in texts.

use super::builder::Builder;
use super::damage::damaged;
use super::texts::declared;
use crate::random::Random;

/// Small ones, which are numbers of symbols too, and those around what a byte and two bytes hold, also after 256
/// symbols.
const NUMBERS: [u32; 12] = [0, 1, 2, 3, 7, 255, 256, 257, 513, 65_280, 65_534, 65_535];

pub fn some_number(random: &mut Random) -> u32 {
    if random.one_in(8) {
        random.below(65_536) as u32
    } else {
        *random.pick(&NUMBERS)
    }
}

/// One sheet in three with N lines in the place of constants and of variables, all of a few numbers, so that they are
/// often equal. A sheet that has neither gets a line more, which nothing names. Now and then an N line is malformed, or
/// stands where a goal or a clause is wanted.
pub fn with_numbers(sheet: Vec<u8>, random: &mut Random) -> Vec<u8> {
    if !random.one_in(3) {
        return sheet;
    }
    let numbers: Vec<u32> = (0..1 + random.below(3)).map(|_| some_number(random)).collect();
    let constants = constants(&sheet);
    let way = random.below(5);
    let mut lines: Vec<Vec<u8>> = sheet
        .split_inclusive(|&byte| byte == b'\n')
        .map(<[u8]>::to_vec)
        .collect();
    let mut made = false;
    for line in &mut lines {
        let number = match leaf(line, &constants) {
            // Each constant is a number, the same wherever it stands.
            Some(Leaf::Constant(symbol)) if way < 2 => Some(numbers[symbol % numbers.len()]),
            Some(Leaf::Constant(_)) if random.one_in(2) => Some(*random.pick(&numbers)),
            Some(Leaf::Variable) if way > 2 && random.one_in(4) => Some(*random.pick(&numbers)),
            _ => None,
        };
        if let Some(number) = number {
            *line = number_line(number);
            made = true;
        }
    }
    if !made {
        let last = lines.len().saturating_sub(1);
        lines.insert(last, number_line(numbers[0]));
    }
    match random.below(50) {
        0 => spoil(&mut lines, random),
        1 | 2 => misplace(&mut lines, numbers[0], random),
        _ => {}
    }
    lines.concat()
}

pub fn number_line(number: u32) -> Vec<u8> {
    format!("N\t{number}\n").into_bytes()
}

/// What a line makes that a number can stand for.
enum Leaf {
    /// The symbol of a constant.
    Constant(usize),
    Variable,
}

fn leaf(line: &[u8], constants: &[bool]) -> Option<Leaf> {
    let line = std::str::from_utf8(line).ok()?.strip_suffix('\n')?;
    match line.split_once('\t')? {
        ("V", _) => Some(Leaf::Variable),
        ("A", symbol) => {
            let symbol: usize = symbol.parse().ok()?;
            constants.get(symbol)?.then_some(Leaf::Constant(symbol))
        }
        _ => None,
    }
}

/// For each symbol whether it is a constant.
fn constants(sheet: &[u8]) -> Vec<bool> {
    let lines = sheet.split(|&byte| byte == b'\n');
    let symbols = lines.filter(|line| line.starts_with(b"F\t") || line.starts_with(b"P\t"));
    symbols
        .map(|line| line.starts_with(b"F") && line.ends_with(b"\t0"))
        .collect()
}

/// An N line becomes one that is malformed, or nearly so.
fn spoil(lines: &mut [Vec<u8>], random: &mut Random) {
    const LINES: [&str; 12] = [
        "N", "N ", "N 65536", "N 65791", "N 01", "N 00", "N 1 2", "N x", "N -1", "n 1", "N 0", "N 65535",
    ];
    let numbers: Vec<usize> = (0..lines.len())
        .filter(|&line| lines[line].starts_with(b"N\t"))
        .collect();
    let line = *random.pick(&numbers);
    lines[line] = format!("{}\n", random.pick(&LINES).replace(' ', "\t")).into_bytes();
}

/// The line of an atom, a goal or a clause becomes an N line.
fn misplace(lines: &mut [Vec<u8>], number: u32, random: &mut Random) {
    let nodes: Vec<usize> = (0..lines.len())
        .filter(|&line| lines[line].first().is_some_and(|letter| b"AY&|>EU".contains(letter)))
        .collect();
    if !nodes.is_empty() {
        lines[*random.pick(&nodes)] = number_line(number);
    }
}

/// What the facts and goals of channels are made of.
struct Channels {
    numbers: Vec<u32>,
    constants: [usize; 2],
    pair: usize,
    predicates: [(usize, usize); 3],
}

/// Facts over a few numbers, among symbols of these numbers, and goals that join them, under quantifiers.
pub fn channels(random: &mut Random) -> Vec<u8> {
    let mut builder = Builder::new(random.one_in(2));
    let channels = Channels {
        numbers: (0..2 + random.below(3)).map(|_| some_number(random)).collect(),
        constants: ["a", "b"].map(|name| builder.function(name, 0)),
        pair: builder.function("g", 2),
        predicates: [
            (builder.equality(), 2),
            (builder.predicate("p", 1), 1),
            (builder.predicate("q", 2), 2),
        ],
    };
    for _ in 0..1 + random.below(6) {
        let predicate = channels.predicates[1 + random.below(2)];
        let fact = channels.atom(&mut builder, random, predicate, 6);
        let clause = builder.every(6, fact);
        builder.clause(clause);
    }
    let mut goal = None;
    for _ in 0..1 + random.below(4) {
        let predicate = *random.pick(&channels.predicates);
        let variable = random.below(4) as u8;
        let atom = channels.atom(&mut builder, random, predicate, variable);
        goal = Some(match goal {
            None => atom,
            Some(goal) => match random.below(8) {
                0 => builder.or(goal, atom),
                1 => builder.implies(atom, goal),
                _ => builder.and(goal, atom),
            },
        });
    }
    let mut goal = goal.expect("an atom");
    for variable in (0..4).rev() {
        goal = match random.below(6) {
            0 => builder.every(variable, goal),
            1 | 2 => builder.some(variable, goal),
            _ => goal,
        };
    }
    builder.goal(goal)
}

impl Channels {
    fn atom(
        &self,
        builder: &mut Builder,
        random: &mut Random,
        (predicate, arity): (usize, usize),
        variable: u8,
    ) -> usize {
        let arguments: Vec<usize> = (0..arity).map(|_| self.term(builder, random, variable)).collect();
        builder.apply(predicate, &arguments)
    }

    fn term(&self, builder: &mut Builder, random: &mut Random, variable: u8) -> usize {
        match random.below(12) {
            0 => builder.apply(*random.pick(&self.constants), &[]),
            1 => {
                let arguments = [(); 2].map(|()| self.term(builder, random, variable));
                builder.apply(self.pair, &arguments)
            }
            2..=6 => builder.variable(variable),
            _ => builder.number(*random.pick(&self.numbers)),
        }
    }
}

/// The text with a number of its terms changed, at one standing or at all: another number, bytes that are none, or a
/// name.
pub fn changed_number(sheet: &[u8], text: &[u8], random: &mut Random) -> Vec<u8> {
    let standings = standings(text);
    if standings.is_empty() {
        return damaged(text, random);
    }
    let (start, end) = *random.pick(&standings);
    let old = &text[start..end];
    let shown = String::from_utf8_lossy(old);
    let value: u32 = shown.parse().unwrap_or(0);
    let new = match random.below(16) {
        0..=3 => some_number(random).to_string(),
        4 => value.saturating_add(1).to_string(),
        5 => value.saturating_sub(1).to_string(),
        // The same in one byte, and in two.
        6 => value.saturating_add(256).to_string(),
        7 => value.saturating_add(65_536).to_string(),
        8 => format!("0{shown}"),
        9 => format!("{}{shown}", random.pick(&["-", "+", "_", "!"])),
        10 => format!("{shown}{}", random.pick(&["a", "_", "@0", ".", "0"])),
        11 => format!("{shown}()"),
        12 => format!("{shown}({shown})"),
        13 => format!("{}{shown}@0", random.pick(&["_", "!"])),
        _ => match declared(sheet, &["F", "P"]).get(value as usize) {
            Some((name, _)) => String::from_utf8_lossy(name).into_owned(),
            None => (65_535 - value.min(65_535)).to_string(),
        },
    };
    let everywhere = random.one_in(2);
    let mut changed = Vec::new();
    let mut copied = 0;
    for (first, last) in standings {
        if first == start || everywhere && text[first..last] == *old {
            changed.extend(&text[copied..first]);
            changed.extend(new.bytes());
            copied = last;
        }
    }
    changed.extend(&text[copied..]);
    changed
}

/// Where the numbers of a text's terms stand: digits at the start of a term, which is the third field of a line or one
/// after it, but for the place of a clause.
fn standings(text: &[u8]) -> Vec<(usize, usize)> {
    let mut standings = Vec::new();
    let mut start = 0;
    for line in text.split_inclusive(|&byte| byte == b'\n') {
        let before = match line {
            [b'B', ..] => 2,
            [b'D', b'\t', b'c', ..] => 3,
            [b'D', ..] => 2,
            _ => usize::MAX,
        };
        let mut tabs = 0;
        for place in 1..line.len() {
            tabs += usize::from(line[place - 1] == b'\t');
            let digits = line[place..].iter().take_while(|byte| byte.is_ascii_digit()).count();
            if tabs >= before && digits > 0 && b"\t(,".contains(&line[place - 1]) {
                standings.push((start + place, start + place + digits));
            }
        }
        start += line.len();
    }
    standings
}

#[cfg(test)]
mod tests {
    use super::*;

    #[test]
    fn numbers_of_terms() {
        let text = b"R\tproved\t9\nB\t2\tg(10,f(_0@0,!1@2))\nD\tsome\t7\nD\tclause\t12\t0\tf5\tf(65535,a)\nD\tand\n";
        let standings = standings(text);
        let shown: Vec<&[u8]> = standings.iter().map(|&(start, end)| &text[start..end]).collect();
        assert_eq!(shown, [&b"10"[..], b"7", b"0", b"65535"]);
    }

    #[test]
    fn places_of_numbers() {
        let sheet = b"F\ta\t0\nP\tp\t1\nA\t0\nA\t1\t0\nV\t3\nC\t1\nQ\t1\n";
        assert_eq!(constants(sheet), [true, false]);
        let lines = sheet.split_inclusive(|&byte| byte == b'\n');
        let leaves = lines.filter(|line| leaf(line, &[true, false]).is_some()).count();
        assert_eq!(leaves, 2);
    }
}
