//! Answer texts: right ones that the engine does not write, nearly right ones, and ones made for a part of the checker.

use super::capitals::{changed_case, respelled_text, shifted_name};
use super::damage::damaged;
use super::numbers::{changed_number, some_number};
use super::symbols::{joined, pieces, renumbered, replaced, symbols, Piece, Symbol};
use crate::random::Random;

/// A proof's text with something changed, often so that it is still right.
pub fn changed_text(sheet: &[u8], text: &[u8], random: &mut Random) -> Vec<u8> {
    match random.below(28) {
        0..=2 => damaged(text, random),
        3..=10 => changed_symbols(sheet, text, random),
        11 => first_line(text, random),
        12 | 13 => changed_line(text, random),
        14 => changed_place(text, random),
        15 | 16 => changed_end(text, random),
        17 => exchanged_fields(text, random),
        18 | 19 => changed_name(sheet, text, random),
        20..=22 => respelled_text(text, random),
        23 => shifted_name(text, random),
        24 => changed_case(text, random),
        _ => changed_number(sheet, text, random),
    }
}

/// Leftover variables replaced by terms, symbols made one, levels and kinds and numbers changed.
fn changed_symbols(sheet: &[u8], text: &[u8], random: &mut Random) -> Vec<u8> {
    let pieces = pieces(text);
    let symbols = symbols(&pieces);
    if symbols.is_empty() {
        return damaged(text, random);
    }
    let one = *random.pick(&symbols);
    let other = *random.pick(&symbols);
    let with = |symbol: Symbol| replaced(&pieces, one, &[Piece::Symbol(symbol)]);
    let changed = match random.below(12) {
        // An instance, if the term's level is not above the variable's.
        0..=2 => renumbered(&replaced(&pieces, one, &some_term(sheet, one, other, random))),
        // The two become one.
        3 => renumbered(&with(Symbol {
            made: one.made,
            ..other
        })),
        4 => renumbered(&with(Symbol {
            made: !one.made,
            number: 60_000,
            ..one
        })),
        // Another level everywhere, or at one standing.
        5 => with(Symbol {
            level: one.level.saturating_sub(1),
            ..one
        }),
        6 => with(Symbol {
            level: one.level + 1,
            ..one
        }),
        7 => at_one_standing(&pieces, random, |symbol| Symbol {
            level: symbol.level + 1,
            ..symbol
        }),
        // Another symbol at one standing.
        8 => renumbered(&at_one_standing(&pieces, random, |_| other)),
        9 => renumbered(&at_one_standing(&pieces, random, |symbol| Symbol {
            number: 60_000,
            ..symbol
        })),
        // Other numbers: exchanged, or one left out.
        10 => {
            let aside = Symbol { number: 60_000, ..one };
            let pieces = replaced(&pieces, one, &[Piece::Symbol(aside)]);
            let pieces = replaced(
                &pieces,
                other,
                &[Piece::Symbol(Symbol {
                    number: one.number,
                    ..other
                })],
            );
            replaced(
                &pieces,
                aside,
                &[Piece::Symbol(Symbol {
                    number: other.number,
                    ..one
                })],
            )
        }
        _ => with(Symbol {
            number: one.number + 1,
            ..one
        }),
    };
    joined(&changed)
}

/// A term over the sheet's functions, a number, a new symbol, or one that the text has.
fn some_term(sheet: &[u8], replaced: Symbol, other: Symbol, random: &mut Random) -> Vec<Piece> {
    let leaf = match random.below(4) {
        0 => Piece::Symbol(other),
        1 => Piece::Symbol(Symbol {
            number: 60_000,
            ..replaced
        }),
        2 => Piece::Symbol(Symbol {
            made: true,
            number: 60_001,
            level: random.below(replaced.level as usize + 1) as u32,
        }),
        _ => Piece::Bytes(some_number(random).to_string().into_bytes()),
    };
    let functions = functions(sheet);
    if functions.is_empty() || random.one_in(3) {
        return vec![leaf];
    }
    let (name, arity) = random.pick(&functions).clone();
    let mut term = vec![Piece::Bytes(name)];
    for place in 0..arity {
        term.push(Piece::Bytes(if place == 0 { b"(".to_vec() } else { b",".to_vec() }));
        term.push(leaf.clone());
    }
    if arity > 0 {
        term.push(Piece::Bytes(b")".to_vec()));
    }
    term
}

/// Names and arities of a sheet's F lines.
fn functions(sheet: &[u8]) -> Vec<(Vec<u8>, usize)> {
    declared(sheet, &["F"])
}

/// Names and arities of the lines that declare symbols with one of these letters.
pub fn declared(sheet: &[u8], letters: &[&str]) -> Vec<(Vec<u8>, usize)> {
    let mut declared = Vec::new();
    for line in sheet.split(|&byte| byte == b'\n') {
        let fields: Vec<&[u8]> = line.split(|&byte| byte == b'\t').collect();
        if let [letter, name, [arity @ b'0'..=b'4']] = fields[..] {
            if letters.iter().any(|wanted| wanted.as_bytes() == letter) {
                declared.push((name.to_vec(), usize::from(arity - b'0')));
            }
        }
    }
    declared
}

/// One standing of one symbol changed.
fn at_one_standing(pieces: &[Piece], random: &mut Random, change: impl Fn(Symbol) -> Symbol) -> Vec<Piece> {
    let standings: Vec<usize> = (0..pieces.len())
        .filter(|&place| matches!(pieces[place], Piece::Symbol(_)))
        .collect();
    let mut changed = pieces.to_vec();
    let place = *random.pick(&standings);
    if let Piece::Symbol(symbol) = changed[place] {
        changed[place] = Piece::Symbol(change(symbol));
    }
    changed
}

fn lines_of(text: &[u8]) -> Vec<Vec<u8>> {
    text.split_inclusive(|&byte| byte == b'\n')
        .map(<[u8]>::to_vec)
        .collect()
}

/// Units and outcomes at the edge of what is wanted.
fn first_line(text: &[u8], random: &mut Random) -> Vec<u8> {
    const FIRST: [&str; 14] = [
        "R\tproved\t0\n",
        "R\tproved\t1\n",
        "R\tproved\t50000\n",
        "R\tproved\t50001\n",
        "R\tproved\t65535\n",
        "R\tproved\t65536\n",
        "R\tproved\t01\n",
        "R\tproved\t\n",
        "R\tproved\n",
        "R\tno\t5\n",
        "R\tspent\t5\n",
        "R\tproved\t1\t1\n",
        "R proved 1\n",
        "",
    ];
    let mut lines = lines_of(text);
    match lines.first_mut() {
        Some(line) => *line = random.pick(&FIRST).bytes().collect(),
        None => lines.push(random.pick(&FIRST).bytes().collect()),
    }
    lines.concat()
}

/// The word of a line exchanged.
fn changed_line(text: &[u8], random: &mut Random) -> Vec<u8> {
    const WORDS: [&str; 9] = [
        "true", "and", "left", "right", "some", "all", "assume", "clause", "other",
    ];
    let mut lines = lines_of(text);
    let place = random.below(lines.len().max(1));
    if let Some(line) = lines.get_mut(place) {
        let mut fields: Vec<Vec<u8>> = line.split(|&byte| byte == b'\t').map(<[u8]>::to_vec).collect();
        if let Some(word) = fields.get_mut(1) {
            let closed = word.ends_with(b"\n");
            *word = random.pick(&WORDS).bytes().collect();
            if closed {
                word.push(b'\n');
            }
        }
        *line = fields.join(&b'\t');
    }
    lines.concat()
}

/// The place of a clause line changed.
fn changed_place(text: &[u8], random: &mut Random) -> Vec<u8> {
    let mut lines = lines_of(text);
    let clauses: Vec<usize> = (0..lines.len())
        .filter(|&line| lines[line].starts_with(b"D\tclause\t"))
        .collect();
    if clauses.is_empty() {
        return damaged(text, random);
    }
    let line = &mut lines[*random.pick(&clauses)];
    let after = &line[b"D\tclause\t".len()..];
    let digits = after.iter().take_while(|byte| byte.is_ascii_digit()).count();
    let place: u32 = String::from_utf8_lossy(&after[..digits]).parse().unwrap_or(0);
    let place = match random.below(6) {
        0 => "0".to_string(),
        1 => place.saturating_sub(1).to_string(),
        2 | 3 => (place + 1).to_string(),
        4 => format!("0{place}"),
        _ => (place + 2).to_string(),
    };
    let rest = after[digits..].to_vec();
    *line = [b"D\tclause\t", place.as_bytes(), &rest].concat();
    lines.concat()
}

/// Lines missing, lines too many, no closing LF.
fn changed_end(text: &[u8], random: &mut Random) -> Vec<u8> {
    let mut lines = lines_of(text);
    match random.below(5) {
        0 => {
            lines.pop();
        }
        1 => lines.truncate(random.below(lines.len() + 1)),
        2 => lines.push(b"D\ttrue\n".to_vec()),
        3 => lines.push(random.pick(&[&b"\n"[..], b"x", b"D\ttrue", b"R\tproved\t1\n"]).to_vec()),
        _ => {
            if let Some(last) = lines.last_mut() {
                last.pop();
            }
        }
    }
    lines.concat()
}

/// Two fields exchanged, or one put in the place of another.
fn exchanged_fields(text: &[u8], random: &mut Random) -> Vec<u8> {
    let mut fields: Vec<Vec<u8>> = text
        .split(|&byte| byte == b'\t' || byte == b'\n')
        .map(<[u8]>::to_vec)
        .collect();
    let marks: Vec<u8> = text.iter().copied().filter(|byte| b"\t\n".contains(byte)).collect();
    let (one, other) = (random.below(fields.len()), random.below(fields.len()));
    if random.one_in(2) {
        fields.swap(one, other);
    } else {
        fields[one] = fields[other].clone();
    }
    let mut changed = Vec::new();
    for (place, field) in fields.iter().enumerate() {
        changed.extend(field);
        changed.extend(marks.get(place));
    }
    changed
}

/// A name exchanged for another of the sheet's, predicates among them, for a number, which may be its symbol's own, or
/// with empty brackets.
fn changed_name(sheet: &[u8], text: &[u8], random: &mut Random) -> Vec<u8> {
    let names = declared(sheet, &["F", "P"]);
    let starts: Vec<usize> = (1..text.len())
        .filter(|&place| text[place].is_ascii_alphabetic() && b"\t(,".contains(&text[place - 1]))
        .collect();
    if names.is_empty() || starts.is_empty() {
        return damaged(text, random);
    }
    let start = *random.pick(&starts);
    let name_byte = |byte: &&u8| byte.is_ascii_alphanumeric() || **byte == b'_';
    let end = start + text[start..].iter().take_while(name_byte).count();
    let own = names.iter().position(|(name, _)| name == &text[start..end]);
    let name = match (random.below(6), own) {
        (0, _) => [&text[start..end], b"()"].concat(),
        (1, Some(symbol)) => symbol.to_string().into_bytes(),
        (1 | 2, _) => some_number(random).to_string().into_bytes(),
        _ => random.pick(&names).0.clone(),
    };
    [&text[..start], &name, &text[end..]].concat()
}
