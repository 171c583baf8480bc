//! Leftover variables and made constants as they stand in a text.

use std::collections::HashMap;

/// `_number@level` or `!number@level`.
#[derive(Clone, Copy, PartialEq, Eq, Hash)]
pub struct Symbol {
    pub made: bool,
    pub number: u32,
    pub level: u32,
}

/// A piece of a text.
#[derive(Clone)]
pub enum Piece {
    Symbol(Symbol),
    Bytes(Vec<u8>),
}

pub fn pieces(text: &[u8]) -> Vec<Piece> {
    let mut pieces = Vec::new();
    let mut plain = Vec::new();
    let mut rest = text;
    while let Some(&byte) = rest.first() {
        // Within a name `_` begins no symbol.
        let within_name = plain.last().is_some_and(|byte: &u8| byte.is_ascii_alphanumeric());
        match symbol(rest) {
            Some((symbol, length)) if !within_name => {
                pieces.push(Piece::Bytes(std::mem::take(&mut plain)));
                pieces.push(Piece::Symbol(symbol));
                rest = &rest[length..];
            }
            _ => {
                plain.push(byte);
                rest = &rest[1..];
            }
        }
    }
    pieces.push(Piece::Bytes(plain));
    pieces
}

/// The symbol at the start of the bytes, with its length.
fn symbol(bytes: &[u8]) -> Option<(Symbol, usize)> {
    let made = match bytes.first()? {
        b'!' => true,
        b'_' => false,
        _ => return None,
    };
    let (number, digits) = leading_number(&bytes[1..])?;
    let after = bytes[1 + digits..].strip_prefix(b"@")?;
    let (level, more) = leading_number(after)?;
    Some((Symbol { made, number, level }, 2 + digits + more))
}

fn leading_number(bytes: &[u8]) -> Option<(u32, usize)> {
    let digits = bytes.iter().take_while(|byte| byte.is_ascii_digit()).count();
    let number = std::str::from_utf8(&bytes[..digits]).ok()?.parse().ok()?;
    Some((number, digits))
}

pub fn joined(pieces: &[Piece]) -> Vec<u8> {
    let mut text = Vec::new();
    for piece in pieces {
        match piece {
            Piece::Bytes(bytes) => text.extend(bytes),
            Piece::Symbol(symbol) => {
                let mark = if symbol.made { '!' } else { '_' };
                text.extend(format!("{mark}{}@{}", symbol.number, symbol.level).bytes());
            }
        }
    }
    text
}

/// The symbols of a text, each once.
pub fn symbols(pieces: &[Piece]) -> Vec<Symbol> {
    let mut symbols = Vec::new();
    for piece in pieces {
        if let Piece::Symbol(symbol) = piece {
            if !symbols.contains(symbol) && symbols.len() < 50 {
                symbols.push(*symbol);
            }
        }
    }
    symbols
}

/// Every standing of a symbol replaced by pieces.
pub fn replaced(pieces: &[Piece], symbol: Symbol, by: &[Piece]) -> Vec<Piece> {
    let mut changed = Vec::new();
    for piece in pieces {
        match piece {
            Piece::Symbol(met) if *met == symbol => changed.extend(by.iter().cloned()),
            piece => changed.push(piece.clone()),
        }
    }
    changed
}

/// The symbols numbered anew by first showing, each kind from 0.
pub fn renumbered(pieces: &[Piece]) -> Vec<Piece> {
    let mut numbers: HashMap<Symbol, u32> = HashMap::new();
    let mut shown = [0, 0];
    pieces
        .iter()
        .map(|piece| match piece {
            Piece::Symbol(symbol) => {
                let next = &mut shown[usize::from(symbol.made)];
                let number = *numbers.entry(*symbol).or_insert_with(|| {
                    *next += 1;
                    *next - 1
                });
                Piece::Symbol(Symbol { number, ..*symbol })
            }
            piece => piece.clone(),
        })
        .collect()
}
