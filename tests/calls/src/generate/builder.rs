//! Writes a sheet line by line.

use std::collections::HashMap;

/// Writes a sheet; every method gives the number of the symbol or node it made.
pub struct Builder {
    pub sheet: String,
    symbols: usize,
    pub nodes: usize,
    /// Nodes written so far, if equal ones are to be written once.
    known: Option<HashMap<String, usize>>,
}

impl Builder {
    pub fn new(sharing: bool) -> Builder {
        Builder {
            sheet: String::new(),
            symbols: 0,
            nodes: 0,
            known: sharing.then(HashMap::new),
        }
    }

    pub fn line(&mut self, fields: &str) {
        self.sheet.push_str(&fields.replace(' ', "\t"));
        self.sheet.push('\n');
    }

    pub fn symbol(&mut self, letter: char, name: &str, arity: usize) -> usize {
        self.line(&format!("{letter} {name} {arity}"));
        self.symbols += 1;
        self.symbols - 1
    }

    pub fn function(&mut self, name: &str, arity: usize) -> usize {
        self.symbol('F', name, arity)
    }

    pub fn predicate(&mut self, name: &str, arity: usize) -> usize {
        self.symbol('P', name, arity)
    }

    pub fn node(&mut self, line: String) -> usize {
        if let Some(&node) = self.known.as_ref().and_then(|known| known.get(&line)) {
            return node;
        }
        self.line(&line);
        if let Some(known) = &mut self.known {
            known.insert(line, self.nodes);
        }
        self.nodes += 1;
        self.nodes - 1
    }

    pub fn variable(&mut self, variable: u8) -> usize {
        self.node(format!("V {variable}"))
    }

    pub fn number(&mut self, number: u32) -> usize {
        self.node(format!("N {number}"))
    }

    pub fn apply(&mut self, symbol: usize, arguments: &[usize]) -> usize {
        let arguments: String = arguments.iter().map(|node| format!(" {node}")).collect();
        self.node(format!("A {symbol}{arguments}"))
    }

    pub fn truth(&mut self) -> usize {
        self.node("Y".to_string())
    }

    pub fn and(&mut self, left: usize, right: usize) -> usize {
        self.node(format!("& {left} {right}"))
    }

    pub fn or(&mut self, left: usize, right: usize) -> usize {
        self.node(format!("| {left} {right}"))
    }

    pub fn implies(&mut self, left: usize, right: usize) -> usize {
        self.node(format!("> {left} {right}"))
    }

    pub fn some(&mut self, variable: u8, part: usize) -> usize {
        self.node(format!("E {variable} {part}"))
    }

    pub fn every(&mut self, variable: u8, part: usize) -> usize {
        self.node(format!("U {variable} {part}"))
    }

    pub fn clause(&mut self, node: usize) {
        self.line(&format!("C {node}"));
    }

    pub fn goal(mut self, node: usize) -> Vec<u8> {
        self.line(&format!("Q {node}"));
        self.sheet.into_bytes()
    }

    /// The clause every z e(z,z); gives the predicate e.
    pub fn equality(&mut self) -> usize {
        let e = self.predicate("e", 2);
        let z = self.variable(7);
        let atom = self.apply(e, &[z, z]);
        let clause = self.every(7, atom);
        self.clause(clause);
        e
    }
}
