//! A second judge of answer texts, by plain substitution: sequents are written out, terms are compared as trees, and a
//! term's spelling is right if printing what was read gives it back. For sheets that are right and unfold to little.
//! Names are read in small letters on both sides (W-201).

use std::collections::HashMap;

#[derive(Clone, PartialEq, Debug)]
pub(super) enum Term {
    Variable(u8),
    /// Function symbols; numbers (W-204), made constants and leftover variables under their whole spelling.
    Applied(String, Vec<Term>),
}

#[derive(Clone, PartialEq, Debug)]
pub(super) enum Formula {
    Atom(String, Vec<Term>),
    True,
    And(Box<Formula>, Box<Formula>),
    Or(Box<Formula>, Box<Formula>),
    Implies(Box<Formula>, Box<Formula>),
    Some(u8, Box<Formula>),
    Every(u8, Box<Formula>),
}

pub struct Judge {
    functions: HashMap<String, usize>,
    /// W-207: whether the first line is `O latest`.
    pub(super) latest: bool,
    pub(super) program: Vec<Formula>,
    pub(super) goal: Formula,
}

const MOST_NODES: usize = 3_000;

/// The lines of a right sheet that make symbols and nodes.
struct Lines<'a> {
    symbols: Vec<(String, usize, bool)>,
    nodes: Vec<(&'a str, Vec<usize>)>,
    /// How much each node unfolds to.
    sizes: Vec<usize>,
}

impl Lines<'_> {
    fn term(&self, node: usize) -> Term {
        let (letter, numbers) = &self.nodes[node];
        match *letter {
            "V" => Term::Variable(numbers[0] as u8),
            "N" => Term::Applied(numbers[0].to_string(), Vec::new()),
            _ => Term::Applied(self.symbols[numbers[0]].0.clone(), self.terms(&numbers[1..])),
        }
    }

    fn terms(&self, nodes: &[usize]) -> Vec<Term> {
        nodes.iter().map(|&node| self.term(node)).collect()
    }

    fn formula(&self, node: usize) -> Formula {
        let (letter, numbers) = &self.nodes[node];
        let part = |place: usize| Box::new(self.formula(numbers[place]));
        match *letter {
            "A" => Formula::Atom(self.symbols[numbers[0]].0.clone(), self.terms(&numbers[1..])),
            "Y" => Formula::True,
            "&" => Formula::And(part(0), part(1)),
            "|" => Formula::Or(part(0), part(1)),
            ">" => Formula::Implies(part(0), part(1)),
            "E" => Formula::Some(numbers[0] as u8, part(1)),
            "U" => Formula::Every(numbers[0] as u8, part(1)),
            letter => panic!("{letter} is no formula"),
        }
    }
}

impl Judge {
    /// None if a clause or the goal unfolds to too much.
    pub fn new(sheet: &[u8]) -> Option<Judge> {
        let sheet = std::str::from_utf8(sheet).expect("a right sheet is ASCII");
        let mut lines = Lines {
            symbols: Vec::new(),
            nodes: Vec::new(),
            sizes: Vec::new(),
        };
        let mut program = Vec::new();
        let latest = sheet.starts_with("O\tlatest\n");
        for line in sheet.lines().skip(usize::from(latest)) {
            let fields: Vec<&str> = line.split('\t').collect();
            let numbers: Vec<usize> = fields[1..].iter().map(|field| field.parse().unwrap_or(0)).collect();
            match fields[0] {
                "F" | "P" => {
                    let name = fields[1].to_ascii_lowercase();
                    lines.symbols.push((name, numbers[1], fields[0] == "F"));
                }
                letter @ ("C" | "Q") => {
                    if lines.sizes[numbers[0]] > MOST_NODES {
                        return None;
                    }
                    let formula = lines.formula(numbers[0]);
                    if letter == "Q" {
                        let functions = lines.symbols.iter().filter(|(_, _, function)| *function);
                        return Some(Judge {
                            functions: functions.map(|(name, arity, _)| (name.clone(), *arity)).collect(),
                            latest,
                            goal: formula,
                            program,
                        });
                    }
                    program.push(formula);
                }
                letter => {
                    let parts = match letter {
                        "V" | "N" => &[],
                        "A" | "E" | "U" => &numbers[1..],
                        _ => &numbers[..],
                    };
                    let size = parts
                        .iter()
                        .fold(1, |size: usize, &part| size.saturating_add(lines.sizes[part]));
                    lines.sizes.push(size);
                    lines.nodes.push((letter, numbers));
                }
            }
        }
        panic!("a right sheet has a Q line")
    }

    /// 0 for valid, otherwise the first line that breaks.
    pub fn judge(&self, text: &[u8]) -> u32 {
        let Ok(text) = std::str::from_utf8(text) else {
            // Only the lines before the first bad byte can be right; a bad byte never is.
            let good = std::str::from_utf8(text).unwrap_err().valid_up_to();
            let start = text[..good]
                .iter()
                .rposition(|&byte| byte == b'\n')
                .map_or(0, |place| place + 1);
            let lines = text[..start].iter().filter(|&&byte| byte == b'\n').count() as u32;
            let before = self.judge(&text[..start]);
            return if before == 0 { lines + 1 } else { before.min(lines + 1) };
        };
        let mut reading = Reading {
            judge: self,
            lines: text.split_inclusive('\n').collect(),
            line: 0,
            constants: Vec::new(),
            variables: Vec::new(),
        };
        match reading.whole() {
            Some(()) => 0,
            None => reading.line as u32,
        }
    }
}

struct Reading<'a> {
    judge: &'a Judge,
    lines: Vec<&'a str>,
    line: usize,
    constants: Vec<String>,
    variables: Vec<String>,
}

#[derive(Clone)]
pub(super) struct Sequent {
    pub(super) program: Vec<Formula>,
    pub(super) goal: Formula,
    pub(super) level: usize,
}

impl<'a> Reading<'a> {
    fn fields(&mut self) -> Option<Vec<&'a str>> {
        self.line += 1;
        let line: &'a str = self.lines.get(self.line - 1)?;
        Some(line.strip_suffix('\n')?.split('\t').collect())
    }

    fn whole(&mut self) -> Option<()> {
        let first = self.fields()?;
        let units = number(first.get(2)?)?;
        if first.len() != 3 || first[0] != "R" || first[1] != "proved" || units == 0 || units > 50_000 {
            return None;
        }
        let mut goal = self.judge.goal.clone();
        for variable in 0..8 {
            if free(&self.judge.goal, variable) {
                let fields = self.fields()?;
                if fields.len() != 3 || fields[0] != "B" || fields[1] != variable.to_string() {
                    return None;
                }
                let term = self.term(fields[2], 0)?;
                goal = replaced(&goal, variable, &term);
            }
        }
        let mut open = vec![Sequent {
            program: self.judge.program.clone(),
            goal,
            level: 0,
        }];
        while let Some(Sequent {
            mut program,
            goal,
            level,
        }) = open.pop()
        {
            let fields = self.fields()?;
            if fields[0] != "D" {
                return None;
            }
            let word = *fields.get(1)?;
            let rest = &fields[2..];
            let mut derive =
                |program: Vec<Formula>, goal: Formula, level: usize| open.push(Sequent { program, goal, level });
            match goal {
                Formula::True if word == "true" && rest.is_empty() => {}
                Formula::And(left, right) if word == "and" && rest.is_empty() => {
                    derive(program.clone(), *right, level);
                    derive(program, *left, level);
                }
                Formula::Or(left, _) if word == "left" && rest.is_empty() => derive(program, *left, level),
                Formula::Or(_, right) if word == "right" && rest.is_empty() => derive(program, *right, level),
                Formula::Implies(clause, goal) if word == "assume" && rest.is_empty() => {
                    let place = if self.judge.latest { 0 } else { program.len() };
                    program.insert(place, *clause);
                    derive(program, *goal, level);
                }
                Formula::Some(variable, goal) if word == "some" && rest.len() == 1 => {
                    let term = self.term(rest[0], level)?;
                    derive(program, replaced(&goal, variable, &term), level);
                }
                Formula::Every(variable, goal) if word == "all" && rest.len() == 1 => {
                    let constant = self.term(rest[0], level + 1)?;
                    let spelling = print(&constant);
                    if !spelling.starts_with('!') || !spelling.ends_with(&format!("@{}", level + 1)) {
                        return None;
                    }
                    derive(program, replaced(&goal, variable, &constant), level + 1);
                }
                goal @ Formula::Atom(..) if word == "clause" && !rest.is_empty() => {
                    let place = number(rest[0])?;
                    let members: Vec<Member> = program.iter().flat_map(members).collect();
                    let member = members.get(place.checked_sub(1)?)?;
                    if member.prefix.len() != rest.len() - 1 {
                        return None;
                    }
                    let (mut head, mut body) = (member.head.clone(), member.body.clone());
                    for (&variable, field) in member.prefix.iter().zip(&rest[1..]) {
                        let term = self.term(field, level)?;
                        head = replaced(&head, variable, &term);
                        body = body.map(|body| replaced(&body, variable, &term));
                    }
                    if head != goal {
                        return None;
                    }
                    if let Some(body) = body {
                        derive(program, body, level);
                    }
                }
                _ => return None,
            }
        }
        if self.line < self.lines.len() {
            self.line += 1;
            return None;
        }
        Some(())
    }

    fn term(&mut self, field: &str, level: usize) -> Option<Term> {
        let field = field.to_ascii_lowercase();
        let (term, rest) = self.read(&field, level)?;
        (rest.is_empty() && print(&term) == field).then_some(term)
    }

    fn read<'b>(&mut self, text: &'b str, level: usize) -> Option<(Term, &'b str)> {
        let end = text.find(['(', ')', ',']).unwrap_or(text.len());
        let (name, mut rest) = text.split_at(end);
        if let Some(kind) = name.chars().next().filter(|kind| "_!".contains(*kind)) {
            let (digits, own_level) = name[1..].split_once('@')?;
            let (number, own_level) = (number(digits)?, number(own_level)?);
            let seen = if kind == '!' {
                &mut self.constants
            } else {
                &mut self.variables
            };
            if !seen.iter().any(|seen| seen == name) {
                if number != seen.len() {
                    return None;
                }
                seen.push(name.to_string());
            }
            if own_level > level {
                return None;
            }
            return Some((Term::Applied(name.to_string(), Vec::new()), rest));
        }
        let arity = match number(name) {
            Some(_) => 0,
            None => *self.judge.functions.get(name)?,
        };
        let mut arguments = Vec::new();
        while arguments.len() < arity {
            let (argument, after) = self.read(rest.get(1..)?, level)?;
            arguments.push(argument);
            rest = after;
        }
        if arity > 0 {
            rest = rest.get(1..)?;
        }
        Some((Term::Applied(name.to_string(), arguments), rest))
    }
}

fn number(field: &str) -> Option<usize> {
    let number: usize = field.parse().ok()?;
    (number.to_string() == field && number <= 65_535).then_some(number)
}

fn print(term: &Term) -> String {
    match term {
        Term::Variable(_) => panic!("a term of a text has no variable of the sheet"),
        Term::Applied(name, arguments) if arguments.is_empty() => name.clone(),
        Term::Applied(name, arguments) => {
            let arguments: Vec<String> = arguments.iter().map(print).collect();
            format!("{name}({})", arguments.join(","))
        }
    }
}

fn stands_in(term: &Term, variable: u8) -> bool {
    match term {
        Term::Variable(other) => *other == variable,
        Term::Applied(_, arguments) => arguments.iter().any(|term| stands_in(term, variable)),
    }
}

pub(super) fn free(formula: &Formula, variable: u8) -> bool {
    match formula {
        Formula::Atom(_, arguments) => arguments.iter().any(|term| stands_in(term, variable)),
        Formula::True => false,
        Formula::And(left, right) | Formula::Or(left, right) | Formula::Implies(left, right) => {
            free(left, variable) || free(right, variable)
        }
        Formula::Some(bound, part) | Formula::Every(bound, part) => *bound != variable && free(part, variable),
    }
}

fn replaced_in(term: &Term, variable: u8, by: &Term) -> Term {
    match term {
        Term::Variable(other) if *other == variable => by.clone(),
        Term::Variable(_) => term.clone(),
        Term::Applied(name, arguments) => Term::Applied(
            name.clone(),
            arguments.iter().map(|term| replaced_in(term, variable, by)).collect(),
        ),
    }
}

/// The formula with a closed term for a free variable.
pub(super) fn replaced(formula: &Formula, variable: u8, by: &Term) -> Formula {
    let part = |formula: &Formula| Box::new(replaced(formula, variable, by));
    match formula {
        Formula::Atom(name, arguments) => Formula::Atom(
            name.clone(),
            arguments.iter().map(|term| replaced_in(term, variable, by)).collect(),
        ),
        Formula::True => Formula::True,
        Formula::And(left, right) => Formula::And(part(left), part(right)),
        Formula::Or(left, right) => Formula::Or(part(left), part(right)),
        Formula::Implies(left, right) => Formula::Implies(part(left), part(right)),
        Formula::Some(bound, _) | Formula::Every(bound, _) if *bound == variable => formula.clone(),
        Formula::Some(bound, inner) => Formula::Some(*bound, part(inner)),
        Formula::Every(bound, inner) => Formula::Every(*bound, part(inner)),
    }
}

pub(super) struct Member {
    pub(super) prefix: Vec<u8>,
    pub(super) head: Formula,
    pub(super) body: Option<Formula>,
}

pub(super) fn members(clause: &Formula) -> Vec<Member> {
    match clause {
        Formula::Atom(..) => vec![Member {
            prefix: Vec::new(),
            head: clause.clone(),
            body: None,
        }],
        Formula::Implies(body, head) => vec![Member {
            prefix: Vec::new(),
            head: (**head).clone(),
            body: Some((**body).clone()),
        }],
        Formula::And(left, right) => members(left).into_iter().chain(members(right)).collect(),
        Formula::Every(variable, part) => {
            let mut members = members(part);
            for member in &mut members {
                let free =
                    free(&member.head, *variable) || member.body.as_ref().is_some_and(|body| free(body, *variable));
                if free && !member.prefix.contains(variable) {
                    member.prefix.insert(0, *variable);
                }
            }
            members
        }
        _ => panic!("a clause"),
    }
}
