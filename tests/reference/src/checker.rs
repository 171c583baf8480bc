//! Document 01, "Derivations" and "The answer text", second paragraph: the checker of answer texts.
//!
//! It accepts a text exactly if it spells a derivation of an instance of the sheet's goal; otherwise it names the first
//! line that breaks a rule or a form, given the lines before it.

use std::collections::HashMap;
use std::rc::Rc;

use crate::field::{fields, is_name_byte, lines, number, same_name, Line};
use crate::formula::{Member, Node, Shape};
use crate::limits::LARGEST_BUDGET;
use crate::list::List;
use crate::program;
use crate::sheet::Sheet;
use crate::term::Environment;

/// Says "valid", or the first line that breaks.
pub fn check(sheet: &Sheet, text: &[u8]) -> Result<(), u32> {
    let mut checker = Checker {
        sheet,
        lines: lines(text),
        read: 0,
        terms: Terms::new(),
        variables: Numbering::new(),
        constants: Numbering::new(),
    };
    // What a line leaves to be done is judged by the lines after it, so what breaks is always the line read last.
    checker.text().ok_or(checker.read as u32)
}

/// A term of the text. Equal terms have equal numbers, so comparing never unfolds them.
type TermId = usize;

/// The symbols of derivations: a sheet's function symbols, numbers, made constants, leftover variables.
#[derive(Clone, PartialEq, Eq, Hash)]
enum Spelled {
    Application(usize, Vec<TermId>),
    /// Any number, whether or not the sheet has it (W-204).
    Number(u32),
    /// A made constant (eigenvariable): number and level.
    Constant(u32, u32),
    /// A leftover variable (a logic variable that the search left unbound; here a constant): number and level.
    Variable(u32, u32),
}

/// What is compared of two terms before their arguments. A number has none.
#[derive(PartialEq, Eq)]
enum Head {
    Function(usize),
    Number(u32),
}

/// The terms of a text, each kept once, with the highest level of its symbols.
struct Terms {
    ids: HashMap<Spelled, TermId>,
    spelled: Vec<Spelled>,
    levels: Vec<u32>,
}

impl Terms {
    fn new() -> Terms {
        Terms {
            ids: HashMap::new(),
            spelled: Vec::new(),
            levels: Vec::new(),
        }
    }

    fn id(&mut self, term: Spelled) -> TermId {
        if let Some(&id) = self.ids.get(&term) {
            return id;
        }
        let level = match &term {
            Spelled::Application(_, arguments) => arguments.iter().map(|&id| self.levels[id]).max().unwrap_or(0),
            Spelled::Number(_) => 0,
            Spelled::Constant(_, level) | Spelled::Variable(_, level) => *level,
        };
        let id = self.spelled.len();
        self.ids.insert(term.clone(), id);
        self.spelled.push(term);
        self.levels.push(level);
        id
    }

    /// Whether two terms are the same. Both sides are sheet terms of bounded size, or terms of the text.
    fn equal(&self, left: Instance, right: Instance) -> bool {
        let mut pairs = vec![(left, right)];
        while let Some((left, right)) = pairs.pop() {
            if let (Instance::Text(left), Instance::Text(right)) = (&left, &right) {
                if left != right {
                    return false;
                }
                continue;
            }
            let (Some((left_head, left)), Some((right_head, right))) = (self.apart(&left), self.apart(&right)) else {
                return false;
            };
            if left_head != right_head {
                return false;
            }
            pairs.extend(left.into_iter().zip(right));
        }
        true
    }

    /// Head and arguments; None for a made constant or leftover variable.
    fn apart(&self, term: &Instance) -> Option<(Head, Vec<Instance>)> {
        match term {
            Instance::Text(id) => match &self.spelled[*id] {
                Spelled::Application(symbol, arguments) => {
                    let arguments = arguments.iter().map(|&id| Instance::Text(id)).collect();
                    Some((Head::Function(*symbol), arguments))
                }
                Spelled::Number(number) => Some((Head::Number(*number), Vec::new())),
                Spelled::Constant(..) | Spelled::Variable(..) => None,
            },
            Instance::Sheet(node, environment) => {
                let head = match node.shape {
                    Shape::Number(number) => Head::Number(number),
                    _ => Head::Function(node.symbol()?),
                };
                let arguments = node.arguments().iter();
                let arguments = arguments.map(|argument| Instance::new(argument, environment)).collect();
                Some((head, arguments))
            }
        }
    }
}

/// A term of a sequent: spelled in the text, or a number or an application on the sheet, with text terms for its
/// variables.
enum Instance {
    Text(TermId),
    Sheet(Rc<Node>, Environment<TermId>),
}

impl Instance {
    fn new(node: &Rc<Node>, environment: &Environment<TermId>) -> Instance {
        match node.shape {
            Shape::Variable(variable) => Instance::Text(environment.get(variable)),
            _ => Instance::Sheet(node.clone(), environment.clone()),
        }
    }
}

/// The levels of the numbers shown so far, for one kind.
struct Numbering(Vec<u32>);

impl Numbering {
    fn new() -> Numbering {
        Numbering(Vec::new())
    }

    /// Whether number and level may stand here: known with this level, or the next number.
    fn shows(&mut self, number: u32, level: u32) -> bool {
        let next = self.0.len() as u32;
        if number == next {
            self.0.push(level);
        }
        number <= next && self.0[number as usize] == level
    }
}

type Clause = program::Clause<TermId>;
type Program = program::Program<TermId>;

/// A sequent: program, goal and level.
#[derive(Clone)]
struct Sequent {
    program: Program,
    goal: Rc<Node>,
    environment: Environment<TermId>,
    level: u32,
}

struct Checker<'a> {
    sheet: &'a Sheet,
    lines: Vec<Line<'a>>,
    /// Lines asked for so far; one past the last if a line is missing.
    read: usize,
    terms: Terms,
    variables: Numbering,
    constants: Numbering,
}

impl<'a> Checker<'a> {
    /// None: the line read last breaks.
    fn text(&mut self) -> Option<()> {
        match self.line()?[..] {
            [b"R", b"proved", units] => number(units).filter(|units| (1..=LARGEST_BUDGET).contains(units))?,
            _ => return None,
        };
        let mut environment = Environment::empty();
        for free in self.sheet.goal.free.ascending() {
            match self.line()?[..] {
                [b"B", v, term] if number(v) == Some(u32::from(free)) => {
                    let term = self.term_up_to(term, 0)?;
                    environment = environment.with(free, term);
                }
                _ => return None,
            }
        }
        let mut open = List::empty().with(Sequent {
            program: Program::of_sheet(self.sheet),
            goal: self.sheet.goal.clone(),
            environment,
            level: 0,
        });
        while let Some((sequent, rest)) = open.split() {
            let (sequent, rest) = (sequent.clone(), rest.clone());
            open = self.step(sequent, rest)?;
        }
        if self.read < self.lines.len() {
            self.read += 1;
            return None;
        }
        Some(())
    }

    /// The fields of the next line; None if it is missing or has no LF.
    fn line(&mut self) -> Option<Vec<&'a [u8]>> {
        self.read += 1;
        let line = self.lines.get(self.read - 1)?;
        line.closed.then(|| fields(line.bytes))
    }

    /// Reads the line for a sequent; the sequents it is derived from then stand in front of `rest`.
    fn step(&mut self, sequent: Sequent, rest: List<Sequent>) -> Option<List<Sequent>> {
        let line = self.line()?;
        let [b"D", word, ref terms @ ..] = line[..] else {
            return None;
        };
        let part = |goal: &Rc<Node>| Sequent {
            goal: goal.clone(),
            ..sequent.clone()
        };
        Some(match (&sequent.goal.shape, word, terms) {
            (Shape::True, b"true", []) => rest,
            (Shape::And(left, right), b"and", []) => rest.with(part(right)).with(part(left)),
            (Shape::Or(left, _), b"left", []) => rest.with(part(left)),
            (Shape::Or(_, right), b"right", []) => rest.with(part(right)),
            (Shape::Some(v, goal), b"some", [term]) => {
                let term = self.term_up_to(term, sequent.level)?;
                rest.with(Sequent {
                    environment: sequent.environment.with(*v, term),
                    ..part(goal)
                })
            }
            (Shape::Every(v, goal), b"all", [constant]) => {
                let constant = self.made_constant(constant, sequent.level + 1)?;
                rest.with(Sequent {
                    environment: sequent.environment.with(*v, constant),
                    level: sequent.level + 1,
                    ..part(goal)
                })
            }
            (Shape::Implies(clause, goal), b"assume", []) => {
                let assumed = Clause {
                    members: self.sheet.members[clause.number].clone(),
                    environment: sequent.environment.clone(),
                };
                rest.with(Sequent {
                    program: sequent.program.with(assumed),
                    ..part(goal)
                })
            }
            (Shape::Atom(..), b"clause", [place, terms @ ..]) => {
                let (clause, member) = member_at(&sequent.program, number(place)?)?;
                if terms.len() != member.prefix.len() {
                    return None;
                }
                let terms = terms
                    .iter()
                    .map(|term| self.term_up_to(term, sequent.level))
                    .collect::<Option<Vec<TermId>>>()?;
                let environment = clause.environment.with_all(&member.prefix, &terms);
                if !self.equal_atoms(&sequent.goal, &sequent.environment, &member.head, &environment) {
                    return None;
                }
                match &member.body {
                    None => rest,
                    Some(body) => rest.with(Sequent {
                        environment,
                        ..part(body)
                    }),
                }
            }
            _ => return None,
        })
    }

    fn equal_atoms(
        &self,
        goal: &Rc<Node>,
        goal_environment: &Environment<TermId>,
        head: &Rc<Node>,
        head_environment: &Environment<TermId>,
    ) -> bool {
        let mut arguments = goal.arguments().iter().zip(head.arguments());
        goal.symbol() == head.symbol()
            && arguments.all(|(left, right)| {
                let left = Instance::new(left, goal_environment);
                self.terms.equal(left, Instance::new(right, head_environment))
            })
    }

    /// "U any made constant of level I + 1"
    fn made_constant(&mut self, field: &[u8], level: u32) -> Option<TermId> {
        let term = self.term(field)?;
        let right = matches!(self.terms.spelled[term], Spelled::Constant(_, made_at) if made_at == level);
        right.then_some(term)
    }

    /// A term "whose symbols have level at most" the given one.
    fn term_up_to(&mut self, field: &[u8], level: u32) -> Option<TermId> {
        let term = self.term(field)?;
        (self.terms.levels[term] <= level).then_some(term)
    }

    /// "A term is written as its name and, in round brackets, its arguments parted by commas, a constant as the bare
    /// name"; W-204: a number is written in base ten.
    fn term(&mut self, field: &[u8]) -> Option<TermId> {
        // Applications whose closing bracket is still to come, with the arguments read.
        let mut open: Vec<(usize, Vec<TermId>)> = Vec::new();
        let mut rest = field;
        loop {
            let mut read = match rest.first()? {
                kind @ (b'_' | b'!') => {
                    let (number, after) = digits(&rest[1..])?;
                    let (level, after) = digits(after.strip_prefix(b"@")?)?;
                    rest = after;
                    self.numbered(*kind == b'!', number, level)?
                }
                b'0'..=b'9' => {
                    let (number, after) = digits(rest)?;
                    rest = after;
                    self.terms.id(Spelled::Number(number))
                }
                _ => {
                    let length = rest.iter().take_while(|&&byte| is_name_byte(byte)).count();
                    let (name, after) = rest.split_at(length);
                    let symbol = self.function(name)?;
                    rest = after;
                    if self.sheet.symbols[symbol].arity > 0 {
                        rest = rest.strip_prefix(b"(")?;
                        open.push((symbol, Vec::new()));
                        continue;
                    }
                    self.terms.id(Spelled::Application(symbol, Vec::new()))
                }
            };
            loop {
                let Some((symbol, mut arguments)) = open.pop() else {
                    return rest.is_empty().then_some(read);
                };
                arguments.push(read);
                if arguments.len() < self.sheet.symbols[symbol].arity {
                    rest = rest.strip_prefix(b",")?;
                    open.push((symbol, arguments));
                    break;
                }
                rest = rest.strip_prefix(b")")?;
                read = self.terms.id(Spelled::Application(symbol, arguments));
            }
        }
    }

    fn numbered(&mut self, constant: bool, number: u32, level: u32) -> Option<TermId> {
        let numbering = if constant {
            &mut self.constants
        } else {
            &mut self.variables
        };
        if !numbering.shows(number, level) {
            return None;
        }
        Some(self.terms.id(if constant {
            Spelled::Constant(number, level)
        } else {
            Spelled::Variable(number, level)
        }))
    }

    /// The function symbol of that name, in any mix of cases (W-201); predicates are no terms.
    fn function(&self, name: &[u8]) -> Option<usize> {
        let mut symbols = self.sheet.symbols.iter();
        symbols.position(|symbol| same_name(&symbol.name, name) && !symbol.predicate)
    }
}

/// A number at the start of the bytes, and what follows it.
fn digits(bytes: &[u8]) -> Option<(u32, &[u8])> {
    let length = bytes.iter().take_while(|byte| byte.is_ascii_digit()).count();
    let (digits, after) = bytes.split_at(length);
    Some((number(digits)?, after))
}

/// The member at a place, counted from 1 in trying order. W-207: "Places in D lines follow the order in force."
fn member_at(program: &Program, place: u32) -> Option<(Clause, Rc<Member>)> {
    let mut left = (place as usize).checked_sub(1)?;
    let mut tried = 0;
    loop {
        let clause = program.clause(tried)?;
        if let Some(member) = clause.members.get(left) {
            return Some((clause.clone(), member.clone()));
        }
        left -= clause.members.len();
        tried += 1;
    }
}
