//! A sheet as a program for ELPI (λProlog) or SWI-Prolog, with a goal that is solved so many times.

use std::fmt::Write;
use std::rc::Rc;

use reference::formula::{Member, Node, Shape};
use reference::sheet::{self, Sheet};

/// The program for ELPI: `elpi -no-tc -test FILE` prints the outcome, then solves the goal so many times more.
pub fn elpi(sheet: &[u8], times: u32) -> String {
    let sheet = &sheet::read(sheet).expect("a sheet");
    let lambda = Lambda { sheet };
    let mut program = String::new();
    for member in sheet.program.iter() {
        let _ = writeln!(program, "{}.", lambda.member(member));
    }
    let goal = lambda.goal(&sheet.goal);
    let _ = write!(
        program,
        "goal :- {goal}.\n\
         outcome proved :- goal, !.\n\
         outcome no.\n\
         often 0 :- !.\n\
         often N :- not (not (outcome _)), M is N - 1, often M.\n\
         main :- outcome R, print R, often {times}.\n"
    );
    program
}

/// The program for SWI-Prolog, with the occurs check; none where the sheet supposes something or has "every" in a goal, which
/// Prolog has not. `swipl FILE` prints the outcome, then solves the goal so many times more.
pub fn prolog(sheet: &[u8], times: u32) -> Option<String> {
    let sheet = &sheet::read(sheet).expect("a sheet");
    let mut prolog = Prolog { sheet, bound: 0 };
    let mut program = String::from(
        ":- set_prolog_flag(occurs_check, true).\n:- style_check(-singleton).\n:- style_check(-discontiguous).\n",
    );
    for member in sheet.program.iter() {
        let names = member.prefix.iter().map(|&v| (v, format!("X{v}"))).collect::<Vec<_>>();
        let head = prolog.goal(&member.head, &names)?;
        match &member.body {
            None => writeln!(program, "{head}."),
            Some(body) => writeln!(program, "{head} :- {}.", prolog.goal(body, &names)?),
        }
        .ok()?;
    }
    let names = (0..8).map(|v| (v, format!("X{v}"))).collect::<Vec<_>>();
    let goal = prolog.goal(&sheet.goal, &names)?;
    write!(
        program,
        "goal :- {goal}.\n\
         outcome(proved) :- goal, !.\n\
         outcome(no).\n\
         often(0) :- !.\n\
         often(N) :- \\+ \\+ outcome(_), M is N - 1, often(M).\n\
         :- outcome(R), print(R), nl, often({times}), halt.\n"
    )
    .ok()?;
    Some(program)
}

/// The name of a symbol, apart from the words of both languages.
fn symbol(sheet: &Sheet, number: usize) -> String {
    let name = String::from_utf8_lossy(&sheet.symbols[number].name).to_lowercase();
    format!("{}_{name}", if sheet.symbols[number].predicate { 'p' } else { 'f' })
}

struct Lambda<'a> {
    sheet: &'a Sheet,
}

impl Lambda<'_> {
    fn applied(&self, number: usize, arguments: &[Rc<Node>]) -> String {
        let arguments: String = arguments.iter().map(|term| format!(" {}", self.term(term))).collect();
        format!("({}{arguments})", symbol(self.sheet, number))
    }

    fn term(&self, node: &Node) -> String {
        match &node.shape {
            Shape::Variable(variable) => format!("X{variable}"),
            Shape::Number(number) => format!("number_{number}"),
            Shape::Application(number, arguments) => self.applied(*number, arguments),
            _ => unreachable!("a term"),
        }
    }

    fn goal(&self, node: &Node) -> String {
        match &node.shape {
            Shape::Atom(number, arguments) => self.applied(*number, arguments),
            Shape::True => "true".to_string(),
            Shape::And(left, right) => format!("({}, {})", self.goal(left), self.goal(right)),
            Shape::Or(left, right) => format!("({} ; {})", self.goal(left), self.goal(right)),
            Shape::Implies(clause, goal) => format!("({} => {})", self.clause(clause), self.goal(goal)),
            Shape::Some(variable, part) => format!("(sigma X{variable}\\ {})", self.goal(part)),
            Shape::Every(variable, part) => format!("(pi X{variable}\\ {})", self.goal(part)),
            _ => unreachable!("a goal"),
        }
    }

    fn member(&self, member: &Member) -> String {
        let head = self.goal(&member.head);
        match &member.body {
            None => head,
            Some(body) => format!("{head} :- {}", self.goal(body)),
        }
    }

    /// A clause that is supposed: its members, each with its prefix.
    fn clause(&self, node: &Node) -> String {
        let members = self.sheet.members[node.number].iter().map(|member| {
            let prefix: String = member
                .prefix
                .iter()
                .map(|variable| format!("pi X{variable}\\ "))
                .collect();
            format!("({prefix}{})", self.member(member))
        });
        format!("({})", members.collect::<Vec<_>>().join(", "))
    }
}

/// What each variable of the sheet is called; the last one counts.
type Names = [(u8, String)];

struct Prolog<'a> {
    sheet: &'a Sheet,
    /// How many variables "some" has bound.
    bound: usize,
}

impl Prolog<'_> {
    fn applied(&self, number: usize, arguments: &[Rc<Node>], names: &Names) -> String {
        let arguments: Vec<String> = arguments.iter().map(|term| self.term(term, names)).collect();
        match arguments.is_empty() {
            true => symbol(self.sheet, number),
            false => format!("{}({})", symbol(self.sheet, number), arguments.join(", ")),
        }
    }

    fn term(&self, node: &Node, names: &Names) -> String {
        match &node.shape {
            Shape::Variable(variable) => {
                let last = names.iter().rev().find(|(other, _)| other == variable);
                last.map_or_else(|| "_".to_string(), |(_, name)| name.clone())
            }
            Shape::Number(number) => number.to_string(),
            Shape::Application(number, arguments) => self.applied(*number, arguments, names),
            _ => unreachable!("a term"),
        }
    }

    fn goal(&mut self, node: &Node, names: &Names) -> Option<String> {
        Some(match &node.shape {
            Shape::Atom(number, arguments) => self.applied(*number, arguments, names),
            Shape::True => "true".to_string(),
            Shape::And(left, right) => format!("({}, {})", self.goal(left, names)?, self.goal(right, names)?),
            Shape::Or(left, right) => format!("({} ; {})", self.goal(left, names)?, self.goal(right, names)?),
            Shape::Some(variable, part) => {
                self.bound += 1;
                let mut inner = names.to_vec();
                inner.push((*variable, format!("Y{}", self.bound)));
                self.goal(part, &inner)?
            }
            _ => return None,
        })
    }
}
