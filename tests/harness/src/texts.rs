//! Texts that are hard to check, as long as wanted: the checker's worst cases.

use calls::generate::builder::Builder;

/// A sheet and a text for it that is valid.
pub struct Hard {
    pub name: &'static str,
    pub sheet: Vec<u8>,
    pub text: Vec<u8>,
}

/// The worst cases, each with a text of nearly so many bytes.
pub fn hard_texts(bytes: usize) -> Vec<Hard> {
    vec![
        deep_term(bytes),
        one_long_line(bytes),
        many_names(bytes),
        many_numbers(bytes),
        late_showings(bytes),
        late_showings_on_lines(bytes),
        many_assumptions(bytes),
        far_assumptions(bytes),
        oldest_assumption(bytes),
        latest_assumption(bytes),
        long_instances(bytes),
        levels(bytes),
    ]
}

fn lines(short: &str) -> Vec<u8> {
    let lines: Vec<String> = short
        .split(';')
        .map(|line| line.trim().replace(' ', "\t") + "\n")
        .collect();
    lines.concat().into_bytes()
}

/// Some v true, with a witness.
fn witness(name: &'static str, sheet: &str, term: &str) -> Hard {
    Hard {
        name,
        sheet: lines(&format!("{sheet}; Y; E 0 0; Q 1")),
        text: lines(&format!("R proved 2; D some {term}; D true")),
    }
}

const AROUND_WITNESS: usize = 40;

fn deep_term(bytes: usize) -> Hard {
    let depth = (bytes - AROUND_WITNESS) / 3;
    let term = format!("{}a{}", "s(".repeat(depth), ")".repeat(depth));
    witness("a deep term", "F s 1; F a 0", &term)
}

/// A list as one term: `g(e,g(e,...a))`, of elements given by their places.
fn list(elements: impl Iterator<Item = String>) -> String {
    let mut term = String::new();
    let mut closing = 0;
    for element in elements {
        term.push_str(&format!("g({element},"));
        closing += 1;
    }
    format!("{term}a{}", ")".repeat(closing))
}

fn one_long_line(bytes: usize) -> Hard {
    // f(t,t,t,t) four times as long as t, down to single constants.
    let mut term = String::from("a");
    while 4 * term.len() + 6 + AROUND_WITNESS <= bytes {
        term = format!("f({term},{term},{term},{term})");
    }
    let count = (bytes - AROUND_WITNESS) / (term.len() + 4);
    witness(
        "one long line",
        "F g 2; F a 0; F f 4",
        &list((0..count).map(|_| term.clone())),
    )
}

/// 250 names that differ in their last bytes, each written as often as there is room.
fn many_names(bytes: usize) -> Hard {
    let names: Vec<String> = (0..250).map(|name| format!("name_of_len_x{name:03}")).collect();
    let declared: String = names.iter().map(|name| format!("; F {name} 0")).collect();
    let count = (bytes - AROUND_WITNESS) / (names[0].len() + 4);
    let elements = (0..count).map(|place| names[249 - place % 250].clone());
    witness(
        "250 distinct names",
        &format!("F g 2; F a 0{declared}"),
        &list(elements),
    )
}

/// Numbers of five digits, hardly one of them twice.
fn many_numbers(bytes: usize) -> Hard {
    let count = (bytes - AROUND_WITNESS) / ("65535".len() + 4);
    let elements = (0..count).map(|place| (10_000 + 7 * place % 55_536).to_string());
    witness("thousands of numbers", "F g 2; F a 0", &list(elements))
}

/// Half of the text shows new leftover variables, the other half the last of them again.
fn late_showings(bytes: usize) -> Hard {
    let count = (bytes - AROUND_WITNESS) / 11;
    let last = count / 2;
    let elements = (0..count).map(|place| format!("_{}@0", place.min(last)));
    witness("late showings, one line", "F g 2; F a 0", &list(elements))
}

/// The slowest text that is known: names full of `_`, then a leftover variable again and again. Its first showing is looked for from the
/// start of the text.
pub fn showings_after_names(bytes: usize) -> Hard {
    let name = format!("a{}", "_".repeat(15));
    let half = (bytes - AROUND_WITNESS) / 2;
    let names = (0..half / (name.len() + 4)).map(|_| name.clone());
    let showings = (0..half / 8).map(|_| "_0@0".to_string());
    witness(
        "late showings after names full of `_`",
        &format!("F g 2; F a 0; F {name} 0"),
        &list(names.chain(showings)),
    )
}

/// The same with a line for each: 2^n goals "some v true".
fn late_showings_on_lines(bytes: usize) -> Hard {
    // An "and", a "some" and a "true" for each leaf.
    let leaves = (bytes / (6 + 15 + 7)).max(2);
    let doublings = leaves.ilog2();
    let mut goal = 1;
    let mut sheet = String::from("Y; E 0 0");
    for node in 1..=doublings {
        sheet.push_str(&format!("; & {node} {node}"));
        goal = node + 1;
    }
    let last = (1usize << doublings) / 2;
    let mut text = String::from("R proved 1");
    for leaf in 0..1usize << doublings {
        let begun = if leaf == 0 { doublings } else { leaf.trailing_zeros() };
        text.push_str(&"; D and".repeat(begun as usize));
        text.push_str(&format!("; D some _{}@0; D true", leaf.min(last)));
    }
    Hard {
        name: "late showings, many lines",
        sheet: lines(&format!("{sheet}; Q {goal}")),
        text: lines(&text),
    }
}

/// p if (q implies p), so often used, assumptions first (W-207): each line looks past all of them.
fn many_assumptions(bytes: usize) -> Hard {
    let rounds = (bytes - 60) / 24;
    let mut text = String::from("R proved 1");
    for round in 0..rounds {
        text.push_str(&format!("; D clause {}; D assume", round + 1));
    }
    Hard {
        name: "thousands of assumptions",
        sheet: lines("O latest; P p 0; P q 0; A 0; A 1; > 1 0; > 2 0; C 3; C 0; Q 0"),
        text: lines(&format!("{text}; D clause {}", rounds + 2)),
    }
}

/// Half of the text makes assumptions, the other half uses p if p, which stands behind all of them (W-207).
fn far_assumptions(bytes: usize) -> Hard {
    let rounds = bytes / 2 / 24;
    let mut text = String::from("R proved 1");
    for round in 0..rounds {
        text.push_str(&format!("; D clause {}; D assume", round + 1));
    }
    let again = format!("; D clause {}", rounds + 2);
    let repeated = (bytes - text.len() - 60) / (again.len() - 1);
    text.push_str(&again.repeat(repeated));
    Hard {
        name: "assumptions looked past",
        sheet: lines("O latest; P p 0; P q 0; A 0; A 1; > 1 0; > 2 0; C 3; > 0 0; C 4; C 0; Q 0"),
        text: lines(&format!("{text}; D clause {}", rounds + 3)),
    }
}

/// In the default order: p if p, and p, are assumed; then half of the text makes assumptions, and the other half uses the
/// oldest of all.
fn oldest_assumption(bytes: usize) -> Hard {
    let rounds = bytes / 2 / 20;
    let text = "R proved 1; D assume".to_string() + &"; D clause 1; D assume".repeat(rounds);
    let again = "; D clause 2";
    let repeated = (bytes - text.len() - 60) / (again.len() - 1);
    Hard {
        name: "the oldest of thousands of assumptions",
        sheet: lines("P p 0; P q 0; A 0; A 1; > 1 0; > 2 0; C 3; > 0 0; & 4 0; > 5 0; Q 6"),
        text: lines(&format!("{text}{}; D clause 3", again.repeat(repeated))),
    }
}

/// In the default order: half of the text makes assumptions, then p if p, and p, are assumed, and the other half uses the
/// latest of all.
fn latest_assumption(bytes: usize) -> Hard {
    let rounds = bytes / 2 / 20;
    let text = "R proved 1".to_string() + &"; D clause 1; D assume".repeat(rounds) + "; D clause 2; D assume";
    let again = format!("; D clause {}", rounds + 3);
    let repeated = (bytes - text.len() - 60) / (again.len() - 1);
    Hard {
        name: "the latest of thousands of assumptions",
        sheet: lines("P p 0; P q 0; A 0; A 1; > 1 0; > 2 0; C 3; > 0 0; & 4 0; > 5 0; > 6 0; C 7; Q 0"),
        text: lines(&format!("{text}{}; D clause {}", again.repeat(repeated), rounds + 4)),
    }
}

/// Some x, some y: (p(G[h(y)],..) if p(G[x],..)) and p(G[x],..) imply p(G[x],..), G[t] being a tree of 341 times t. The
/// text spells h(t) for x and t for y, and each line `D clause 1` compares 1,364 pairs of them.
fn long_instances(bytes: usize) -> Hard {
    let mut b = Builder::new(true);
    // The text's terms are made of s and a.
    b.function("s", 1);
    b.function("a", 0);
    let (h, g) = (b.function("h", 1), b.function("g", 2));
    let p = b.predicate("p", 4);
    let (x, y) = (b.variable(0), b.variable(1));
    let hy = b.apply(h, &[y]);
    let trees = [x, hy].map(|leaf| {
        // 341 leaves: a full tree of 256, one of 64, of 16, of 4, and a leaf.
        let mut full = vec![leaf];
        for level in 0..8 {
            full.push(b.apply(g, &[full[level], full[level]]));
        }
        [2, 4, 6, 8]
            .iter()
            .fold(leaf, |tree, &level| b.apply(g, &[full[level], tree]))
    });
    let [goal, head] = trees.map(|tree| b.apply(p, &[tree, tree, tree, tree]));
    let again = b.implies(goal, head);
    let assumed = b.and(again, goal);
    let whole = b.implies(assumed, goal);
    let whole = b.some(1, whole);
    let whole = b.some(0, whole);
    // A quarter of the text for each of the two terms, the rest for lines: so their product is largest.
    let depth = bytes / 4 / 3;
    let term = format!("{}a{}", "s(".repeat(depth), ")".repeat(depth));
    let mut text = format!("R proved 1; D some h({term}); D some {term}; D assume");
    let line = "; D clause 1";
    text.push_str(&line.repeat((bytes - text.len() - 60) / (line.len() - 1)));
    Hard {
        name: "long instances of large terms",
        sheet: b.goal(whole),
        text: lines(&format!("{text}; D clause 2")),
    }
}

/// p if every v p, so often used: levels and constants as many as there is room for.
fn levels(bytes: usize) -> Hard {
    let rounds = (bytes - 60) / (11 + 6 + 12);
    let mut text = String::from("R proved 1");
    for round in 0..rounds {
        text.push_str(&format!("; D clause 1; D all !{round}@{}", round + 1));
    }
    Hard {
        name: "thousands of levels",
        sheet: lines("P p 0; A 0; U 0 0; > 1 0; C 2; C 0; Q 0"),
        text: lines(&format!("{text}; D clause 2")),
    }
}

/// Some v true with a witness of the greatest depth that so many bytes hold.
pub fn nested_witness(bytes: usize) -> Hard {
    deep_term(bytes + AROUND_WITNESS - "R\tproved\t2\nD\tsome\ta\nD\ttrue\n".len())
}

pub fn deepest_witness() -> Hard {
    nested_witness(65_535)
}

/// The same without any closing bracket, so that a reader goes deeper still before it breaks at line 2.
pub fn unclosed_witness() -> Hard {
    let around = "R\tproved\t2\nD\tsome\t\n".len();
    let hard = witness("", "F s 1; F a 0", "");
    Hard {
        text: lines(&format!("R proved 2; D some {}", "s(".repeat((65_535 - around) / 2))),
        ..hard
    }
}

/// Two deep terms that must be compared: p(v) with v free, from every z p(z).
pub fn deep_comparison() -> Hard {
    let depth = 10_900;
    let term = format!("{}a{}", "s(".repeat(depth), ")".repeat(depth));
    Hard {
        name: "two deep terms",
        sheet: lines("P p 1; F s 1; F a 0; V 0; A 0 0; U 0 1; C 2; Q 1"),
        text: lines(&format!("R proved 4; B 0 {term}; D clause 1 {term}")),
    }
}
