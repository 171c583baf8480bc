//! Document 01, "Turned back": each refusal, its line, the order of the checks, and the lent buffers.

mod common;

use common::{lines, members, outcome, refused, unclosed};
use reference::{answer, check_text, engine_run, runner, Outcome, Refusal, Run, Verdict};

/// Sheets in short form with refusal number and line; number 0 if a sheet is not refused.
const SHEETS: &[(&str, u32, u32)] = &[
    // 6: the largest number is of the right form, and names nothing.
    ("Q 65535", 8, 1),
    ("C 65535", 8, 1),
    ("A 65535", 8, 1),
    ("E 0 65535", 8, 1),
    // 6: arities and variables.
    ("F a 4", 11, 2),
    ("F a 5", 6, 1),
    ("P a 5", 6, 1),
    ("F a 65535", 6, 1),
    ("V 7", 11, 2),
    ("V 8", 6, 1),
    ("Y; E 7 0", 11, 3),
    ("Y; E 8 0", 6, 2),
    ("Y; U 8 0", 6, 2),
    // 6: five nodes, whatever they are, and also where the sheet has no room. Four are of the right form, and unknown.
    ("F a 0; A 0; A 0 0 0 0 0 0", 6, 3),
    ("A 9 9 9 9 9 9", 6, 1),
    ("A 0 0 0 0 0 x", 6, 1),
    ("NODES; A 9 0 0 0 0 0", 6, 1_025),
    ("A 9 9 9 9 9", 8, 1),
    // 7: symbols.
    ("SYMBOLS; Y; Q 0", 0, 0),
    ("SYMBOLS; F b 0", 7, 257),
    ("SYMBOLS; P b 0", 7, 257),
    ("SYMBOLS; F a0 0", 7, 257),
    ("SYMBOLS; F a0 5", 6, 257),
    // 7: nodes. F and C lines make none.
    ("NODES; Q 1023", 0, 0),
    ("NODES; Q 1024", 8, 1_025),
    ("P p 0; A 0; NODES_BUT_1; F f 0; C 0; Q 0", 0, 0),
    // 7: clauses.
    ("P p 0; A 0; CLAUSES; Q 0", 0, 0),
    ("P p 0; A 0; CLAUSES; C 0", 7, 131),
    ("P p 0; A 0; CLAUSES; C 9", 7, 131),
    ("P p 0; A 0; Y; CLAUSES; C 1", 7, 132),
    // 8: a symbol or node that is not there, or a name declared again.
    ("A 0", 8, 1),
    ("P p 1; A 0 0", 8, 2),
    ("P p 1; A 0 1; V 0", 8, 2),
    ("Y; & 0 1", 8, 2),
    ("Y; & 1 0", 8, 2),
    ("Y; | 0 1", 8, 2),
    ("Y; > 1 0", 8, 2),
    ("Y; E 0 1", 8, 2),
    ("Y; U 0 1", 8, 2),
    ("C 0", 8, 1),
    ("Q 0", 8, 1),
    ("F a 0; F a 0", 8, 2),
    ("P p 0; F p 1", 8, 2),
    ("F p 1; P p 0", 8, 2),
    // 8 comes before a wrong arity.
    ("P p 2; A 0 7", 8, 2),
    ("F a 0; A 0 5", 8, 2),
    // 9: arities, and arguments that are no terms.
    ("P p 1; A 0", 9, 2),
    ("P p 0; V 0; A 0 0", 9, 3),
    ("F f 2; V 0; A 0 0", 9, 3),
    ("F f 1; Y; A 0 0", 9, 3),
    ("P p 1; Y; A 0 0", 9, 3),
    ("P p 1; P q 0; A 1; A 0 0", 9, 4),
    ("F f 1; P q 0; A 1; A 0 0", 9, 4),
    // 9: terms of 1,024 variables and symbols, of 1,025, and of twice as many.
    ("TERM; A 1 9; Y; Q 11", 0, 0),
    ("TERM; A 1 9; A 2 10 10 10 10; E 0 11; Q 12", 0, 0),
    ("TERM; A 1 9; A 1 10; Y; Q 12", 9, 15),
    ("TERM; A 0 9 9", 9, 14),
    ("TERM; A 0 9 0", 9, 14),
    // 9: Y implies p is a clause; it is no goal, as Y is no clause.
    ("KINDS; Q 3", 9, 6),
    ("KINDS; C 3; Q 1", 0, 0),
    ("KINDS; C 2", 9, 6),
    ("KINDS; C 0", 9, 6),
    ("KINDS; Q 0", 9, 6),
    // 9: a clause's > goes to an atom itself.
    ("KINDS; U 0 1; > 2 4", 9, 7),
    ("KINDS; & 1 1; > 2 4", 9, 7),
    ("KINDS; U 0 1; > 1 4; C 5", 9, 8),
    // 9: a node is refused whether used or not, before a later line that is malformed.
    ("KINDS; & 0 0; x", 9, 6),
    // 9: 64 members and 65. A goal of 65 stays a goal and may be a body, but is no assumption: that > is a clause alone.
    ("MEMBERS; C 63; Q 0", 0, 0),
    ("MEMBERS; & 63 0; C 64; Q 0", 9, 67),
    ("MEMBERS; & 63 0; Q 64", 0, 0),
    ("MEMBERS; & 63 0; > 64 0; C 65; Q 0", 0, 0),
    ("MEMBERS; & 63 0; > 64 0; Q 65", 9, 68),
    // 9: Y implies p is no goal, so 65 of them are refused where they come together.
    ("RULES; C 65; Q 0", 0, 0),
    ("RULES; & 65 2; C 66; Q 0", 9, 68),
    // 9: shared nodes count as often as they stand.
    ("DOUBLED; C 6; Q 0", 0, 0),
    ("DOUBLED; & 6 6; C 7; Q 0", 9, 10),
    ("DOUBLED; & 6 0; C 7; Q 0", 9, 10),
    // 10, also where a variable is bound in one place and free in another.
    ("P p 1; V 3; A 0 0; C 1", 10, 4),
    ("P p 1; V 3; A 0 0; U 3 1; C 2; Q 1", 0, 0),
    ("P p 1; V 3; A 0 0; U 2 1; C 2", 10, 5),
    ("P p 1; P q 0; V 3; A 0 0; A 1; > 1 2; C 3", 10, 7),
    ("P p 1; P q 0; V 3; A 0 0; A 1; E 3 1; > 3 2; C 4; Q 2", 0, 0),
    ("P p 1; V 3; A 0 0; U 3 1; & 2 1; C 3", 10, 6),
    // The wrong kind comes before 10.
    ("P p 1; V 3; A 0 0; E 3 1; | 2 1; C 3", 9, 6),
    ("V 3; C 0", 9, 2),
    // An assumption may have free variables.
    ("P p 1; V 3; A 0 0; > 1 1; E 3 2; Q 3", 0, 0),
    ("P p 1; V 3; A 0 0; > 1 1; Q 2", 0, 0),
    // 11: no Q line.
    ("Y", 11, 2),
    ("P p 0; A 0; C 0", 11, 4),
    // A Q line that is itself refused wins over what follows it.
    ("Y; Q 1; Y", 8, 2),
    ("V 0; Q 0; Y", 9, 2),
    ("Y; Q; Y", 6, 2),
    // Earlier lines win.
    ("V 0; C 0; x", 9, 2),
    ("x; V 0; C 0", 6, 1),
    ("P p 1; V 3; A 0 0; C 1; P p 1", 10, 4),
    ("F a 0; F a 0; x", 8, 2),
];

/// The same for several sheets at once: each of the parts, between commas, stands for #.
const PARTS: &[(&str, &str, u32, u32)] = &[
    // 6: letters and field counts.
    ("Y; #", ",x,y,YY,Y Y,n 1,O latest,R proved 3,f a 0,#", 6, 2),
    ("Y; #", "F,F a,F a 0 0,P a,V,V 0 0,N,N 1 2,A", 6, 2),
    ("Y; #", "&,& 0,& 0 0 0,| 0,| 0 0 0,> 0,> 0 0 0", 6, 2),
    ("Y; #", "E 0,E 0 0 0,U 0,U 0 0 0,C,C 0 0,Q,Q 0 0", 6, 2),
    // 6: names.
    ("F # 0", "a,z,a_,a0,a9z_,abcdefghijklmnop", 11, 2),
    // 7: lines of a node.
    (
        "NODES; #",
        "Y,V 0,N 0,N 65535,A 9,& 2000 0,| 0 0,> 0 0,E 0 0,U 0 0",
        7,
        1_025,
    ),
    // 9: lines that are neither goal nor clause.
    ("KINDS; #", "& 0 0,& 0 1,& 1 0,& 2 3,& 3 2", 9, 6),
    ("KINDS; #", "| 0 1,| 1 0,| 3 1,| 1 3", 9, 6),
    ("KINDS; #", "> 0 1,> 1 0,> 2 2,> 3 3,> 2 3,E 0 0,U 0 0,E 0 3", 9, 6),
    // 9: goals that are clauses too, goals only, clauses only.
    ("KINDS; #; Q 4", "& 1 1,> 1 1,U 0 1", 0, 0),
    ("KINDS; #; C 4; Q 1", "& 1 1,> 1 1,U 0 1", 0, 0),
    ("KINDS; #; Q 4", "& 1 2,| 1 1,> 1 2,> 3 1,> 3 2,E 0 1,E 0 2,U 0 2", 0, 0),
    ("KINDS; #; C 4", "& 1 2,| 1 1,> 1 2,> 3 1,> 3 2,E 0 1,E 0 2,U 0 2", 9, 7),
    ("KINDS; #; C 4; Q 1", "> 2 1,& 3 1,& 1 3,& 3 3,U 0 3", 0, 0),
    ("KINDS; #; Q 4", "> 2 1,& 3 1,& 1 3,& 3 3,U 0 3", 9, 7),
    // 11: lines after the Q line.
    ("Y; Q 0; #", "Y,Q 0,x,,Q 9,C 0,V 8", 11, 3),
];

/// The same for sheets in short form that have no closing LF.
const UNCLOSED: &[(&str, u32, u32)] = &[
    ("x", 6, 1),
    ("Y", 6, 1),
    ("P p 0; A 0; Q 0", 6, 3),
    ("P p 0; A 0; C 9", 6, 3),
    ("NODES; Y", 6, 1_025),
];

/// The same for sheets byte by byte.
const BYTES: &[(&[u8], u32, u32)] = &[
    // 6: what is no letter, and fields that are not parted by one tab.
    (b"Y\r\n", 6, 1),
    (b"Y\t\n", 6, 1),
    (b"\tY\n", 6, 1),
    (b"Y \n", 6, 1),
    (b" Y\n", 6, 1),
    (b"\xef\xbb\xbfY\n", 6, 1),
    (b"\0\n", 6, 1),
    (b"V\t\t0\n", 6, 1),
    (b"V 0\n", 6, 1),
    (b"Q\t0\t\n", 6, 1),
    (b"\n", 6, 1),
    (b"\xff\n", 6, 1),
    (b"\t", 6, 1),
    // 11: no line at all, and bytes after the Q line.
    (b"", 11, 1),
    (b"Y\nQ\t0\nx", 11, 3),
    (b"Y\nQ\t0\n\n", 11, 3),
    (b"Y\nQ\t0\n\r", 11, 3),
    (b"Y\nQ\t0\n\t", 11, 3),
    (b"Y\nQ\t0\n\0", 11, 3),
    (b"Y\nQ\t0\nQ\t0", 11, 3),
];

/// One node of each kind: 0 a term, 1 an atom, 2 a goal only, 3 a clause only.
const KINDS: &str = "P p 0; V 0; A 0; Y; > 2 1";

/// Node n holds 2^(n+1) - 1 variables and symbols; node 9 holds 1,023.
const TERM: &str =
    "F g 2; F s 1; P p 4; V 0; A 0 0 0; A 0 1 1; A 0 2 2; A 0 3 3; A 0 4 4; A 0 5 5; A 0 6 6; A 0 7 7; A 0 8 8";

/// Node n has 2^n members.
const DOUBLED: &str = "P p 0; A 0; & 0 0; & 1 1; & 2 2; & 3 3; & 4 4; & 5 5";

/// The sheet with its words replaced by the lines that they stand for.
fn whole(short: &str) -> String {
    let symbols: Vec<String> = (0..256).map(|number| format!("F a{number} 0")).collect();
    // Node 2 is Y implies p, node 65 is 64 of them.
    let rules: String = (2..65).map(|node| format!("; & {node} 2")).collect();
    short
        .replace("KINDS", KINDS)
        .replace("TERM", TERM)
        .replace("DOUBLED", DOUBLED)
        .replace("MEMBERS", &members(64))
        .replace("RULES", &format!("P p 0; A 0; Y; > 1 0{rules}"))
        .replace("SYMBOLS", &symbols.join("; "))
        .replace("NODES_BUT_1", &vec!["Y"; 1_023].join("; "))
        .replace("NODES", &vec!["Y"; 1_024].join("; "))
        .replace("CLAUSES", &vec!["C 0"; 128].join("; "))
}

fn is(sheet: &[u8], number: u32, line: u32) {
    let told = match outcome(sheet) {
        Outcome::Refused(refusal) => (refusal.number, refusal.line),
        _ => (0, 0),
    };
    assert_eq!(told, (number, line), "{}", sheet.escape_ascii());
}

/// The same, and with `O latest` in front, where a refusal stands one line lower (W-207).
fn is_in_both_orders(sheet: &[u8], number: u32, line: u32) {
    is(sheet, number, line);
    is(&[b"O\tlatest\n", sheet].concat(), number, line + u32::from(number > 0));
}

#[test]
fn sheets() {
    for &(sheet, number, line) in SHEETS {
        is_in_both_orders(&lines(&whole(sheet)), number, line);
    }
    for &(sheet, number, line) in UNCLOSED {
        is_in_both_orders(&unclosed(&whole(sheet)), number, line);
    }
    for &(sheet, number, line) in BYTES {
        is_in_both_orders(sheet, number, line);
    }
    for &(sheet, parts, number, line) in PARTS {
        for part in parts.split(',') {
            is_in_both_orders(&lines(&whole(&sheet.replace('#', part))), number, line);
        }
    }
}

/// Every field of a number refuses what is none.
#[test]
fn numbers() {
    let (ones, zeros) = ("1".repeat(5_000), "0".repeat(5_000));
    let short = "65536,99999,100000,4294967296,18446744073709551616,00,01,+1,-0,-1,,1x,0x1,1.0, 0";
    let fields = "Q\t#,C\t#,A\t#,A\t0\t#,&\t#\t0,|\t0\t#,>\t#\t0,E\t0\t#,U\t#\t0,V\t#,N\t#,F\ta\t#";
    for number in short.split(',').chain([&ones[..], &zeros]) {
        for field in fields.split(',') {
            is(format!("{}\n", field.replace('#', number)).as_bytes(), 6, 1);
        }
    }
}

#[test]
fn names() {
    for name in ",_a,1a,a-b,a.b,abcdefghijklmnopq,\u{e9},a\u{e9},!,a b".split(',') {
        is(format!("F\t{name}\t0\n").as_bytes(), 6, 1);
        is(format!("P\t{name}\t0\n").as_bytes(), 6, 1);
    }
}

/// A right sheet of exactly 16,384 bytes.
fn largest_sheet() -> Vec<u8> {
    let mut sheet = Vec::new();
    for number in 0..256 {
        sheet.extend(format!("F\tabcdefghijklm{number:03}\t{}\n", if number == 255 { 4 } else { 0 }).bytes());
    }
    sheet.extend(b"V\t0\n".repeat(110));
    sheet.extend(b"A\t255\t100\t100\t100\t100\n".repeat(480));
    sheet.extend(b"Y\nQ\t590\n");
    sheet
}

#[test]
fn sheet_bytes() {
    let mut sheet = largest_sheet();
    assert_eq!(sheet.len(), 16_384);
    assert_eq!(outcome(&sheet), Outcome::Proved);
    sheet.push(b'\n');
    is(&sheet, 1, 0);
    assert_eq!(runner(&sheet), b"X\t1\t0\n");
    is(&[b'x'; 16_384], 6, 1);
    is(&[b'x'; 16_385], 1, 0);
}

const PROVED: &str = "P may 1; F strobe 0; A 1; A 0 0; C 1; Q 1";

fn long_sheet() -> Vec<u8> {
    let mut sheet = lines(PROVED);
    sheet.resize(16_385, b'x');
    sheet
}

/// Numbers that are not zero.
fn dirty(numbers: usize) -> Vec<u32> {
    (0..numbers as u32)
        .map(|number| number.wrapping_mul(0x9E37_79B9) | 1)
        .collect()
}

/// A dirty buffer is zero up to a length and as it was from there on.
fn assert_cleared(buffer: &[u32], length: usize) {
    assert!(buffer[..length].iter().all(|&number| number == 0));
    assert_eq!(buffer[length..], dirty(buffer.len())[length..]);
}

/// Runs with dirty buffers and says what the run handed back, after comparing every buffer with what it should hold.
fn run(sheet: &[u8], budget: u32, table: usize, work: usize, answer: usize, text: &[u8]) -> Run {
    let (mut table, mut work, mut bytes) = (dirty(table), dirty(work), vec![0xA5; answer]);
    let run = engine_run(sheet, budget, &mut table, &mut work, &mut bytes);
    let early = matches!(run.outcome, Outcome::Refused(Refusal { number: 1..=5, .. }));
    assert_cleared(&table, if early { 0 } else { 8_192 });
    assert_cleared(&work, if early { 0 } else { 64 * budget as usize });
    assert_eq!(bytes[..text.len()], *text);
    assert!(bytes[text.len()..].iter().all(|&byte| byte == 0xA5));
    assert_eq!(run.length as usize, text.len());
    if matches!(run.outcome, Outcome::Refused(_)) {
        assert_eq!((run.units, run.length), (0, 0));
    }
    run
}

#[test]
fn buffers_of_an_answer() {
    let sheet = lines(PROVED);
    let text = lines("R proved 3; D clause 1");
    for (table, work, answer) in [(8_192, 192, 22), (8_193, 193, 23), (9_000, 1_000, 100)] {
        let run = run(&sheet, 3, table, work, answer, &text);
        assert_eq!((run.outcome, run.units), (Outcome::Proved, 3));
    }
    let spent = run(&sheet, 2, 8_200, 130, 10, &lines("R spent 2"));
    assert_eq!((spent.outcome, spent.units), (Outcome::Spent, 2));
    // No clause and goal p: no, 1 unit; its text has 7 bytes.
    let no = run(&lines("P p 0; A 0; Q 0"), 3, 8_200, 200, 7, b"R\tno\t1\n");
    assert_eq!((no.outcome, no.units), (Outcome::No, 1));
}

#[test]
fn buffers_of_refusals() {
    let (long, sheet, no) = (&long_sheet()[..], &lines(PROVED)[..], &lines("P p 0; A 0; Q 0")[..]);
    // Sheet, budget, table, work, answer; refusal and line. In checking order, with the later grounds given too.
    for (sheet, budget, table, work, answer, number, line) in [
        (long, 0, 0, 0, 0, 1, 0),
        (long, 3, 9_000, 300, 50, 1, 0),
        (sheet, 0, 8_191, 0, 0, 2, 0),
        (sheet, 0, 8_192, 0, 0, 3, 0),
        (sheet, 50_001, 8_192, 0, 0, 3, 0),
        (sheet, u32::MAX, 8_192, 100, 0, 3, 0),
        (sheet, 1 << 26, 8_192, 100, 0, 3, 0),
        (b"x", 3, 8_192, 191, 0, 5, 0),
        (sheet, 50_000, 8_192, 3_199_999, 50, 5, 0),
        (b"x", 3, 8_200, 200, 0, 6, 1),
        (b"", 3, 8_200, 200, 50, 11, 1),
        (sheet, 3, 8_200, 200, 21, 12, 0),
        (sheet, 3, 8_200, 200, 0, 12, 0),
        (sheet, 2, 8_200, 200, 9, 12, 0),
        (no, 3, 8_200, 200, 6, 12, 0),
    ] {
        let run = run(sheet, budget, table, work, answer, b"");
        assert_eq!(run.outcome, refused(number, line));
    }
}

/// Checks with dirty buffers and says the verdict, after comparing both buffers with what they should hold.
fn verdict(sheet: &[u8], text: &[u8], table: usize, work: usize) -> Verdict {
    let (mut table, mut work) = (dirty(table), dirty(work));
    let verdict = check_text(sheet, text, &mut table, &mut work);
    let early = matches!(verdict, Verdict::Refused(Refusal { number: 1..=5, .. }));
    let demanded = 64 * text.iter().filter(|&&byte| byte == b'\n').count();
    assert_cleared(&table, if early { 0 } else { 8_192 });
    assert_cleared(&work, if early { 0 } else { demanded });
    verdict
}

#[test]
fn checker_buffers() {
    let (long, sheet) = (&long_sheet()[..], &lines(PROVED)[..]);
    let text = &lines("R proved 3; D clause 1")[..];
    let surplus = &[text, b"\n\n"].concat()[..];
    let refused = |number, line| Verdict::Refused(Refusal { number, line });
    for (sheet, text, table, work, wanted) in [
        (sheet, text, 8_192, 128, Verdict::Valid),
        (sheet, text, 9_000, 200, Verdict::Valid),
        (long, &[b'x'; 65_536][..], 0, 0, refused(1, 0)),
        (sheet, &[b'x'; 65_536], 8_191, 0, refused(2, 0)),
        (sheet, &[b'\n'; 65_536], 8_192, 0, refused(4, 0)),
        (sheet, &[b'x'; 65_535], 8_192, 0, Verdict::Invalid(1)),
        (sheet, text, 8_192, 127, refused(5, 0)),
        (b"x", &[b'\n'; 3], 8_192, 191, refused(5, 0)),
        (b"x", &[b'\n'; 3], 8_192, 192, refused(6, 1)),
        (b"", b"", 8_192, 0, refused(11, 1)),
        (b"V\t0\nC\t0\n", b"x", 8_192, 0, refused(9, 2)),
        (sheet, &[b'\n'; 65_535], 8_192, 64 * 65_535, Verdict::Invalid(1)),
        (sheet, &[b'\n'; 65_535], 8_192, 64 * 65_535 - 1, refused(5, 0)),
        // Surplus lines count too.
        (sheet, surplus, 8_192, 255, refused(5, 0)),
        (sheet, surplus, 8_192, 256, Verdict::Invalid(3)),
    ] {
        assert_eq!(verdict(sheet, text, table, work), wanted);
    }
}

/// A goal that is proved with `leaves` lines `D true`, one fewer `D and`, and the given numbers of `D left` and
/// `D assume`.
fn goal_of_lines(leaves: usize, lefts: usize, assumes: usize) -> Vec<u8> {
    // Node 0 is an atom to assume; node 1 + k is true 2^k times.
    let mut short = String::from("P p 0; A 0; Y");
    for power in 1..13 {
        short.push_str(&format!("; & {power} {power}"));
    }
    let mut last = 13;
    let mut goal = None;
    let mut make = |line: String| {
        short.push_str(&format!("; {line}"));
        last += 1;
        last
    };
    for power in (0..13).filter(|power| leaves >> power & 1 == 1) {
        goal = Some(match goal {
            None => power + 1,
            Some(goal) => make(format!("& {} {goal}", power + 1)),
        });
    }
    let mut goal = goal.expect("at least one leaf");
    for _ in 0..lefts {
        goal = make(format!("| {goal} 0"));
    }
    for _ in 0..assumes {
        goal = make(format!("> 0 {goal}"));
    }
    lines(&format!("{short}; Q {goal}"))
}

#[test]
fn text_bytes() {
    // Lines of 7, 6, 7 and 9 bytes after one of 15.
    let length =
        |leaves: usize, lefts: usize, assumes: usize| 15 + 7 * leaves + 6 * (leaves - 1) + 7 * lefts + 9 * assumes;
    assert_eq!(length(5_038, 2, 2), 65_535);
    let sheet = goal_of_lines(5_038, 2, 2);
    let (outcome, units, text) = answer(&sheet, 50_000, 70_000);
    assert_eq!(
        (outcome, units, text.len()),
        (Outcome::Proved, 2 * 5_038 - 1 + 4, 65_535)
    );
    assert_eq!(answer(&sheet, 50_000, 65_535), (outcome, units, text));
    assert_eq!(answer(&sheet, 50_000, 65_534).0, refused(12, 0));
    assert_eq!(length(5_037, 4, 2), 65_536);
    let sheet = goal_of_lines(5_037, 4, 2);
    assert_eq!(answer(&sheet, 50_000, 70_000).0, refused(12, 0));
    // With too few units the same sheet tells spent.
    assert_eq!(answer(&sheet, 10_000, 70_000).0, Outcome::Spent);
}
