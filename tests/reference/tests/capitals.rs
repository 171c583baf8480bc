//! W-201, names typed in capitals: names of a sheet, names of a text, and what stays exact.

mod common;

use common::{lines, outcome, refused};
use reference::{answer, check, Outcome, Verdict};

/// Line 0 stands for valid.
fn judged(sheet: &[u8], text: &[u8], line: u32) {
    let expected = if line == 0 {
        Verdict::Valid
    } else {
        Verdict::Invalid(line)
    };
    let shown = format!("{}\n{}", sheet.escape_ascii(), text.escape_ascii());
    assert_eq!(check(sheet, text), expected, "{shown}");
}

/// The letters, digits and `_` of a name, as they are listed in the two papers.
fn name_byte(byte: u8) -> bool {
    b"abcdefghijklmnopqrstuvwxyzABCDEFGHIJKLMNOPQRSTUVWXYZ0123456789_".contains(&byte)
}

/// Equal, or the same letter in two cases.
fn same(left: u8, right: u8) -> bool {
    let pair = |small: &u8, capital: &u8| [*small, *capital].contains(&left) && [*small, *capital].contains(&right);
    let mut letters = b"abcdefghijklmnopqrstuvwxyz".iter().zip(b"ABCDEFGHIJKLMNOPQRSTUVWXYZ");
    left == right || letters.any(|(small, capital)| pair(small, capital))
}

#[test]
fn bytes_of_names() {
    for byte in 0..=255 {
        for letter in [b"F", b"P"] {
            let first = [letter, &b"\t"[..], &[byte], b"a\t0\nY\nQ\t0\n"].concat();
            let later = [letter, &b"\ta"[..], &[byte], b"a\t0\nY\nQ\t0\n"].concat();
            assert_eq!(outcome(&first) == Outcome::Proved, byte.is_ascii_alphabetic(), "{byte}");
            assert_eq!(outcome(&later) == Outcome::Proved, name_byte(byte), "{byte}");
            if byte != b'\n' {
                assert!(name_byte(byte) || outcome(&later) == refused(6, 1), "{byte}");
            }
        }
    }
    for (name, right) in [
        ("aBcDeFgHiJkLmNoP", true),
        ("ABCDEFGHIJKLMNOP", true),
        ("ABCDEFGHIJKLMNOPQ", false),
        ("aBcDeFgHiJkLmNoPq", false),
        ("_A", false),
        ("9A", false),
        ("\u{c4}", false),
        // The Kelvin sign, of which the small letter is k.
        ("\u{212a}", false),
    ] {
        let sheet = lines(&format!("F {name} 0; Y; Q 0"));
        assert_eq!(outcome(&sheet) == Outcome::Proved, right, "{name}");
    }
}

/// The second name is refused exactly if each of its bytes is the first's or the same letter.
#[test]
fn repeated_names() {
    let bytes = || (0..=255).filter(|&byte| name_byte(byte));
    for (left, right) in bytes().flat_map(|left| bytes().map(move |right| (left, right))) {
        for letters in ["FF", "FP", "PF", "PP"].map(str::as_bytes) {
            let sheet = [
                &[letters[0]][..],
                b"\tn",
                &[left],
                b"\t0\n",
                &[letters[1]],
                b"\tN",
                &[right],
                b"\t1\nY\nQ\t0\n",
            ]
            .concat();
            let expected = if same(left, right) {
                refused(8, 2)
            } else {
                Outcome::Proved
            };
            assert_eq!(outcome(&sheet), expected, "{}", sheet.escape_ascii());
        }
    }
    let many: String = (0..256).map(|number| format!("F a{number} 0; ")).collect();
    for (sheet, number, line) in [
        ("F Strobe 0; P STROBE 1".to_string(), 8, 2),
        ("F a_b 0; F c 0; F A_B 0".to_string(), 8, 3),
        // 7 comes before 8, and 6 before both.
        (format!("{many}F A0 0"), 7, 257),
        (format!("{many}f A0 0"), 6, 257),
        ("F a 0; F A 5".to_string(), 6, 2),
        ("F a 0; F A 0; x".to_string(), 8, 2),
        // Letters of lines are as they were.
        ("f a 0".to_string(), 6, 1),
        ("y".to_string(), 6, 1),
        ("Y; q 0".to_string(), 6, 2),
    ] {
        assert_eq!(outcome(&lines(&sheet)), refused(number, line), "{sheet}");
    }
    // Names of other lengths are others.
    assert_eq!(outcome(&lines("F a 0; F AA 0; F aA_ 0; Y; Q 0")), Outcome::Proved);
}

/// A name of a text names the declared one exactly if each of its bytes is that one's or the same letter.
#[test]
fn names_of_texts() {
    for left in (0..=255).filter(|&byte| name_byte(byte)) {
        let sheet = [&b"F\tn"[..], &[left], b"\t0\nY\nE\t0\t0\nQ\t1\n"].concat();
        for right in (0..=255).filter(|&byte| byte != b'\n') {
            let text = [&b"R\tproved\t2\nD\tsome\tN"[..], &[right], b"\nD\ttrue\n"].concat();
            judged(&sheet, &text, if same(left, right) { 0 } else { 2 });
        }
    }
    let sheet = lines("F Dimmer 2; F curve_1 0; P Suits 2; V 0; A 2 0 0; U 0 1; C 2; A 1; A 0 3 3; V 1; A 2 4 5; Q 6");
    // take, try; pair, looks Dimmer, curve_1, curve_1; pair, the binding of z, and the same looks.
    let text = |answer: &str, term: &str| lines(&format!("R proved 11; B 1 {answer}; D clause 1 {term}"));
    let declared = "Dimmer(curve_1,curve_1)";
    // Each standing has its own mix of cases, and two spellings are the same term.
    for (answer, term, line) in [
        (declared, declared, 0),
        ("dimmer(curve_1,curve_1)", declared, 0),
        (declared, "DIMMER(CURVE_1,CURVE_1)", 0),
        ("dIMMER(CurvE_1,cURVe_1)", "DimmeR(curve_1,Curve_1)", 0),
        ("Dimmer(Curve_1,Curve)", declared, 2),
        ("Dimmer(Curve_1,Curve_2)", declared, 2),
        ("Suits(curve_1,curve_1)", declared, 2),
        ("SUITS(curve_1,curve_1)", declared, 2),
        (declared, "Dimmer(curve_1,DIMMER(curve_1,curve_1))", 3),
        (declared, "CURVE_1", 3),
    ] {
        judged(&sheet, &text(answer, term), line);
    }
    // The engine writes every name as it was declared.
    assert_eq!(answer(&sheet, 256, 1_000).2, text(declared, declared));
}

/// Words and letters of a text are as they were.
#[test]
fn words() {
    let sheet = "P p 1; F a 0; V 0; A 0 0; U 0 1; C 2; Y; | 3 3; > 1 4; E 1 5; U 0 6; & 7 7; V 2; A 0 9; & 8 10; Q 11";
    let right = "R proved 1; B 2 a; D and; D and; D all !0@1; D some a; D assume; D left; D true; \
                 D all !0@1; D some a; D assume; D right; D true; D clause 1 a";
    let (sheet, text) = (lines(sheet), lines(right));
    judged(&sheet, &text, 0);
    let (mut line, mut tabs) = (1, 0);
    for place in 0..text.len() {
        match text[place] {
            b'\n' => (line, tabs) = (line + 1, 0),
            b'\t' => tabs += 1,
            byte if byte.is_ascii_alphabetic() => {
                let mut changed = text.clone();
                changed[place] = if byte.is_ascii_lowercase() {
                    byte.to_ascii_uppercase()
                } else {
                    byte.to_ascii_lowercase()
                };
                // The first two fields are words, and names stand after them.
                judged(&sheet, &changed, if tabs < 2 { line } else { 0 });
            }
            _ => {}
        }
    }
}
