//! Texts of every kind that a table may hold.

use crate::rng::Rng;

const NAMES: [&str; 42] = [
    "a",
    "b",
    "A",
    "_",
    "__",
    "_1",
    "a1",
    "A_b",
    "Int",
    "String",
    "ID",
    "Query",
    "__typename",
    "id",
    "name",
    "node",
    "edges",
    "on",
    "true",
    "false",
    "null",
    "query",
    "mutation",
    "subscription",
    "fragment",
    "directive",
    "schema",
    "scalar",
    "type",
    "interface",
    "union",
    "enum",
    "input",
    "extend",
    "implements",
    "repeatable",
    "QUERY",
    "FIELD",
    "deprecated",
    "reason",
    "e1",
    "E10",
];

const NAME_STARTS: &[u8] = b"_ABCDEFGHIJKLMNOPQRSTUVWXYZabcdefghijklmnopqrstuvwxyz";
const NAME_BYTES: &[u8] = b"_0123456789ABCDEFGHIJKLMNOPQRSTUVWXYZabcdefghijklmnopqrstuvwxyz";

pub fn name(rng: &mut Rng) -> String {
    if rng.percent(60) {
        return rng.pick(&NAMES).to_string();
    }
    let length = match rng.below(40) {
        0 => rng.between(60, 300),
        _ => rng.below(9),
    };
    let mut name = String::from(*rng.pick(NAME_STARTS) as char);
    name.extend((0..length).map(|_| *rng.pick(NAME_BYTES) as char));
    name
}

pub fn fragment_name(rng: &mut Rng) -> String {
    name_other_than(rng, &["on"])
}

pub fn enum_value(rng: &mut Rng) -> String {
    name_other_than(rng, &["true", "false", "null"])
}

fn name_other_than(rng: &mut Rng, refused: &[&str]) -> String {
    loop {
        let name = name(rng);
        if !refused.contains(&name.as_str()) {
            return name;
        }
    }
}

fn digits(rng: &mut Rng) -> String {
    let length = if rng.percent(5) {
        rng.between(20, 60)
    } else {
        rng.between(1, 4)
    };
    (0..length)
        .map(|_| (b'0' + rng.below(10) as u8) as char)
        .collect()
}

pub fn int(rng: &mut Rng) -> String {
    let sign = if rng.percent(30) { "-" } else { "" };
    let digits = digits(rng);
    let digits = digits.trim_start_matches('0');
    let digits = if digits.is_empty() { "0" } else { digits };
    format!("{sign}{digits}")
}

/// `1.5`, `-0e1`, `1e10`, `1.5E-3` and their like.
pub fn float(rng: &mut Rng) -> String {
    let shape = rng.below(3);
    let mut text = int(rng);
    if shape != 0 {
        text += ".";
        text += &digits(rng);
    }
    if shape != 1 {
        text += *rng.pick(&["e", "E", "e+", "E+", "e-", "E-"]);
        text += &digits(rng);
    }
    text
}

/// Parts of string values. The short ASCII ones come first.
const PIECES: [&str; 46] = [
    "a",
    "abc",
    "Z9",
    " ",
    "  ",
    "\t",
    "\n",
    "\n\n",
    "\n  ",
    "\r",
    "\r\n",
    "\"",
    "\"\"",
    "\"\"\"",
    "\"\"\"\"",
    "\\",
    "\\\\",
    "\\\"\"\"",
    "\\n",
    "\\u0041",
    "\\uD83D",
    "#",
    "{}",
    "$x",
    "\0",
    "\u{1}",
    "\u{8}",
    "\u{b}",
    "\u{c}",
    "\u{e}",
    "\u{1a}",
    "\u{1b}",
    "\u{1f}",
    "\u{7f}",
    "\u{80}",
    "\u{85}",
    "\u{a0}",
    "é",
    "\u{7ff}",
    "\u{800}",
    "€",
    "\u{2028}",
    "\u{feff}",
    "\u{ffff}",
    "😀",
    "\u{10ffff}",
];

const LETTERS: [&str; 8] = ["a", "b", "word ", "x y", "é", "€", "😀", "-"];

fn soup(rng: &mut Rng, pieces: &[&str], count: usize) -> String {
    (0..count).map(|_| *rng.pick(pieces)).collect()
}

/// One line that starts with a letter.
fn line(rng: &mut Rng) -> String {
    let count = rng.below(6);
    format!(
        "{}{}",
        rng.pick(&["a", "é", "T", "1"]),
        soup(rng, &LETTERS, count)
    )
}

fn lines(rng: &mut Rng, indent: &str) -> String {
    let count = rng.between(1, 5);
    let lines: Vec<String> = (0..count)
        .map(|_| match rng.below(6) {
            0 => String::new(),
            1 => rng.pick(&[" ", "\t", "   "]).to_string(),
            2 => format!("{indent}{}{}", rng.pick(&["  ", "\t"]), line(rng)),
            _ => format!("{indent}{}", line(rng)),
        })
        .collect();
    lines.join("\n")
}

/// A string value or description.
pub fn string(rng: &mut Rng) -> String {
    match rng.below(16) {
        0 => String::new(),
        1 | 2 => line(rng),
        3 => "x".repeat(rng.between(69, 72)),
        4 => {
            let wide = *rng.pick(&["é", "€", "😀"]);
            let count = rng.between(68, 73) / wide.len() + rng.below(2);
            let tail = rng.below(3);
            wide.repeat(count) + &"x".repeat(tail)
        }
        5 | 6 => format!("{}\n{}\n{}", line(rng), lines(rng, ""), line(rng)),
        7 => {
            let indent = *rng.pick(&[" ", "  ", "\t", " \t"]);
            lines(rng, indent)
        }
        8 => {
            let blank = *rng.pick(&["", " ", "\t "]);
            format!("{blank}\n{}", lines(rng, ""))
        }
        9 => {
            let blank = *rng.pick(&["", " ", "\t "]);
            format!("{}\n{blank}", lines(rng, ""))
        }
        10 => format!(
            "{}{}",
            lines(rng, ""),
            rng.pick(&["\"", "\\", "\"\"\"", " "])
        ),
        11 => {
            let count = rng.between(1, 12);
            soup(rng, &["\"", "\\", "\"\"\"", "a", "\n"], count)
        }
        12 => {
            let count = rng.between(1, 4);
            soup(rng, &PIECES, count)
        }
        13 | 14 => {
            let count = rng.between(3, 16);
            soup(rng, &PIECES, count)
        }
        _ => {
            let most = if rng.percent(3) { 3_000 } else { 160 };
            let count = rng.between(40, most);
            let pieces = *rng.pick(&[&PIECES[..], &PIECES[..24], &LETTERS[..]]);
            soup(rng, pieces, count)
        }
    }
}

/// UTF-8 at the edges of each length, and beside the surrogates.
pub const GOOD_UTF8: [&[u8]; 9] = [
    b"\x7f",
    b"\xc2\x80",
    b"\xdf\xbf",
    b"\xe0\xa0\x80",
    b"\xed\x9f\xbf",
    b"\xee\x80\x80",
    b"\xef\xbf\xbf",
    b"\xf0\x90\x80\x80",
    b"\xf4\x8f\xbf\xbf",
];

/// Just past those edges; sequences cut short; bytes that begin none.
pub const BAD_UTF8: [&[u8]; 24] = [
    b"\x80",
    b"\xbf",
    b"\xc0\x80",
    b"\xc1\xbf",
    b"\xc2",
    b"\xc2\x7f",
    b"\xc2\xc0",
    b"\xdf\xbf\xbf",
    b"\xe0\x80\x80",
    b"\xe0\x9f\xbf",
    b"\xe2\x82",
    b"\xe2\x28\xa1",
    b"\xe2\x82\x28",
    b"\xed\xa0\x80",
    b"\xed\xbf\xbf",
    b"\xf0\x80\x80\x80",
    b"\xf0\x8f\xbf\xbf",
    b"\xf0\x9f\x98",
    b"\xf0\x9f\x98\x28",
    b"\xf4\x90\x80\x80",
    b"\xf5\x80\x80\x80",
    b"\xf8\x88\x80\x80\x80",
    b"\xfe",
    b"\xff",
];
