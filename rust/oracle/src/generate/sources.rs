//! Texts to be read as one string literal: right ones, wrong ones, and those that stand at the edge.

use super::texts::{self, BAD_UTF8, GOOD_UTF8};
use crate::plain_print::print_literal;
use crate::rng::Rng;
use crate::settings::Settings;
use std::collections::BTreeSet;

const TRIPLE: &str = "\"\"\"";

/// In a fixed order, no two the same.
pub fn texts(rng: &mut Rng) -> Vec<Vec<u8>> {
    let mut found = Found::default();
    quotes_only(&mut found);
    escapes(&mut found);
    unicode_escapes(&mut found);
    raw_bytes(&mut found);
    bytes_around(&mut found);
    utf8(&mut found);
    short_blocks(&mut found);
    blocks(&mut found);
    random(rng, &mut found);
    found.texts
}

#[derive(Default)]
struct Found {
    texts: Vec<Vec<u8>>,
    seen: BTreeSet<Vec<u8>>,
}

impl Found {
    fn text(&mut self, text: impl AsRef<[u8]>) {
        let text = text.as_ref();
        if self.seen.insert(text.to_vec()) {
            self.texts.push(text.to_vec());
        }
    }

    fn quoted(&mut self, between: impl AsRef<[u8]>) {
        self.text([b"\"", between.as_ref(), b"\""].concat());
    }

    fn block(&mut self, between: impl AsRef<[u8]>) {
        let triple = TRIPLE.as_bytes();
        self.text([triple, between.as_ref(), triple].concat());
    }
}

fn quotes_only(found: &mut Found) {
    for count in 0..=9 {
        found.text("\"".repeat(count));
    }
    // Five, six and seven about a letter.
    for (before, after) in [
        (1, 4),
        (2, 3),
        (3, 2),
        (4, 1),
        (3, 3),
        (2, 4),
        (3, 4),
        (4, 3),
    ] {
        found.text(format!("{}a{}", "\"".repeat(before), "\"".repeat(after)));
    }
}

fn escapes(found: &mut Found) {
    for letter in ['"', '\\', '/', 'b', 'f', 'n', 'r', 't'] {
        found.quoted(format!("a\\{letter}b"));
    }
    found.quoted(r#"\"\\\/\b\f\n\r\t"#);
    for letter in [
        'a', 'e', 'v', 'x', 'B', 'F', 'N', 'R', 'T', '0', '\'', ' ', '\n', '\r', 'é',
    ] {
        found.quoted(format!("a\\{letter}b"));
    }
    // A block has none but `\"""`.
    found.block(r#"\\\/\b\f\n\r\t\u0041\x\" "#);
    for text in [
        r#""\"#,
        r#""\""#,
        r#""\\"#,
        r#""\\""#,
        r#""\\\""#,
        r#""\\\\""#,
    ] {
        found.text(text);
    }
}

fn unicode_escapes(found: &mut Found) {
    for digits in [
        "0000", "0001", "0009", "000A", "000d", "0020", "0022", "005C", "007F", "0080", "00e9",
        "07FF", "0800", "20AC", "D7FF", "d7ff", "D800", "d800", "dBfF", "DC00", "DFFF", "dfff",
        "E000", "e000", "FEFF", "FFFE", "ffff", "aBcD", "AbCd",
    ] {
        found.quoted(format!("\\u{digits}"));
    }
    // Each digit, of either case, at each of the four places.
    for place in 0..4 {
        let mut text = String::new();
        for digit in "0123456789ABCDEFabcdef".chars() {
            let mut digits = ['0', '0', '4', '1'];
            digits[place] = digit;
            text.push_str("\\u");
            text.extend(digits);
        }
        found.quoted(text);
    }
    for (at, wrong) in [
        "/", ":", "@", "G", "`", "g", " ", "-", "\n", "é", "\\", "\"",
    ]
    .iter()
    .enumerate()
    {
        let mut digits = ["0", "0", "4", "1"];
        digits[(at + at / 6) % 4] = wrong;
        found.quoted(format!("\\u{}", digits.concat()));
    }
    for text in [
        r"\u",
        r"\u0",
        r"\u00",
        r"\u004",
        r"\u00411",
        r"\U0041",
        r"\u{41}",
        r"\uD83D\uDE00",
        r"\ud83d\ude00",
        r"\uDE00\uD83D",
        r"a\uD83Db",
        r"\\u0041",
        r"\\\u0041",
        r"\u005Cn",
        r"\u0022",
    ] {
        found.quoted(text);
    }
    found.text(r#""\u"#);
    found.text(r#""\u0041"#);
}

fn raw_bytes(found: &mut Found) {
    for line_end in ["\n", "\r", "\r\n"] {
        for (before, after) in [("", "a"), ("a", "b"), ("a", "")] {
            found.quoted(format!("{before}{line_end}{after}"));
        }
    }
    let below_20: Vec<u8> = (0..0x20).filter(|byte| !b"\n\r".contains(byte)).collect();
    let from_20: Vec<u8> = (0x20..0x80)
        .filter(|byte| !b"\"\\".contains(byte))
        .collect();
    for bytes in [&below_20, &from_20] {
        found.quoted(bytes);
        found.block(bytes);
    }
    found.quoted("\t");
    found.quoted("\0");
}

fn bytes_around(found: &mut Found) {
    for more in [" ", "\n", "a", "\"", "\0", "\u{feff}"] {
        found.text(format!("\"a\"{more}"));
        found.text(format!("{more}\"a\""));
        found.text(format!("{TRIPLE}a{TRIPLE}{more}"));
        found.text(format!("{more}{TRIPLE}a{TRIPLE}"));
    }
    for text in [
        "a",
        "'a'",
        "\"a",
        "a\"",
        "\"a\"\"b\"",
        "\"a\"\"\"\"b\"\"\"",
        "\"\"\"a",
        "\"\"\"a\"",
        "\"\"\"a\"\"",
        "\"\"\"a\\\"\"\"",
        "\"\"\"a\"\"\"b\"\"\"",
        "\\\"\"\"",
        "\\\"\"\"\"\"\"",
    ] {
        found.text(text);
    }
}

fn utf8(found: &mut Found) {
    for good in GOOD_UTF8 {
        found.quoted(good);
    }
    found.quoted(GOOD_UTF8.concat());
    found.block(GOOD_UTF8.concat());
    for bad in BAD_UTF8 {
        found.quoted(bad);
    }
    for bad in BAD_UTF8.iter().step_by(3) {
        found.block(bad);
    }
    found.text(b"\"a\"\xff");
    found.text(b"\xff\"a\"");
    found.text(b"\"a\\u00\xff41\"");
}

/// All of up to two pieces.
fn short_blocks(found: &mut Found) {
    let pieces = ["", " ", "\t", "\n", "\r", "a", "\""];
    for left in pieces {
        for right in pieces {
            found.block(format!("{left}{right}"));
        }
    }
}

fn blocks(found: &mut Found) {
    for between in [
        "\\\"\"\"",
        "\\\"\"\"a",
        "a\\\"\"\"",
        "\\\\\"\"\"",
        "\\\\\\\"\"\"\"",
        "\\\"\"\"\\\"\"\"",
        "\\\"\"\"\"a",
        "a\"\"b",
        "a\\\"b\\\"\"c",
        "\n\\\"\"\"\n",
        "\n  a\n    b\n  ",
        "\n\ta\n b",
        "\n\t a\n\t b",
        "\n \ta\n\t b\n",
        "  a\n    b\n   c",
        "a\n  b\r\n\r  c",
        "a\r\n  b\r\n  c\r\n",
        "\r\r\n\n  a\r\r  b\n\r",
        " \n\t\n a\n\n \n",
        "\n  a\n     \n  b",
        "\n  a\n \n  b",
        "\n  a\n\n  b",
        "    \n  a",
        "\n    a\n\t\n",
        "a\n  \n  ",
        "a\n\n  b\n",
        " a \n b \n",
        "\n a\n  b\n   c\n  d\n e",
        "\n  é\n  €\n   😀\n",
        "\n\u{a0} a\n\u{a0} b",
        "\n\u{b}a\n\u{b}b",
        "\n  a\u{2028}b\n  c\u{85}d",
    ] {
        found.block(between);
    }
}

const BLOCK_PIECES: [&str; 17] = [
    " ", "  ", "\t", "\n", "\n", "\n  ", "\r", "\r\n", "a", "b c", "\\", "\\\"\"\"", "\"", "\"\"",
    "é", "\\n", "\\u0041",
];

const QUOTED_PIECES: [&str; 18] = [
    "a", "Z 9", "\t", "'", "é", "€", "😀", "\\\"", "\\\\", "\\/", "\\b", "\\f", "\\n", "\\r",
    "\\t", "\\u00e9", "\\u20AC", "\u{1f}",
];

fn random(rng: &mut Rng, found: &mut Found) {
    for _ in 0..36 {
        let count = rng.between(3, 14);
        found.block(soup(rng, &BLOCK_PIECES, count));
    }
    for _ in 0..12 {
        let count = rng.between(3, 14);
        found.quoted(soup(rng, &QUOTED_PIECES, count));
    }
    for _ in 0..12 {
        found.text(printed(rng));
    }
    for _ in 0..20 {
        let mut text = printed(rng);
        change(rng, &mut text);
        found.text(text);
    }
}

fn soup(rng: &mut Rng, pieces: &[&str], count: usize) -> String {
    (0..count).map(|_| *rng.pick(pieces)).collect()
}

/// What the plain printer writes for some short value.
fn printed(rng: &mut Rng) -> Vec<u8> {
    loop {
        let value = texts::string(rng);
        let prefix = *rng.pick(&["", "\t", "  "]);
        let settings = Settings::on(prefix, rng.below(3));
        let text = print_literal(value.as_bytes(), rng.percent(70), &settings);
        if text.len() <= 60 {
            return text;
        }
    }
}

/// One byte is changed, left out or put in.
fn change(rng: &mut Rng, text: &mut Vec<u8>) {
    let at = rng.below(text.len());
    let byte = *rng.pick(b"\"\"\\\\\n\r u\xff");
    match rng.below(3) {
        0 => text[at] = byte,
        1 => text.insert(at, byte),
        _ => {
            text.remove(at);
        }
    }
}
