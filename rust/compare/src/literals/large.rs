//! Values about the limit of 65,536 bytes, and inputs of megabytes.

use super::random::any_value;
use super::Plan;
use crate::call::Print;
use crate::judge::{few_rooms, Judge};
use crate::wanted::{self, Reading, LONGEST_VALUE};
use oracle::plain_read::{Form, NotOneLiteral};
use oracle::rng::Rng;
use oracle::Settings;

/// Each value is one of these over and over.
const PIECES: [&str; 16] = [
    "a",
    "\"",
    "\\",
    "\u{1}",
    "\n",
    " ",
    "\t",
    " \n",
    "é",
    "€",
    "😀",
    "\"\"\"",
    "a\\",
    "prose of about sixty bytes a line, as descriptions have it,\n",
    "tab\tquote\"é€😀\u{7f}",
    "x\n\n \n  y\n",
];

/// Values of the first pieces and of random ones, at lengths about the limit and below it.
pub fn values(judge: &mut Judge, plan: &Plan) {
    let mut rng = plan.rng(2);
    let mut contents: Vec<String> = PIECES
        .iter()
        .take(plan.pieces)
        .map(|piece| piece.repeat(LONGEST_VALUE / piece.len() + 8))
        .collect();
    let mut random = String::new();
    while random.len() < LONGEST_VALUE + 8 {
        random += &any_value(&mut rng);
    }
    contents.push(random);
    for content in &contents {
        let some = rng.between(20_000, 60_000);
        for length in [some, LONGEST_VALUE - 1, LONGEST_VALUE, LONGEST_VALUE + 1] {
            // perhaps cut within a character
            one_value(judge, &mut rng, &content.as_bytes()[..length]);
            one_value(judge, &mut rng, between_letters(content, length).as_bytes());
        }
    }
    most_lines(judge);
    for length in [2 * LONGEST_VALUE, 5_000_000] {
        for byte in [b'a', 0xFF] {
            judge.print_as_wanted(&Print::new(&vec![byte; length], true, &Settings::default()));
        }
    }
}

/// The content's start, no character cut, with letters before and after it, so that block form may be possible.
fn between_letters(content: &str, length: usize) -> String {
    let mut ends = (0..=length - 2).rev();
    let end = ends.find(|&at| content.is_char_boundary(at));
    let start = format!("a{}", &content[..end.unwrap_or(0)]);
    let letters = length - start.len();
    start + &"b".repeat(letters)
}

fn one_value(judge: &mut Judge, rng: &mut Rng, value: &[u8]) {
    for settings in [
        Settings::off(),
        Settings::default(),
        Settings::on("\t ", rng.below(17)),
    ] {
        for is_description in [false, true] {
            let print = Print::new(value, is_description, &settings);
            let wanted = wanted::printed(&print);
            let need = wanted.as_ref().map_or(40, Vec::len);
            let rooms = few_rooms(need).chain([rng.below(need)]);
            judge.print_at(&print, rooms, wanted.as_deref().map_err(|&number| number));
            if let Ok(text) = wanted {
                judge.read_back(&text, wanted::form_of(&text), value);
            }
        }
    }
}

/// 32,768 lines at the widest indent: 67 megabytes.
fn most_lines(judge: &mut Judge) {
    let value = "a\n".repeat(LONGEST_VALUE / 2 - 1) + "ab";
    let settings = Settings::on(&"\t ".repeat(8), 128);
    let text = wanted::literal(&value, false, &settings);
    let print = Print::new(value.as_bytes(), false, &settings);
    judge.print_at(&print, few_rooms(text.len()), Ok(&text));
    judge.read_back(&text, Form::Block, value.as_bytes());
}

/// Texts of about so many bytes to be read.
pub fn inputs(judge: &mut Judge, plan: &Plan) {
    let inputs = [quoted(plan.large), blocks(plan.large)];
    for (text, wanted) in inputs.into_iter().flatten() {
        let need = wanted.as_ref().map_or(40, |(_, value)| value.len());
        judge.read_at(&text, few_rooms(need), &wanted);
    }
}

type Input = (Vec<u8>, Reading);

fn quoted(bytes: usize) -> Vec<Input> {
    let letters = "a".repeat(bytes);
    let is = |inner: &str, value: String| {
        let text = format!("\"{inner}\"").into_bytes();
        (text, Ok((Form::Quoted, value.into_bytes())))
    };
    let refused = |text: &[&[u8]]| (text.concat(), Err(NotOneLiteral));
    vec![
        is(&letters, letters.clone()),
        is(&"😀".repeat(bytes / 4), "😀".repeat(bytes / 4)),
        is(&r"\u0041".repeat(bytes / 6), "A".repeat(bytes / 6)),
        is(&r"\n\\".repeat(bytes / 4), "\n\\".repeat(bytes / 4)),
        is(
            &"\0\t\u{1f}".repeat(bytes / 3),
            "\0\t\u{1f}".repeat(bytes / 3),
        ),
        refused(&[b"\"", letters.as_bytes()]),
        refused(&[b"\"", letters.as_bytes(), b"\\\""]),
        refused(&[b"\"", letters.as_bytes(), b"\xff\""]),
        refused(&[b"\"", letters.as_bytes(), b"\"\xff"]),
        refused(&[b"\"", letters.as_bytes(), b"\n\""]),
        refused(&[b"\"", letters.as_bytes(), b"\\uD800\""]),
        refused(&[b"\"", letters.as_bytes(), b"\"a\""]),
        refused(&[letters.as_bytes()]),
        refused(&["\"".repeat(bytes.max(7)).as_bytes()]),
        refused(&[&vec![0; bytes]]),
        refused(&[&vec![0xFF; bytes]]),
    ]
}

fn blocks(bytes: usize) -> Vec<Input> {
    let is = |inner: &str, value: &str| {
        let text = format!("\"\"\"{inner}\"\"\"").into_bytes();
        (text, Ok((Form::Block, value.as_bytes().to_vec())))
    };
    let refused = |inner: &str, end: &str| {
        let text = format!("\"\"\"{inner}{end}").into_bytes();
        (text, Err(NotOneLiteral))
    };
    let spaces = " ".repeat(bytes / 2);
    let breaks = |one: &str| one.repeat(bytes / one.len());
    let lines = breaks("a line of text\n");
    let lines = lines.trim_end();
    vec![
        is(lines, lines),
        is(&format!("\n{lines}\n"), lines),
        is(&format!("\n  {}", lines.replace('\n', "\n  ")), lines),
        is(&lines.replace('\n', "\r\n\t"), lines),
        is(&lines.replace('\n', "\r"), lines),
        is(&format!("{}a", breaks("\n")), "a"),
        is(&format!("{}a", breaks(" \t\r\n")), "a"),
        is(&format!("a{}", breaks("\r")), "a"),
        is(
            &format!("a{}b", breaks("\n")),
            &format!("a{}b", breaks("\n")),
        ),
        is(&breaks(" \n"), ""),
        is(&spaces, ""),
        is(&format!("{spaces}a"), &format!("{spaces}a")),
        is(&format!("\n{spaces} a\n{spaces}b"), " a\nb"),
        is(
            &format!("\n{spaces}a\n  b\n{spaces}"),
            &format!("{}a\nb", &spaces[2..]),
        ),
        is(&breaks("\\\"\"\""), &"\"\"\"".repeat(bytes / 4)),
        is(&breaks("\"\"a"), &breaks("\"\"a")),
        is(&breaks("\\n\\u0041"), &breaks("\\n\\u0041")),
        refused(lines, ""),
        refused(lines, "\"\""),
        refused(lines, "\\\"\"\""),
        refused(lines, "\"\"\"\""),
        refused(&breaks("\\\"\"\""), "\"\""),
    ]
}

#[cfg(test)]
mod tests {
    use super::*;

    #[test]
    fn inputs_are_what_the_plain_reader_reads() {
        for bytes in [60, 6_000] {
            for (text, wanted) in quoted(bytes).into_iter().chain(blocks(bytes)) {
                let shown = String::from_utf8_lossy(&text);
                assert_eq!(wanted::read(&text), wanted, "{shown:?}");
            }
        }
    }
}
