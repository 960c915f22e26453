//! Texts of gigabytes, from tables whose Strings name one range of the pool again and again. They are measured, and what
//! is wanted is added up: the text with empty Strings, and one literal's length for each of them.

use super::{Judge, Plan};
use crate::call::Document;
use crate::wanted;
use oracle::generate::OwnTable;
use oracle::table::{kind, MOST_NODES, MOST_POOL};
use oracle::Settings;

/// Nodes before the Strings: `input a { a: a = [..] }`.
const BEFORE: usize = 5;
const STRINGS: usize = MOST_NODES - BEFORE;

/// Levels from the document's to a String's: the braces' and the list's.
const INSIDE: usize = 2;

/// Where a String's text is: start and length.
type Range = (usize, usize);

/// The pool's last byte is `a`.
fn table(pool: &[u8], strings: &[Range]) -> OwnTable {
    let end = (BEFORE + strings.len()) as u32;
    let name = pool.len() as u32 - 1;
    let mut words = [
        [kind::DOCUMENT, 0, 0, 0, end],
        [kind::INPUT_OBJECT, 0, name, 1, end],
        [kind::INPUT_VALUE_DEFINITION, 0, name, 1, end],
        [kind::NAMED_TYPE, 0, name, 1, 4],
        [kind::LIST, 0, 0, 0, end],
    ]
    .concat();
    for (number, &(start, length)) in strings.iter().enumerate() {
        let end = BEFORE + number + 1;
        words.extend([kind::STRING, 0, start as u32, length as u32, end as u32]);
    }
    OwnTable {
        words,
        pool: pool.to_vec(),
    }
}

/// The length of the text with as many Strings, all of them empty.
fn empty_length(settings: &Settings) -> usize {
    let table = table(b"a", &[(0, 0); STRINGS]);
    wanted::text(&table.words, &table.pool, settings).len()
}

/// What a String of this value has more than an empty one.
fn more(value: &[u8], settings: &Settings) -> usize {
    let inside = Settings {
        level: settings.level + INSIDE,
        ..settings.clone()
    };
    let value = std::str::from_utf8(value).unwrap();
    wanted::literal(value, false, &inside).len() - 2
}

pub fn texts(judge: &mut Judge, plan: &Plan) {
    just_past_32_bits(judge);
    if plan.huge {
        let control = [b'\x01'].repeat(MOST_POOL);
        one_range(judge, control, &Settings::off(), 1 << 31);
        let lines = [b"a\n", &b"b".repeat(129)[..]]
            .concat()
            .repeat(MOST_POOL / 131);
        let widest = Settings::on(&" ".repeat(16), 64);
        one_range(judge, lines, &widest, 1 << 32);
    }
}

/// All Strings name the same range, which is all of the pool but for the letters at its end.
fn one_range(judge: &mut Judge, mut value: Vec<u8>, settings: &Settings, past: usize) {
    value.truncate(MOST_POOL - 1);
    value.push(b'a');
    let need = empty_length(settings) + STRINGS * more(&value, settings);
    let is_past = need > past;
    judge.tally.check(is_past, || format!("only {need} bytes"));
    let table = table(&value, &[(0, value.len()); STRINGS]);
    judge.needs(&Document::new(&table, settings), 0, need);
    judge.documents += 1;
}

/// A text of just 2^32 bytes. An output of 64 would do if the need lost its high bits.
fn just_past_32_bits(judge: &mut Judge) {
    let settings = Settings::on(&"\t".repeat(16), 64);
    let lines = [&b"a\n".repeat(512)[..], b"a"].concat();
    let longest = MOST_POOL - lines.len();
    let pool = [&lines[..], &b"a".repeat(longest)].concat();
    let each = more(&lines, &settings);
    let mut left = (1 << 32) - empty_length(&settings);
    let mut strings = vec![(0, 0); STRINGS];
    for string in &mut strings {
        if left >= each {
            *string = (0, lines.len());
            left -= each;
        } else if left > 0 {
            let letters = left.min(longest);
            *string = (lines.len(), letters);
            left -= letters;
        }
    }
    judge
        .tally
        .check(left == 0, || format!("{left} bytes are left"));
    let table = table(&pool, &strings);
    for room in [0, 64] {
        judge.needs(&Document::new(&table, &settings), room, 1 << 32);
    }
    judge.documents += 1;
}
