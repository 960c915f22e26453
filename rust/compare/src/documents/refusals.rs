//! Settings within and past their limits, several faults at once, and empty slices passed as null pointers.

use super::{Judge, Plan};
use crate::call::{Document, Empty};
use crate::numbers::{LEVELS, SWITCHES};
use crate::shapes;
use crate::wanted::{HIGHEST_DOCUMENT_LEVEL, LONGEST_PREFIX};
use oracle::generate::OwnTable;
use oracle::run::known;
use oracle::table::{MOST_NODES, MOST_POOL};

/// An empty document, document 01's, one with a wrong name, and no table.
fn some_tables() -> Vec<OwnTable> {
    let mut tables: Vec<OwnTable> = known::documents()
        .into_iter()
        .map(|row| row.table)
        .collect();
    tables.push(shapes::wide(1));
    let mut wrong = shapes::wide(3);
    wrong.pool = b"-".to_vec();
    tables.push(wrong);
    tables.push(OwnTable {
        words: Vec::new(),
        pool: Vec::new(),
    });
    tables
}

fn each(judge: &mut Judge, tables: &[OwnTable], breaks: &[u32], prefix: &[u8], level: u64) {
    for OwnTable { words, pool } in tables {
        for &breaks in breaks {
            let document = Document {
                breaks,
                prefix,
                level,
                words,
                pool,
            };
            judge.as_wanted(&document).ok();
        }
    }
}

pub fn settings(judge: &mut Judge, _: &Plan) {
    let tables = some_tables();
    // every level with every length of a prefix, and one more of each
    for level in 0..=HIGHEST_DOCUMENT_LEVEL + 1 {
        for length in 0..=LONGEST_PREFIX + 1 {
            let prefix = &b"\t  ".repeat(length)[..length];
            each(judge, &tables, &[0, 1], prefix, level);
        }
    }
    for level in LEVELS {
        for prefix in [&b""[..], b"  ", b"\t", &[b' '; LONGEST_PREFIX], b"x"] {
            each(judge, &tables, &[0, 1, 2], prefix, level);
        }
    }
    for length in (0..=40).chain([255, 256, 257, 272, 65_536, 65_537]) {
        each(judge, &tables, &[0, 1], &vec![b' '; length], 1);
    }
    // each byte at each place of a prefix
    for byte in 0..=255 {
        for length in [1, 2, LONGEST_PREFIX, LONGEST_PREFIX + 1] {
            for place in 0..length {
                let mut prefix = vec![b' '; length];
                prefix[place] = byte;
                each(judge, &tables[..1], &[0, 1], &prefix, 1);
            }
        }
    }
    for breaks in SWITCHES {
        each(judge, &tables, &[breaks], b" ", 1);
    }
}

/// Every choice of right and wrong switch, prefix, level, and table.
pub fn together(judge: &mut Judge, _: &Plan) {
    let mut tables = some_tables();
    tables.push(shapes::one_chain(70));
    tables.push(shapes::crossing(5));
    tables.push(shapes::wide(MOST_NODES + 1));
    for more in 0..2 {
        let mut long = shapes::wide(2);
        long.pool = vec![b'a'; MOST_POOL + more];
        tables.push(long);
    }
    // two faults: the words are cut, and what is left has an unknown kind
    let mut cut = shapes::wide(3);
    cut.words[5] = 99;
    tables.push(cut.clone());
    cut.words.pop();
    tables.push(cut);
    for prefix in [&b"  "[..], &[b' '; LONGEST_PREFIX + 1], b" a"] {
        for level in [1, HIGHEST_DOCUMENT_LEVEL, HIGHEST_DOCUMENT_LEVEL + 1] {
            each(judge, &tables, &[0, 1, 2], prefix, level);
        }
    }
}

pub fn nulls(judge: &mut Judge, _: &Plan) {
    let tables = some_tables();
    for empty in [Empty::Dangling, Empty::Null] {
        judge.empty = empty;
        for level in [0, 1, HIGHEST_DOCUMENT_LEVEL, HIGHEST_DOCUMENT_LEVEL + 1] {
            for prefix in [&b""[..], b" "] {
                each(judge, &tables, &[0, 1, 2], prefix, level);
            }
        }
    }
}
