//! What is written down: document 01's known outputs, and the files under `vectors/`.

use super::{Judge, Plan};
use crate::call::{Checked, Document};
use crate::judge::few_rooms;
use crate::vectors::{file, settings, unhex, words};
use oracle::generate::OwnTable;
use oracle::run::known;
use oracle::Settings;

/// Printed to outputs of every length, and to one of far more room.
pub fn known(judge: &mut Judge, _: &Plan) {
    for row in known::documents() {
        let text = row.text.as_bytes();
        let document = Document::new(&row.table, &row.settings);
        judge.print_at(&document, 0..=text.len() + 1, Ok(text));
        judge.print(&document, text.len() + 100_000, Ok(text));
        judge.accepted(&row.table, &row.settings);
    }
}

pub fn vectors(judge: &mut Judge, _: &Plan) {
    for fields in file("documents.txt") {
        let [breaks, level, prefix, table, pool, text] = &fields[..] else {
            panic!("documents.txt: {fields:?}");
        };
        let settings = settings(breaks, level, prefix);
        let table = OwnTable {
            words: words(table),
            pool: unhex(pool),
        };
        let text = unhex(text);
        let document = Document::new(&table, &settings);
        judge.print_at(&document, few_rooms(text.len()), Ok(&text));
        judge.documents += 1;
    }
    for fields in file("refusals.txt") {
        let [number, place, table, pool] = &fields[..] else {
            panic!("refusals.txt: {fields:?}");
        };
        let table = OwnTable {
            words: words(table),
            pool: unhex(pool),
        };
        let refusal = Checked {
            number: number.parse().unwrap(),
            place: place.parse().unwrap(),
        };
        let settings = Settings::default();
        let document = Document::new(&table, &settings);
        if refusal != Checked::ACCEPTED {
            judge.print_at(&document, [0, 1, 200], Err(refusal));
        }
        judge.as_wanted(&document).ok();
    }
}
