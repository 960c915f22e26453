//! What is written down: document 01's known outputs, and the files under `vectors/`.

use super::Plan;
use crate::call::Print;
use crate::judge::Judge;
use crate::vectors::{file, settings, unhex};
use crate::wanted::{self, Reading};
use oracle::plain_read::{Form, NotOneLiteral};
use oracle::run::known;

/// Printed to outputs of every length; then texts of up to twelve quotes are read.
pub fn known(judge: &mut Judge, _: &Plan) {
    for row in known::literals() {
        let value = row.value.as_bytes();
        let text = row.text.as_bytes();
        let print = Print::new(value, row.is_description, &row.settings);
        judge.print_at(&print, 0..=text.len() + 1, Ok(text));
        judge.print(&print, text.len() + 100_000, Ok(text));
        let form = wanted::form(&row.value, row.is_description, row.settings.breaks);
        judge.read_back(text, form, value);
    }
    for quotes in 0..=12 {
        let wanted = match quotes {
            2 => Ok((Form::Quoted, Vec::new())),
            6 => Ok((Form::Block, Vec::new())),
            _ => Err(NotOneLiteral),
        };
        judge.read_at(&vec![b'"'; quotes], 0..=4, &wanted);
    }
}

pub fn vectors(judge: &mut Judge, _: &Plan) {
    for fields in file("literals.txt") {
        let [kind, breaks, level, prefix, value, text] = &fields[..] else {
            panic!("literals.txt: {fields:?}");
        };
        let settings = settings(breaks, level, prefix);
        let (value, text) = (unhex(value), unhex(text));
        let print = Print::new(&value, kind == "d", &settings);
        judge.print_at(&print, [0, text.len() - 1, text.len() + 3], Ok(&text));
        judge.read_back(&text, wanted::form_of(&text), &value);
    }
    for fields in file("readings.txt") {
        let [form, value, text] = &fields[..] else {
            panic!("readings.txt: {fields:?}");
        };
        let wanted: Reading = match form.as_str() {
            "q" => Ok((Form::Quoted, unhex(value))),
            "b" => Ok((Form::Block, unhex(value))),
            _ => Err(NotOneLiteral),
        };
        let length = unhex(value).len();
        judge.read_at(&unhex(text), 0..=length + 1, &wanted);
    }
}
