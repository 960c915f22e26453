//! One value as the literal of every place: at each level, with breaks on there and off.

use super::{Judge, Plan};
use crate::literals::any_value;
use oracle::generate::OwnTable;
use oracle::run::literals::short_values;
use oracle::table::kind;
use oracle::Settings;

/// Stands for the value where a text is asked for; any other text is `a`.
const VALUE: u32 = 1;

/// Kind, `VALUE` or 0, and end.
const NODES: [(u32, u32, u32); 40] = [
    (kind::DOCUMENT, 0, 40),
    (kind::SCALAR, 0, 6),
    (kind::DESCRIPTION, VALUE, 3),
    (kind::DIRECTIVE, 0, 6),
    (kind::ARGUMENT, 0, 6),
    (kind::STRING, VALUE, 6),
    (kind::OBJECT, 0, 20),
    (kind::FIELD_DEFINITION, 0, 14),
    (kind::DESCRIPTION, VALUE, 9),
    (kind::INPUT_VALUE_DEFINITION, 0, 13),
    (kind::DESCRIPTION, VALUE, 11),
    (kind::NAMED_TYPE, 0, 12),
    (kind::STRING, VALUE, 13),
    (kind::NAMED_TYPE, 0, 14),
    // argument definitions on one line
    (kind::FIELD_DEFINITION, 0, 20),
    (kind::INPUT_VALUE_DEFINITION, 0, 19),
    (kind::NAMED_TYPE, 0, 17),
    (kind::LIST, 0, 19),
    (kind::STRING, VALUE, 19),
    (kind::NAMED_TYPE, 0, 20),
    (kind::INPUT_OBJECT, 0, 32),
    (kind::INPUT_VALUE_DEFINITION, 0, 32),
    (kind::DESCRIPTION, VALUE, 23),
    (kind::NAMED_TYPE, 0, 24),
    (kind::LIST, 0, 32),
    (kind::STRING, VALUE, 26),
    (kind::OBJECT_VALUE, 0, 31),
    (kind::OBJECT_FIELD, 0, 31),
    (kind::LIST, 0, 31),
    (kind::STRING, VALUE, 30),
    (kind::STRING, VALUE, 31),
    (kind::STRING, VALUE, 32),
    (kind::OPERATION, 0, 40),
    (kind::VARIABLE_DEFINITION, 0, 36),
    (kind::NAMED_TYPE, 0, 35),
    (kind::STRING, VALUE, 36),
    (kind::FIELD, 0, 40),
    (kind::ARGUMENT, 0, 40),
    (kind::LIST, 0, 40),
    (kind::STRING, VALUE, 40),
];

/// The value lies in the pool once.
fn table(value: &str) -> OwnTable {
    let length = value.len() as u32;
    let node = |(node, text, end): (u32, u32, u32)| {
        let (start, length) = match node {
            _ if text == VALUE => (0, length),
            kind::DOCUMENT | kind::LIST | kind::OBJECT_VALUE => (0, 0),
            _ => (length, 1),
        };
        [node, 0, start, length, end]
    };
    OwnTable {
        words: NODES.map(node).concat(),
        pool: [value.as_bytes(), b"a"].concat(),
    }
}

pub fn literals(judge: &mut Judge, plan: &Plan) {
    let mut rng = plan.rng(4);
    let settings = [
        Settings::off(),
        Settings::default(),
        Settings::on("\t", 1),
        Settings::on("", 1),
    ];
    for value in short_values(plan.short) {
        for settings in &settings {
            judge.accepted(&table(&value), settings);
        }
    }
    let deep = Settings::on(" \t", 63);
    for _ in 0..plan.damaged {
        let table = table(&any_value(&mut rng));
        judge.accepted(&table, rng.pick(&settings));
        judge.accepted(&table, &deep);
    }
}
