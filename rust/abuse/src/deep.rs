//! Inputs that ask for the deepest stack: tables of depth 64 through every kind that nests, tables of as many nodes as
//! may be, and the longest values, each under the settings that print most.

use crate::entries::Entry;
use crate::input::{Input, Placing};
use compare::{registry, shapes};
use oracle::generate::{self, OwnTable};
use oracle::plain_print;
use oracle::rng::Rng;
use oracle::table::kind::*;
use oracle::table::{MOST_DEPTH, MOST_NODES, MOST_POOL};
use oracle::Settings;

/// An int, a name, and a string that is printed as a block of several lines.
const POOL: &[u8] = b"1aa\"\"\"\n\tb\n\n \x01\\\ncd";
const NAME_START: u32 = 1;
const STRING_START: u32 = 2;

/// Kinds from a definition to where a value may stand.
const TO_VALUES: [&[u32]; 12] = [
    &[OPERATION, FIELD, ARGUMENT],
    &[OPERATION, FIELD, DIRECTIVE, ARGUMENT],
    &[OPERATION, INLINE_FRAGMENT, DIRECTIVE, ARGUMENT],
    &[FRAGMENT, FRAGMENT_SPREAD, DIRECTIVE, ARGUMENT],
    &[OPERATION, VARIABLE_DEFINITION],
    &[OPERATION, VARIABLE_DEFINITION, DIRECTIVE, ARGUMENT],
    &[DIRECTIVE_DEFINITION, INPUT_VALUE_DEFINITION],
    &[SCALAR, DIRECTIVE, ARGUMENT],
    &[OBJECT, FIELD_DEFINITION, INPUT_VALUE_DEFINITION],
    &[
        INTERFACE_EXTENSION,
        FIELD_DEFINITION,
        INPUT_VALUE_DEFINITION,
        DIRECTIVE,
        ARGUMENT,
    ],
    &[ENUM, ENUM_VALUE_DEFINITION, DIRECTIVE, ARGUMENT],
    &[INPUT_OBJECT_EXTENSION, INPUT_VALUE_DEFINITION],
];

/// Likewise a type.
const TO_TYPES: [&[u32]; 4] = [
    &[OPERATION, VARIABLE_DEFINITION],
    &[OBJECT, FIELD_DEFINITION],
    &[OBJECT, FIELD_DEFINITION, INPUT_VALUE_DEFINITION],
    &[INPUT_OBJECT, INPUT_VALUE_DEFINITION],
];

/// Ways for values to nest, and for selections.
const VALUES: [&[u32]; 3] = [
    &[LIST],
    &[OBJECT_VALUE, OBJECT_FIELD],
    &[LIST, OBJECT_VALUE, OBJECT_FIELD],
];
const SELECTIONS: [&[u32]; 3] = [&[FIELD], &[INLINE_FRAGMENT], &[FIELD, INLINE_FRAGMENT]];

/// The last nodes of a chain of values, the deepest that it may hold.
const LEAVES: [u32; 3] = [STRING, INT, OBJECT_VALUE];

/// A path of kinds from a definition down. Each of them comes after so many of its like, and has what else its kind must
/// have.
fn along(path: &[u32], after: usize) -> OwnTable {
    let mut words = Vec::new();
    below(&[&[DOCUMENT], path].concat(), after, &mut words);
    OwnTable {
        words: words.concat(),
        pool: POOL.to_vec(),
    }
}

fn below(path: &[u32], after: usize, words: &mut Vec<[u32; 5]>) {
    let Some((&kind, rest)) = path.split_first() else {
        return;
    };
    let at = words.len();
    words.push(head(kind));
    let next = rest.first().copied();
    let is_type = matches!(next, Some(NAMED_TYPE | LIST_TYPE));
    let is_selection = matches!(next, Some(FIELD | FRAGMENT_SPREAD | INLINE_FRAGMENT));
    match kind {
        FRAGMENT => below(&[NAMED_TYPE], 0, words),
        VARIABLE_DEFINITION | INPUT_VALUE_DEFINITION if !is_type => below(&[NAMED_TYPE], 0, words),
        _ => {}
    }
    for _ in 0..after {
        below(like(kind, next), 0, words);
    }
    below(rest, after, words);
    match kind {
        OPERATION | INLINE_FRAGMENT | FRAGMENT if !is_selection => below(&[FIELD], 0, words),
        FIELD_DEFINITION if !is_type => below(&[NAMED_TYPE], 0, words),
        DIRECTIVE_DEFINITION => below(&[LOCATION], 0, words),
        _ => {}
    }
    words[at][4] = words.len() as u32;
}

/// A small node that may stand before this child of this kind, if any may.
fn like(kind: u32, child: Option<u32>) -> &'static [u32] {
    match (kind, child) {
        (DOCUMENT, _) => &[SCALAR],
        (LIST, Some(_)) => &[INT],
        (_, Some(OBJECT_FIELD)) => &[OBJECT_FIELD, INT],
        (_, Some(ARGUMENT)) => &[ARGUMENT, INT],
        (_, Some(DIRECTIVE)) => &[DIRECTIVE],
        (_, Some(FIELD | FRAGMENT_SPREAD | INLINE_FRAGMENT)) => &[FIELD],
        (_, Some(VARIABLE_DEFINITION)) => &[VARIABLE_DEFINITION],
        (_, Some(INPUT_VALUE_DEFINITION)) => &[INPUT_VALUE_DEFINITION],
        (_, Some(FIELD_DEFINITION)) => &[FIELD_DEFINITION],
        (_, Some(ENUM_VALUE_DEFINITION)) => &[ENUM_VALUE_DEFINITION],
        _ => &[],
    }
}

/// A node with its text, the end left out.
fn head(kind: u32) -> [u32; 5] {
    let string_length = POOL.len() as u32 - STRING_START;
    match kind {
        STRING => [kind, 0, STRING_START, string_length, 0],
        INT => [kind, 0, 0, 1, 0],
        DOCUMENT | LIST | OBJECT_VALUE | LOCATION | LIST_TYPE => [kind, 0, 0, 0, 0],
        _ => [kind, 0, NAME_START, 1, 0],
    }
}

/// The path to the start, then the cycle as often as fits, then the leaf at depth 64 or nearly: a cycle is not left half
/// way.
fn deepest(to: &[u32], cycle: &[u32], leaf: &[u32]) -> Vec<u32> {
    let left = MOST_DEPTH - to.len() - leaf.len();
    [to, &cycle.repeat(left / cycle.len()), leaf].concat()
}

/// Every way to nest, from every place where it may begin.
fn paths() -> Vec<Vec<u32>> {
    let mut paths = Vec::new();
    for to in TO_VALUES {
        for cycle in VALUES {
            paths.extend(LEAVES.map(|leaf| deepest(to, cycle, &[leaf])));
        }
    }
    paths.extend(TO_TYPES.map(|to| deepest(to, &[LIST_TYPE], &[NAMED_TYPE])));
    for definition in [OPERATION, FRAGMENT] {
        for cycle in SELECTIONS {
            paths.push(deepest(&[definition], cycle, &[FIELD]));
            let spread = [FRAGMENT_SPREAD, DIRECTIVE, ARGUMENT, LIST, STRING];
            paths.push(deepest(&[definition], cycle, &spread));
            // half of the depth in selections, half in values
            let half = [&[definition][..], &cycle.repeat(20), &[FIELD, ARGUMENT]].concat();
            paths.extend(VALUES.map(|values| deepest(&half, values, &[STRING])));
        }
    }
    paths
}

/// A table for each of them, first children all along, and second and third ones.
pub fn nested() -> Vec<OwnTable> {
    let of_path = |path: Vec<u32>| (0..3).map(move |after| along(&path, after));
    paths().into_iter().flat_map(of_path).collect()
}

/// And generated ones, those of as many nodes as may be or one more, and a registry's.
fn tables() -> Vec<OwnTable> {
    let mut rng = Rng::new(1);
    let mut tables = nested();
    tables.extend((0..300).map(|_| generate::deep_table(&mut rng)));
    for nodes in [MOST_NODES, MOST_NODES + 1] {
        tables.push(shapes::chains(nodes));
        tables.push(shapes::wide(nodes));
        tables.push(shapes::one_parent(nodes));
        tables.push(shapes::crossing(nodes));
        tables.push(shapes::staggered(nodes));
        tables.push(shapes::one_chain(nodes));
    }
    tables.push(registry::schema(1, MOST_NODES));
    tables.push(registry::requests(1, MOST_NODES));
    tables
}

/// Values of as many bytes as may be, or one more.
fn values() -> Vec<Vec<u8>> {
    let mut values = Vec::new();
    for piece in [
        &b"\x01"[..],
        b"\"",
        b"\\",
        b"\n",
        b"\r",
        b"\"\"\"",
        b"a",
        b"a\n",
        b"  a\n",
        b"a\n\n \n",
        "\u{10ffff}".as_bytes(),
        b"\xff",
    ] {
        for length in [MOST_POOL, MOST_POOL + 1] {
            let mut value = piece.repeat(length / piece.len() + 1);
            value.truncate(length);
            values.push(value.clone());
            // a block must end in more than blanks
            value[length - 1] = b'z';
            values.push(value);
        }
    }
    values
}

/// Texts to be read: all those values printed, and bare.
fn texts() -> Vec<Vec<u8>> {
    let mut texts = Vec::new();
    for value in values() {
        for (settings, is_description) in [
            (Settings::off(), false),
            (Settings::default(), true),
            (Settings::on("\t", 3), true),
        ] {
            texts.push(plain_print::print_literal(
                &value,
                is_description,
                &settings,
            ));
        }
        texts.push([&b"\"\"\""[..], &value, b"\"\"\""].concat());
        texts.push(value);
    }
    texts
}

/// Each input's output is empty; the caller lends the room that it wants.
pub fn inputs() -> Vec<Input> {
    let mut inputs = Vec::new();
    let new = |entry| Input::new(entry, Placing::Pages(0));
    for value in values() {
        // what is printed of many lines is kept to some megabytes
        let highest = if value.contains(&b'\n') { 8 } else { 128 };
        for number in 0..4 {
            for (level, prefix) in [(0, "  "), (highest, ""), (highest, "\t\t")] {
                inputs.push(Input {
                    bytes: value.clone(),
                    description: number & 1,
                    breaks: number >> 1,
                    level,
                    prefix: prefix.into(),
                    ..new(Entry::PrintLiteral)
                });
            }
        }
    }
    for bytes in texts() {
        inputs.push(Input {
            bytes,
            ..new(Entry::ReadLiteral)
        });
    }
    inputs.extend(tables().iter().flat_map(of_table));
    inputs
}

/// A table's inputs.
pub fn of_table(table: &OwnTable) -> Vec<Input> {
    let new = |entry| Input {
        words: table.words.clone(),
        pool: table.pool.clone(),
        ..Input::new(entry, Placing::Pages(0))
    };
    let mut inputs = vec![new(Entry::CheckTable), new(Entry::CheckDocument)];
    for breaks in [0, 1] {
        for level in [0, 64] {
            inputs.push(Input {
                breaks,
                level,
                prefix: b"  ".to_vec(),
                ..new(Entry::PrintDocument)
            });
        }
    }
    inputs
}
