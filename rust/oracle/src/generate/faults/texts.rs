//! Other texts: refusal 7, and Variables, which take a text.

use super::{pick_node, set_kind, set_length, set_start, set_text, set_variant, Done};
use crate::generate::texts::{BAD_UTF8, GOOD_UTF8};
use crate::generate::OwnTable;
use crate::plain_check::has_no_text;
use crate::rng::Rng;
use crate::table::{kind, Table};

/// Bytes beside those that a name may have, at its start and after it.
const WRONG_NAMES: [&str; 21] = [
    "0", "9a", "-a", " a", "$a", "@a", "[a", "`a", "{a", "a/", "a:", "a@", "a[", "a^", "a`", "a{",
    "a b", "a\n", "a\0", "a\x7f", "aé",
];

const WRONG_INTS: [&str; 16] = [
    "", "-", "+1", "00", "01", "-01", "1.0", "1e1", "1.", "1a", "--1", " 1", "1 ", "/", "1:", "0x1",
];

const WRONG_FLOATS: [&str; 22] = [
    "", "-", "1", "-0", "1.", ".5", "-.5", "01.5", "00e1", "1e", "1E+", "1.5e-", "1.e1", "1.5.5",
    "1e1.5", "1e1e1", "+1.5", "1.5f", "1.5_", "1.5/", "1e:", "1 .5",
];

fn set_one_of(rng: &mut Rng, table: &mut OwnTable, node: usize, texts: &[&str]) -> Done {
    set_text(table, node, rng.pick(texts).as_bytes())
}

pub fn has_name(kind: u32) -> bool {
    !has_no_text(kind)
        && !matches!(
            kind,
            kind::DESCRIPTION | kind::STRING | kind::FLOAT | kind::INT
        )
}

pub fn wrong_name(rng: &mut Rng, table: &mut OwnTable) -> Done {
    let node = pick_node(rng, table, |view, node| has_name(view.kind(node)))?;
    set_one_of(rng, table, node, &WRONG_NAMES)
}

/// Has this kind a name that may not be empty?
pub fn must_have_name(kind: u32) -> bool {
    has_name(kind) && !matches!(kind, kind::OPERATION | kind::INLINE_FRAGMENT)
}

pub fn empty_name(rng: &mut Rng, table: &mut OwnTable) -> Done {
    let node = pick_node(rng, table, |view, node| has_name(view.kind(node)))?;
    set_text(table, node, b"")
}

/// Each name that a kind may not have.
pub const RESERVED: [(u32, &str); 8] = [
    (kind::FRAGMENT, "on"),
    (kind::FRAGMENT_SPREAD, "on"),
    (kind::ENUM_VALUE_DEFINITION, "true"),
    (kind::ENUM_VALUE_DEFINITION, "false"),
    (kind::ENUM_VALUE_DEFINITION, "null"),
    (kind::ENUM_VALUE, "true"),
    (kind::ENUM_VALUE, "false"),
    (kind::ENUM_VALUE, "null"),
];

pub fn reserved_name(rng: &mut Rng, table: &mut OwnTable, kind: u32, name: &str) -> Done {
    let node = pick_node(rng, table, |view, node| view.kind(node) == kind)?;
    set_text(table, node, name.as_bytes())
}

fn holds_string(view: Table<'_>, node: usize) -> bool {
    matches!(view.kind(node), kind::DESCRIPTION | kind::STRING)
}

pub fn wrong_utf8(rng: &mut Rng, table: &mut OwnTable) -> Done {
    string_around(rng, table, &BAD_UTF8)
}

fn string_around(rng: &mut Rng, table: &mut OwnTable, parts: &[&[u8]]) -> Done {
    let node = pick_node(rng, table, holds_string)?;
    let before = *rng.pick(&["", "a", "é"]);
    let part = *rng.pick(parts);
    let after = *rng.pick(&["", "a", "€"]);
    let text = [before.as_bytes(), part, after.as_bytes()].concat();
    set_text(table, node, &text)
}

pub fn wrong_int(rng: &mut Rng, table: &mut OwnTable) -> Done {
    let node = pick_node(rng, table, |view, node| view.kind(node) == kind::INT)?;
    set_one_of(rng, table, node, &WRONG_INTS)
}

pub fn wrong_float(rng: &mut Rng, table: &mut OwnTable) -> Done {
    let node = pick_node(rng, table, |view, node| view.kind(node) == kind::FLOAT)?;
    set_one_of(rng, table, node, &WRONG_FLOATS)
}

/// By one byte, at its start or its end.
pub fn text_moved(rng: &mut Rng, table: &mut OwnTable) -> Done {
    let node = pick_node(rng, table, |view, node| view.text_length(node) > 1)?;
    let start = table.view().text_start(node) as u32;
    let length = table.view().text_length(node) as u32;
    match rng.below(4) {
        0 => set_start(table, node, start + 1),
        1 => set_start(table, node, start.checked_sub(1)?),
        2 => set_length(table, node, length + 1),
        _ => set_length(table, node, length - 1),
    }
}

pub fn value_to_variable(rng: &mut Rng, table: &mut OwnTable) -> Done {
    value_below_to_variable(rng, table, kind::DOCUMENT)
}

/// A value that has no children and is below a node of this kind becomes a Variable.
pub fn value_below_to_variable(rng: &mut Rng, table: &mut OwnTable, above: u32) -> Done {
    let node = pick_node(rng, table, |view, node| {
        let is_value = (kind::NULL..=kind::OBJECT_VALUE).contains(&view.kind(node));
        let is_above = |other| view.kind(other) == above && view.end(other) > node;
        is_value && view.end(node) == node + 1 && (0..node).any(is_above)
    })?;
    set_kind(table, node, kind::VARIABLE)?;
    set_variant(table, node, 0)?;
    set_text(table, node, b"v")
}

// ---- none

pub fn name_nearly_reserved(rng: &mut Rng, table: &mut OwnTable) -> Done {
    let node = pick_node(rng, table, |view, node| has_name(view.kind(node)))?;
    let names: &[&str] = match table.view().kind(node) {
        kind::FRAGMENT | kind::FRAGMENT_SPREAD => &["On", "o", "one", "true", "null"],
        kind::ENUM_VALUE_DEFINITION | kind::ENUM_VALUE => {
            &["True", "tru", "false_", "nul", "nulls", "on"]
        }
        _ => &["on", "true", "false", "null"],
    };
    set_one_of(rng, table, node, names)
}

pub fn good_utf8(rng: &mut Rng, table: &mut OwnTable) -> Done {
    string_around(rng, table, &GOOD_UTF8)
}

pub fn good_number(rng: &mut Rng, table: &mut OwnTable) -> Done {
    let node = pick_node(rng, table, |view, node| {
        matches!(view.kind(node), kind::INT | kind::FLOAT)
    })?;
    let texts: &[&str] = if table.view().kind(node) == kind::INT {
        &["0", "-0", "10", "-9", "12345678901234567890"]
    } else {
        &["0.0", "-0e0", "1E+09", "10.010e-1", "-1.5e10"]
    };
    set_one_of(rng, table, node, texts)
}

/// A byte that no node names is changed, or put at the end.
pub fn unnamed_byte(rng: &mut Rng, table: &mut OwnTable) -> Done {
    let at = rng.below(table.pool.len() + 1);
    let view = table.view();
    let is_named = |node| {
        let start = view.text_start(node);
        (start..start + view.text_length(node)).contains(&at)
    };
    if (0..table.nodes()).any(is_named) {
        return None;
    }
    let byte = *rng.pick(&[0x00, 0x80, 0xC0, 0xFF]);
    match table.pool.get_mut(at) {
        Some(old) => *old = byte,
        None => table.pool.push(byte),
    }
    Some(())
}
