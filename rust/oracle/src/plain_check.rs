//! A plain test of document 01's refusals 2 to 7, written from its tables and nothing else.
//! It may take time that is quadratic in the number of nodes.

use crate::table::{Table, MOST_DEPTH, MOST_NODES, MOST_POOL, WORDS};

/// A refusal's number in document 01, and the node that it names.
#[derive(Clone, Copy, Debug, Eq, PartialEq)]
pub struct Refusal {
    pub number: u32,
    pub place: usize,
}

/// Children that a slot takes.
#[derive(Clone, Copy, Debug, Eq, PartialEq)]
pub enum Class {
    Kind(u32),
    /// Kind 33 of variant 0.
    PlainName,
    Definition,
    Selection,
    Type,
    Value,
}

#[derive(Clone, Copy, Debug, Eq, PartialEq)]
pub enum Times {
    One,
    Optional,
    Any,
    Many,
}

pub type Slot = (Class, Times);

impl Class {
    pub fn takes(self, kind: u32, variant: u32) -> bool {
        match self {
            Class::Kind(wanted) => kind == wanted,
            Class::PlainName => kind == 33 && variant == 0,
            Class::Definition => (1..=17).contains(&kind),
            Class::Selection => matches!(kind, 29 | 31 | 32),
            Class::Type => matches!(kind, 33 | 34),
            Class::Value => (35..=43).contains(&kind),
        }
    }
}

/// The table's column "children in order".
pub fn children_of_kind(kind: u32) -> &'static [Slot] {
    use Class::*;
    use Times::*;
    const D: Slot = (Kind(18), Optional);
    const DIRECTIVES: Slot = (Kind(19), Any);
    const T: Slot = (Type, One);
    const V: Slot = (Value, One);
    const V_OR_NONE: Slot = (Value, Optional);
    match kind {
        0 => &[(Definition, Any)],
        1 => &[(Kind(21), Any), DIRECTIVES, (Selection, Many)],
        2 => &[(PlainName, One), DIRECTIVES, (Selection, Many)],
        3 => &[D, (Kind(22), Any), (Kind(28), Many)],
        4 => &[D, DIRECTIVES, (Kind(25), Many)],
        5 => &[D, DIRECTIVES],
        6 | 7 => &[D, (Kind(26), Any), DIRECTIVES, (Kind(23), Any)],
        8 => &[D, DIRECTIVES, (Kind(27), Any)],
        9 => &[D, DIRECTIVES, (Kind(24), Any)],
        10 => &[D, DIRECTIVES, (Kind(22), Any)],
        11 => &[DIRECTIVES, (Kind(25), Any)],
        12 => &[DIRECTIVES],
        13 | 14 => &[(Kind(26), Any), DIRECTIVES, (Kind(23), Any)],
        15 => &[DIRECTIVES, (Kind(27), Any)],
        16 => &[DIRECTIVES, (Kind(24), Any)],
        17 => &[DIRECTIVES, (Kind(22), Any)],
        19 => &[(Kind(20), Any)],
        20 => &[V],
        21 => &[T, V_OR_NONE, DIRECTIVES],
        22 => &[D, T, V_OR_NONE, DIRECTIVES],
        23 => &[D, (Kind(22), Any), T, DIRECTIVES],
        24 => &[D, DIRECTIVES],
        29 => &[
            (Kind(30), Optional),
            (Kind(20), Any),
            DIRECTIVES,
            (Selection, Any),
        ],
        31 => &[DIRECTIVES],
        32 => &[DIRECTIVES, (Selection, Many)],
        34 => &[T],
        42 => &[(Value, Any)],
        43 => &[(Kind(44), Any)],
        44 => &[V],
        _ => &[],
    }
}

/// Largest variant of a kind.
pub fn last_variant(kind: u32) -> u32 {
    match kind {
        1 | 25 => 2,
        3 | 33 | 34 | 36 => 1,
        28 => 18,
        _ => 0,
    }
}

/// Kinds whose column "text" says none.
pub fn has_no_text(kind: u32) -> bool {
    matches!(kind, 0 | 4 | 11 | 28 | 34 | 35 | 36 | 42 | 43)
}

/// Has this node the fault?
type Fault = fn(Table, usize) -> bool;

/// Accepts, or gives the refusal of document 01: the lowest number, and for 3 to 7 the smallest node.
pub fn is_valid(words: &[u32], pool: &[u8]) -> Result<(), Refusal> {
    let table = Table { words, pool };
    let nodes = table.nodes();
    if !words.len().is_multiple_of(WORDS)
        || nodes == 0
        || nodes > MOST_NODES
        || pool.len() > MOST_POOL
    {
        return Err(Refusal {
            number: 2,
            place: 0,
        });
    }
    let faults: [(u32, Fault); 5] = [
        (3, bad_node),
        (4, bad_nesting),
        (5, too_deep),
        (6, bad_children),
        (7, bad_text),
    ];
    for (number, fault) in faults {
        if let Some(place) = (0..nodes).find(|&node| fault(table, node)) {
            return Err(Refusal { number, place });
        }
    }
    Ok(())
}

fn bad_node(table: Table, node: usize) -> bool {
    let kind = table.kind(node);
    let (start, length) = (table.text_start(node), table.text_length(node));
    let end = table.end(node);
    let unknown = kind > 44 || table.variant(node) > last_variant(kind);
    let outside = start + length > table.pool.len();
    let bad_empty = length == 0 && start != 0;
    let unwanted = length != 0 && has_no_text(kind);
    let bad_end = end <= node || end > table.nodes();
    let bad_root = node == 0 && (kind != 0 || end != table.nodes());
    let second_root = node != 0 && kind == 0;
    unknown || outside || bad_empty || unwanted || bad_end || bad_root || second_root
}

fn bad_nesting(table: Table, node: usize) -> bool {
    let end = table.end(node);
    (node + 1..end).any(|later| table.end(later) > end)
}

/// The nodes whose subtree holds this one, itself left out.
fn above(table: Table<'_>, node: usize) -> impl Iterator<Item = usize> + '_ {
    (0..node).filter(move |&other| table.end(other) > node)
}

fn too_deep(table: Table, node: usize) -> bool {
    above(table, node).count() > MOST_DEPTH
}

fn bad_children(table: Table, node: usize) -> bool {
    let kind = table.kind(node);
    let children: Vec<usize> = table.children(node).collect();
    let is_childless_extension = (11..=17).contains(&kind) && children.is_empty();
    !fits(table, &children, children_of_kind(kind))
        || is_childless_extension
        || is_variable_in_constant_place(table, node)
}

/// Do the children fill the slots, in order and with none left?
fn fits(table: Table, children: &[usize], slots: &[Slot]) -> bool {
    let Some((&(class, times), later_slots)) = slots.split_first() else {
        return children.is_empty();
    };
    let run = children
        .iter()
        .take_while(|&&child| class.takes(table.kind(child), table.variant(child)))
        .count();
    let right_count = match times {
        Times::One => run == 1,
        Times::Optional => run <= 1,
        Times::Any => true,
        Times::Many => run >= 1,
    };
    right_count && fits(table, &children[run..], later_slots)
}

fn is_variable_in_constant_place(table: Table, node: usize) -> bool {
    table.kind(node) == 39
        && above(table, node).any(|other| matches!(table.kind(other), 3..=17 | 21))
}

fn bad_text(table: Table, node: usize) -> bool {
    let kind = table.kind(node);
    let text = table.text(node);
    if has_no_text(kind) {
        return false;
    }
    let good = match kind {
        18 | 38 => std::str::from_utf8(text).is_ok(),
        40 => is_float(text),
        41 => is_int(text),
        1 | 32 => text.is_empty() || is_name(text),
        2 | 31 => is_name(text) && text != b"on",
        24 | 37 => is_name(text) && !matches!(text, b"true" | b"false" | b"null"),
        _ => is_name(text),
    };
    !good
}

pub fn is_name(text: &[u8]) -> bool {
    let starts = |byte: u8| byte == b'_' || byte.is_ascii_alphabetic();
    text.first().is_some_and(|&byte| starts(byte))
        && text
            .iter()
            .all(|&byte| starts(byte) || byte.is_ascii_digit())
}

pub fn is_int(text: &[u8]) -> bool {
    after_integer_part(text) == Some(b"")
}

pub fn is_float(text: &[u8]) -> bool {
    let Some(rest) = after_integer_part(text) else {
        return false;
    };
    let after_fraction = match rest {
        [b'.', digits @ ..] => after_digits(digits),
        _ => None,
    };
    match after_fraction {
        Some(b"") => true,
        Some(rest) => after_exponent(rest) == Some(b""),
        None => after_exponent(rest) == Some(b""),
    }
}

/// What follows the Spec's IntegerPart: `-` or nothing, then `0` or digits that do not start with `0`.
fn after_integer_part(text: &[u8]) -> Option<&[u8]> {
    let digits = text.strip_prefix(b"-").unwrap_or(text);
    match digits {
        [b'0', rest @ ..] => Some(rest),
        _ => after_digits(digits),
    }
}

fn after_exponent(text: &[u8]) -> Option<&[u8]> {
    match text {
        [b'e' | b'E', b'+' | b'-', digits @ ..] => after_digits(digits),
        [b'e' | b'E', digits @ ..] => after_digits(digits),
        _ => None,
    }
}

/// What follows one or more digits.
fn after_digits(text: &[u8]) -> Option<&[u8]> {
    let digits = text.iter().take_while(|byte| byte.is_ascii_digit()).count();
    (digits > 0).then(|| &text[digits..])
}
