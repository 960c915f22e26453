//! Seeded tables that document 01 accepts, damaged ones, and texts to be read as one literal.

pub mod faults;
mod pack;
pub mod sources;
pub mod texts;
mod trees;

use crate::rng::Rng;
use crate::table::{kind, Table, MOST_DEPTH, WORDS};
use trees::{Maker, Style, Tree};

/// Words and pool of one table.
#[derive(Clone, Debug, Eq, PartialEq)]
pub struct OwnTable {
    pub words: Vec<u32>,
    pub pool: Vec<u8>,
}

impl OwnTable {
    pub fn nodes(&self) -> usize {
        self.words.len() / WORDS
    }

    pub fn view(&self) -> Table<'_> {
        Table {
            words: &self.words,
            pool: &self.pool,
        }
    }
}

/// A number of nodes: mostly small, at times up to the limit.
pub fn any_size(rng: &mut Rng) -> usize {
    match rng.below(1000) {
        0 => 8_192,
        1..=4 => rng.between(1_000, 8_192),
        5..=49 => rng.between(101, 1_000),
        50..=299 => rng.between(31, 100),
        _ => rng.between(1, 30),
    }
}

/// An accepted table of exactly this many nodes, 1 to 8,192.
pub fn table(rng: &mut Rng, nodes: usize) -> OwnTable {
    let tree = tree(rng, nodes);
    pack::pack(rng, &tree)
}

fn tree(rng: &mut Rng, nodes: usize) -> Tree {
    let mut definitions = Vec::new();
    let mut left = nodes - 1;
    let style = Style::any(rng);
    while left > 0 {
        let share = rng.between(1, left.min(200));
        let share = if rng.percent(10) { left } else { share };
        let kind = rng.between(1, 17) as u32;
        let mut definition = definition(rng, style.clone(), kind, share);
        if definition.size() > left {
            let kind = rng.between(kind::SCALAR as usize, kind::INPUT_OBJECT as usize) as u32;
            definition = lone_definition(rng, kind);
        }
        left -= definition.size();
        definitions.push(definition);
    }
    document(definitions)
}

/// An accepted table with one definition, of this kind and of about this many nodes.
pub fn table_of_kind(rng: &mut Rng, kind: u32, nodes: usize) -> OwnTable {
    let style = Style::any(rng);
    let definition = definition(rng, style, kind, nodes);
    pack::pack(rng, &document(vec![definition]))
}

/// An accepted table that nests as deep as it may: types, values, selections, or all of them.
pub fn deep_table(rng: &mut Rng) -> OwnTable {
    let style = Style {
        optional: *rng.pick(&[0, 10, 60]),
        repeats: 1,
        dig: 100,
    };
    let kind = rng.between(1, 17) as u32;
    let definition = definition(rng, style, kind, 20 * MOST_DEPTH);
    pack::pack(rng, &document(vec![definition]))
}

fn document(definitions: Vec<Tree>) -> Tree {
    Tree {
        kind: kind::DOCUMENT,
        variant: 0,
        text: String::new(),
        children: definitions,
    }
}

fn definition(rng: &mut Rng, style: Style, kind: u32, nodes: usize) -> Tree {
    Maker {
        rng,
        style,
        left: nodes as isize,
    }
    .definition(kind)
}

/// A scalar, object, interface, union, enum or input object with a name and nothing else.
fn lone_definition(rng: &mut Rng, kind: u32) -> Tree {
    Tree {
        kind,
        variant: 0,
        text: texts::name(rng),
        children: Vec::new(),
    }
}

/// Changes one to three words, or a byte of the pool, or the number of words. The result may still be accepted.
pub fn damage(rng: &mut Rng, table: &mut OwnTable) {
    for _ in 0..rng.between(1, 3) {
        match rng.below(20) {
            0 => {
                let length = rng.below(table.words.len() + 1);
                table.words.truncate(length);
            }
            1 => table.words.push(rng.below(50) as u32),
            2 if !table.pool.is_empty() => {
                let at = rng.below(table.pool.len());
                table.pool[at] = rng.below(256) as u8;
            }
            3 if !table.pool.is_empty() => {
                table.pool.pop();
            }
            _ if !table.words.is_empty() => damage_word(rng, table),
            _ => {}
        }
    }
}

fn damage_word(rng: &mut Rng, table: &mut OwnTable) {
    let at = rng.below(table.words.len());
    let old = table.words[at];
    let limit = match at % WORDS {
        0 => 46,
        1 => 20,
        4 => table.words.len() / WORDS + 2,
        _ => table.pool.len() + 2,
    };
    table.words[at] = match rng.below(6) {
        0 => old.wrapping_add(1),
        1 => old.wrapping_sub(1),
        2 => 0,
        3 => rng.number() as u32,
        _ => rng.below(limit) as u32,
    };
}
