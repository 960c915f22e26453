//! Tables changed at random.

use oracle::generate::{self, OwnTable};
use oracle::rng::Rng;
use oracle::table::{KIND_NAMES, WORDS};

pub type Way = fn(&mut Rng, &mut OwnTable);

/// Ways to damage a table. What comes out may still be accepted.
pub const WAYS: [Way; 11] = [
    generate::damage,
    one_word,
    node_removed,
    node_doubled,
    ends_crossed,
    end_moved,
    kinds_swapped,
    kind_changed,
    text_moved,
    pool_cut,
    pool_byte,
];

/// A node, unless there is none.
fn any_node(rng: &mut Rng, table: &OwnTable) -> Option<usize> {
    let nodes = table.nodes();
    (nodes > 0).then(|| rng.below(nodes))
}

/// A word that may mean something, one off it, or any.
fn one_word(rng: &mut Rng, table: &mut OwnTable) {
    let Some(node) = any_node(rng, table) else {
        return;
    };
    let word = rng.below(WORDS);
    let limit = match word {
        0 => KIND_NAMES.len() + 1,
        1 => 20,
        4 => table.nodes() + 2,
        _ => table.pool.len() + 2,
    };
    let old = table.words[node * WORDS + word];
    table.words[node * WORDS + word] = match rng.below(8) {
        0 => old.wrapping_add(1),
        1 => old.wrapping_sub(1),
        2 => old ^ 1 << rng.below(32),
        3 => u32::MAX - rng.below(3) as u32,
        4 => rng.number() as u32,
        _ => rng.below(limit) as u32,
    };
}

/// The ends after it fall by one, or they stay.
fn node_removed(rng: &mut Rng, table: &mut OwnTable) {
    let Some(node) = any_node(rng, table) else {
        return;
    };
    table.words.drain(node * WORDS..(node + 1) * WORDS);
    if rng.percent(80) {
        for end in table.words.iter_mut().skip(4).step_by(WORDS) {
            if *end > node as u32 {
                *end -= 1;
            }
        }
    }
}

/// It stands twice, and the ends from there on rise by one.
fn node_doubled(rng: &mut Rng, table: &mut OwnTable) {
    let Some(node) = any_node(rng, table) else {
        return;
    };
    let copy = table.words[node * WORDS..(node + 1) * WORDS].to_vec();
    table.words.splice(node * WORDS..node * WORDS, copy);
    for (number, end) in table.words.iter_mut().skip(4).step_by(WORDS).enumerate() {
        if *end > node as u32 && (number != node || rng.percent(50)) {
            *end = end.wrapping_add(1);
        }
    }
}

/// A subtree's end goes to somewhere inside the next, or to anywhere that the test of nodes lets pass.
fn ends_crossed(rng: &mut Rng, table: &mut OwnTable) {
    for _ in 0..rng.between(1, 2) {
        let Some(node) = any_node(rng, table) else {
            return;
        };
        let end = rng.between(node + 1, table.nodes());
        table.words[node * WORDS + 4] = end as u32;
    }
}

fn end_moved(rng: &mut Rng, table: &mut OwnTable) {
    let Some(node) = any_node(rng, table) else {
        return;
    };
    let end = &mut table.words[node * WORDS + 4];
    *end = match rng.below(4) {
        0 => node as u32,
        1 => end.wrapping_sub(1),
        _ => end.wrapping_add(1),
    };
}

/// Kind and text change places; the shape stays.
fn kinds_swapped(rng: &mut Rng, table: &mut OwnTable) {
    let (Some(one), Some(other)) = (any_node(rng, table), any_node(rng, table)) else {
        return;
    };
    let near = if rng.percent(50) {
        (one + 1) % table.nodes()
    } else {
        other
    };
    for word in 0..4 {
        table.words.swap(one * WORDS + word, near * WORDS + word);
    }
}

fn kind_changed(rng: &mut Rng, table: &mut OwnTable) {
    let Some(node) = any_node(rng, table) else {
        return;
    };
    table.words[node * WORDS] = rng.below(KIND_NAMES.len()) as u32;
}

/// To another node's text, or to any range of the pool.
fn text_moved(rng: &mut Rng, table: &mut OwnTable) {
    let (Some(node), Some(other)) = (any_node(rng, table), any_node(rng, table)) else {
        return;
    };
    let (start, length) = if rng.percent(50) || table.pool.is_empty() {
        let words = &table.words[other * WORDS..];
        (words[2], words[3])
    } else {
        let start = rng.below(table.pool.len());
        let longest = (table.pool.len() - start).min(6);
        (start as u32, rng.between(0, longest) as u32)
    };
    table.words[node * WORDS + 2] = start;
    table.words[node * WORDS + 3] = length;
}

/// Bytes after the pool's end stay in memory.
fn pool_cut(rng: &mut Rng, table: &mut OwnTable) {
    let length = rng.below(table.pool.len() + 1);
    table.pool.truncate(length);
}

fn pool_byte(rng: &mut Rng, table: &mut OwnTable) {
    if table.pool.is_empty() {
        return;
    }
    let at = rng.below(table.pool.len());
    table.pool[at] = match rng.below(4) {
        0 => rng.number() as u8,
        1 => *rng.pick(b"0129-+.eE"),
        2 => *rng.pick(b"\x00 \"@[`{\x7f\x80\xc2\xed\xf4"),
        _ => *rng.pick(b"aA_zZ"),
    };
}

/// The pool with any bytes where no node names them.
pub fn other_unnamed_bytes(rng: &mut Rng, table: &OwnTable) -> Vec<u8> {
    let mut pool = table.pool.clone();
    for (byte, is_named) in pool.iter_mut().zip(named(table)) {
        if !is_named {
            *byte = rng.number() as u8;
        }
    }
    pool
}

/// Which bytes of the pool a node names.
fn named(table: &OwnTable) -> Vec<bool> {
    let mut is_named = vec![false; table.pool.len()];
    for node in 0..table.nodes() {
        let start = table.view().text_start(node);
        let end = start + table.view().text_length(node);
        let end = end.min(is_named.len());
        if start < end {
            is_named[start..end].fill(true);
        }
    }
    is_named
}
