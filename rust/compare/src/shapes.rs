//! Large tables of plain shapes: the pool is `a`.

use oracle::generate::OwnTable;
use oracle::table::{kind, MOST_DEPTH};

fn table(nodes: impl Iterator<Item = [u32; 5]>) -> OwnTable {
    OwnTable {
        words: nodes.flatten().collect(),
        pool: b"a".to_vec(),
    }
}

/// A document of scalars.
pub fn wide(nodes: usize) -> OwnTable {
    table((0..nodes).map(|node| match node {
        0 => [kind::DOCUMENT, 0, 0, 0, nodes as u32],
        _ => [kind::SCALAR, 0, 0, 1, node as u32 + 1],
    }))
}

/// A query of one field with all the others below it.
pub fn one_parent(nodes: usize) -> OwnTable {
    table((0..nodes).map(|node| match node {
        0 => [kind::DOCUMENT, 0, 0, 0, nodes as u32],
        1 => [kind::OPERATION, 0, 0, 0, nodes as u32],
        2 => [kind::FIELD, 0, 0, 1, nodes as u32],
        _ => [kind::FIELD, 0, 0, 1, node as u32 + 1],
    }))
}

/// Queries of fields within one another, as deep as may be, again and again. The last may be short of its field.
pub fn chains(nodes: usize) -> OwnTable {
    table((0..nodes).map(|node| {
        if node == 0 {
            return [kind::DOCUMENT, 0, 0, 0, nodes as u32];
        }
        let below = (node - 1) % MOST_DEPTH;
        let end = (node - below + MOST_DEPTH).min(nodes) as u32;
        match below {
            0 => [kind::OPERATION, 0, 0, 0, end],
            _ => [kind::FIELD, 0, 0, 1, end],
        }
    }))
}

/// All subtrees end before the last node, but for that of the last but one, whose end crosses them all.
pub fn crossing(nodes: usize) -> OwnTable {
    let before = (nodes - 1) as u32;
    table((0..nodes).map(|node| match node {
        0 => [kind::DOCUMENT, 0, 0, 0, nodes as u32],
        _ if node + 2 < nodes => [kind::FIELD, 0, 0, 1, before],
        _ => [kind::FIELD, 0, 0, 1, nodes as u32],
    }))
}

/// Each subtree ends one past the end of the one before, so that it crosses the 63 that follow.
pub fn staggered(nodes: usize) -> OwnTable {
    table((0..nodes).map(|node| match node {
        0 => [kind::DOCUMENT, 0, 0, 0, nodes as u32],
        _ => [kind::FIELD, 0, 0, 1, (node + MOST_DEPTH).min(nodes) as u32],
    }))
}

/// All the others within one another: refused for its depth.
pub fn one_chain(nodes: usize) -> OwnTable {
    table((0..nodes).map(|node| match node {
        0 => [kind::DOCUMENT, 0, 0, 0, nodes as u32],
        1 => [kind::OPERATION, 0, 0, 0, nodes as u32],
        _ => [kind::FIELD, 0, 0, 1, nodes as u32],
    }))
}
