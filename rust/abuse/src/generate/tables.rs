//! Node tables: noise, random shapes, tables that document 01 accepts, and those damaged.

use super::bytes;
use compare::changes::WAYS;
use compare::documents::any_table;
use compare::shapes;
use oracle::generate::{self, OwnTable};
use oracle::plain_check::{has_no_text, last_variant};
use oracle::rng::Rng;
use oracle::table::{KIND_NAMES, MOST_DEPTH, MOST_NODES, MOST_POOL, WORDS};

/// How many tables in a million are about as large as may be, and how many are and are looked at in full.
const LARGE: usize = 400;
const LARGE_AND_LOOKED_AT: usize = 10;

/// Some accepted tables to make others from.
pub fn accepted(rng: &mut Rng) -> Vec<OwnTable> {
    (0..4)
        .map(|_| {
            let number = rng.below(4_000);
            any_table(rng, number)
        })
        .collect()
}

pub fn table(rng: &mut Rng, accepted: &[OwnTable], faults: &[OwnTable]) -> OwnTable {
    let large = rng.below(1_000_000);
    if large < LARGE_AND_LOOKED_AT {
        return whole(rng);
    }
    if large < LARGE {
        return over(rng);
    }
    match rng.below(100) {
        0..=7 => noise(rng),
        8..=15 => random_shape(rng),
        16..=27 => maybe_changed(rng, rng_pick(faults)),
        28..=45 => rng.pick(accepted).clone(),
        46..=49 => maybe_changed(rng, about_depth),
        50..=53 => flipped(rng, accepted),
        _ => {
            let mut table = rng.pick(accepted).clone();
            change(rng, &mut table);
            table
        }
    }
}

fn rng_pick(tables: &[OwnTable]) -> impl Fn(&mut Rng) -> OwnTable + '_ {
    |rng| rng.pick(tables).clone()
}

fn maybe_changed(rng: &mut Rng, make: impl Fn(&mut Rng) -> OwnTable) -> OwnTable {
    let mut table = make(rng);
    if rng.percent(50) {
        change(rng, &mut table);
    }
    table
}

/// One change, at times several.
fn change(rng: &mut Rng, table: &mut OwnTable) {
    loop {
        rng.pick(&WAYS)(rng, table);
        if !rng.percent(25) {
            return;
        }
    }
}

/// Any words at all, and any bytes.
fn noise(rng: &mut Rng) -> OwnTable {
    let length = rng.below(60);
    let small = rng.percent(50);
    let word = |rng: &mut Rng| match small {
        true => rng.below(50) as u32,
        false => rng.number() as u32 >> rng.below(32),
    };
    OwnTable {
        words: (0..length).map(|_| word(rng)).collect(),
        pool: bytes::random(rng, 60),
    }
}

/// Any kinds, with a variant and a text that may stand there, in any nesting.
fn random_shape(rng: &mut Rng) -> OwnTable {
    let nodes = rng.between(1, 12);
    let pool = match rng.below(3) {
        0 => bytes::telling(rng, 30),
        _ => b"a_Z9on-1.5e3true".to_vec(),
    };
    let mut words = vec![0; nodes * WORDS];
    // the ends of the subtrees that hold the next node
    let mut ends = vec![nodes];
    for (node, words) in words.chunks_exact_mut(WORDS).enumerate() {
        while ends.len() > 1 && ends[ends.len() - 1] <= node {
            ends.pop();
        }
        let end = match node {
            0 => nodes,
            _ => rng.between(node + 1, ends[ends.len() - 1]),
        };
        ends.push(end);
        let kind = if node == 0 {
            0
        } else {
            rng.between(1, KIND_NAMES.len() - 1) as u32
        };
        let variant = rng.below(last_variant(kind) as usize + 1) as u32;
        let (start, length) = if has_no_text(kind) || pool.is_empty() || rng.percent(5) {
            (0, 0)
        } else {
            let start = rng.below(pool.len());
            (start, rng.between(1, (pool.len() - start).min(4)))
        };
        words.copy_from_slice(&[kind, variant, start as u32, length as u32, end as u32]);
    }
    OwnTable { words, pool }
}

/// Chains that are about as deep as may be.
fn about_depth(rng: &mut Rng) -> OwnTable {
    let nodes = rng.between(MOST_DEPTH - 2, MOST_DEPTH + 8);
    let make = rng.pick(&[
        shapes::one_chain,
        shapes::chains,
        shapes::staggered,
        shapes::crossing,
        shapes::one_parent,
    ]);
    make(nodes)
}

/// Some bits of words and pool are turned.
fn flipped(rng: &mut Rng, accepted: &[OwnTable]) -> OwnTable {
    let mut table = rng.pick(accepted).clone();
    for _ in 0..rng.between(1, 4) {
        if !table.words.is_empty() {
            let at = rng.below(table.words.len());
            table.words[at] ^= 1 << rng.below(32);
        }
        if !table.pool.is_empty() && rng.percent(50) {
            let at = rng.below(table.pool.len());
            table.pool[at] ^= 1 << rng.below(8);
        }
    }
    table
}

/// Over a limit, or short of a word at it.
fn over(rng: &mut Rng) -> OwnTable {
    let past = rng.between(1, 10);
    let mut table = match rng.below(4) {
        0 => shapes::wide(MOST_NODES + past),
        1 => shapes::wide(3),
        2 => OwnTable {
            words: vec![rng.number() as u32; (MOST_NODES + past) * WORDS],
            pool: bytes::random(rng, 50),
        },
        _ => shapes::wide(MOST_NODES),
    };
    match rng.below(3) {
        0 => table.pool = bytes::exactly(rng, MOST_POOL + past),
        1 => table.words.truncate(table.words.len() - rng.between(1, 4)),
        _ => table.words.push(0),
    }
    table
}

/// As many nodes as may be, or nearly, damaged or not.
fn whole(rng: &mut Rng) -> OwnTable {
    let nodes = MOST_NODES - rng.below(3);
    let mut table = match rng.below(4) {
        0 => shapes::chains(nodes),
        1 => shapes::wide(nodes),
        2 => shapes::one_parent(nodes),
        _ => generate::table(rng, nodes),
    };
    if rng.percent(50) {
        change(rng, &mut table);
    }
    table
}
