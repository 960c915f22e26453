//! Tables at the limits of size, and past them.

use super::{Judge, Plan};
use crate::call::{Checked, Empty};
use crate::{shapes, wanted};
use oracle::table::{MOST_NODES, MOST_POOL, WORDS};

const ACCEPTED: Checked = Checked::ACCEPTED;
const SIZE: Checked = Checked {
    number: 2,
    place: 0,
};

const FIRST_CROSSES: Checked = Checked {
    number: 4,
    place: 1,
};

pub fn all(judge: &mut Judge, plan: &Plan) {
    sizes(judge, plan);
    words_cut(judge);
    pools(judge);
    highest_words(judge);
    nulls(judge);
}

/// About 8,192 nodes: the answers are known from their making, and are the plain checker's too.
fn sizes(judge: &mut Judge, plan: &Plan) {
    for nodes in [1, 2, MOST_NODES - 1, MOST_NODES] {
        judge.is(&shapes::wide(nodes).words, b"a", ACCEPTED);
    }
    for nodes in [MOST_NODES + 1, 2 * MOST_NODES, 100_000] {
        judge.is(&shapes::wide(nodes).words, b"a", SIZE);
    }
    for nodes in [MOST_NODES - 1, MOST_NODES] {
        for (table, answer) in [
            (shapes::wide(nodes), ACCEPTED),
            (shapes::chains(nodes), ACCEPTED),
            (shapes::one_parent(nodes), ACCEPTED),
            (shapes::crossing(nodes), FIRST_CROSSES),
        ] {
            judge.is(&table.words, &table.pool, answer);
            // The plain checker takes its time.
            if plan.small_step == 1 {
                judge.table(&table);
            }
        }
    }
    // One fault at the last node.
    for word in 0..WORDS {
        let mut table = shapes::wide(MOST_NODES);
        table.words[(MOST_NODES - 1) * WORDS + word] = 99;
        judge.table(&table);
    }
}

/// Any number of words up to 60, and about the limit. What follows stays in memory.
fn words_cut(judge: &mut Judge) {
    let words = shapes::wide(MOST_NODES + 2).words;
    let most = MOST_NODES * WORDS;
    for length in (0..60).chain(most - 6..=most + 6) {
        judge.check(&words[..length], b"a");
    }
    for nodes in [3, 11] {
        let words = shapes::wide(nodes).words;
        for length in 0..words.len() {
            judge.check(&words[..length], b"a");
        }
    }
}

/// A name that ends with the pool.
fn pools(judge: &mut Judge) {
    let bytes = vec![b'a'; 2 * MOST_POOL];
    for length in [MOST_POOL - 1, MOST_POOL, MOST_POOL + 1, 2 * MOST_POOL] {
        let pool = &bytes[..length];
        for named in [1, 2, length - 1, length] {
            for past in 0..2 {
                let start = length - named + past;
                let words = [[0, 0, 0, 0, 2], [5, 0, start as u32, named as u32, 2]];
                judge.check(words.as_flattened(), pool);
            }
        }
    }
    judge.is(&[0, 0, 0, 0, 1], &bytes[..MOST_POOL], ACCEPTED);
    judge.is(&[0, 0, 0, 0, 1], &bytes[..MOST_POOL + 1], SIZE);
}

/// 2^32 - 1 at each word, at each two and at all of them, and its neighbours.
fn highest_words(judge: &mut Judge) {
    let table = shapes::wide(4);
    for high in [u32::MAX, u32::MAX - 1, 1 << 31, 65_536, 65_535] {
        for nodes in 0..10 {
            judge.check(&vec![high; nodes * WORDS], b"a");
        }
        judge.check(&vec![high; MOST_NODES * WORDS], b"a");
        judge.check(&vec![high; (MOST_NODES + 1) * WORDS], b"a");
        for one in 0..table.words.len() {
            for other in one..table.words.len() {
                let mut words = table.words.clone();
                words[one] = high;
                words[other] = high;
                judge.check(&words, b"a");
                // start + length wraps round to a small number
                words[other] = high.wrapping_neg();
                judge.check(&words, b"a");
            }
        }
    }
}

fn nulls(judge: &mut Judge) {
    for words in [&[][..], &[0, 0, 0, 0, 1], &[0, 0, 0, 0, 2], &[7]] {
        for pool in [&b""[..], b"a"] {
            judge.is_by(words, pool, wanted::checked(words, pool), Empty::Null);
            judge.wrapper(words, pool);
        }
    }
}
