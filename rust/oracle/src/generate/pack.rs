//! From a tree to words and a pool. Texts are placed apart, shared, overlapping, or with bytes between them that
//! no node names.

use super::trees::Tree;
use super::OwnTable;
use crate::rng::Rng;
use crate::table::{kind, MOST_POOL, WORDS};
use std::collections::HashMap;

/// A text for any kind once the pool is full: a name and string `a`, an int `1`, a float `1.5`.
const RESERVE: &[u8] = b"a1.5";

pub fn pack(rng: &mut Rng, tree: &Tree) -> OwnTable {
    let mut packer = Packer {
        rng,
        words: Vec::new(),
        pool: Vec::new(),
        placed: HashMap::new(),
    };
    packer.node(tree);
    OwnTable {
        words: packer.words,
        pool: packer.pool,
    }
}

struct Packer<'a> {
    rng: &'a mut Rng,
    words: Vec<u32>,
    pool: Vec<u8>,
    placed: HashMap<Vec<u8>, usize>,
}

impl Packer<'_> {
    fn node(&mut self, tree: &Tree) {
        let at = self.words.len();
        let (start, length) = self.place(tree);
        self.words
            .extend([tree.kind, tree.variant, start as u32, length as u32, 0]);
        for child in &tree.children {
            self.node(child);
        }
        self.words[at + WORDS - 1] = (self.words.len() / WORDS) as u32;
    }

    fn place(&mut self, tree: &Tree) -> (usize, usize) {
        let text = tree.text.as_bytes();
        if text.is_empty() {
            return (0, 0);
        }
        if matches!(tree.kind, kind::DESCRIPTION | kind::STRING) && self.rng.percent(10) {
            if let Some(place) = self.any_string() {
                return place;
            }
        }
        if let (Some(&start), true) = (self.placed.get(text), self.rng.percent(75)) {
            return (start, text.len());
        }
        // Room for the text, for the bytes put before it, and for the reserve.
        if self.pool.len() + text.len() + 16 > MOST_POOL {
            return self.reserve(tree.kind);
        }
        let start = match self.rng.below(4) {
            0 => self.found(text),
            1 => self.overlapping(text),
            2 => self.after_unnamed(text),
            _ => self.appended(text),
        };
        self.placed.insert(text.to_vec(), start);
        (start, text.len())
    }

    fn appended(&mut self, text: &[u8]) -> usize {
        let start = self.pool.len();
        self.pool.extend_from_slice(text);
        start
    }

    /// Somewhere in the last bytes of the pool, or appended.
    fn found(&mut self, text: &[u8]) -> usize {
        let from = self.pool.len().saturating_sub(512);
        match self.pool[from..]
            .windows(text.len())
            .position(|window| window == text)
        {
            Some(at) => from + at,
            None => self.appended(text),
        }
    }

    /// The longest end of the pool that begins the text is used again.
    fn overlapping(&mut self, text: &[u8]) -> usize {
        let common = (0..=text.len())
            .rev()
            .find(|&length| self.pool.ends_with(&text[..length]))
            .unwrap_or(0);
        let start = self.pool.len() - common;
        self.pool.extend_from_slice(&text[common..]);
        start
    }

    /// Any bytes first, bad UTF-8 among them.
    fn after_unnamed(&mut self, text: &[u8]) -> usize {
        for _ in 0..self.rng.between(1, 4) {
            let byte = self.rng.below(256) as u8;
            self.pool.push(byte);
        }
        self.appended(text)
    }

    /// Any part of the pool that is UTF-8, whatever named it before.
    fn any_string(&mut self) -> Option<(usize, usize)> {
        let size = self.pool.len();
        if size == 0 {
            return None;
        }
        let start = self.rng.below(size);
        let length = self.rng.between(1, (size - start).min(200));
        let text = &self.pool[start..start + length];
        std::str::from_utf8(text).is_ok().then_some((start, length))
    }

    fn reserve(&mut self, kind: u32) -> (usize, usize) {
        let start = match self.placed.get(RESERVE) {
            Some(&start) => start,
            None => {
                let start = self.appended(RESERVE);
                self.placed.insert(RESERVE.to_vec(), start);
                start
            }
        };
        match kind {
            kind::INT => (start + 1, 1),
            kind::FLOAT => (start + 1, 3),
            _ => (start, 1),
        }
    }
}
