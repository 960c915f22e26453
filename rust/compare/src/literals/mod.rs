//! Printing and reading one literal through the C interface.

mod damage;
mod kept;
mod large;
mod lengths;
mod random;
mod refusals;
mod short;
mod unicode;
mod wrapper;

pub use random::{any_settings, any_value};

use crate::judge::Judge;
use oracle::crate_printer;
use oracle::rng::Rng;
use oracle::run::{Tally, ABSENT};
use std::time::Instant;

/// How much is run.
pub struct Plan {
    pub seed: u64,
    /// Longest of the short values and texts.
    pub short: usize,
    /// Longest of those that are printed to outputs of every length.
    pub every_length: usize,
    /// Random values.
    pub random: usize,
    /// Every so many of the Unicode scalars, of the escapes and of the sequences of four bytes.
    pub unicode_step: usize,
    /// How many pieces values of about 65,536 bytes are made of.
    pub pieces: usize,
    /// Literals that are damaged.
    pub damaged: usize,
    /// Bytes of a large input.
    pub large: usize,
}

impl Plan {
    pub fn full(seed: u64) -> Self {
        Self {
            seed,
            short: 6,
            every_length: 4,
            random: 60_000,
            unicode_step: 1,
            pieces: usize::MAX,
            damaged: 400,
            large: 6_000_000,
        }
    }

    pub fn small(seed: u64) -> Self {
        Self {
            seed,
            short: 3,
            every_length: 1,
            random: 300,
            unicode_step: 101,
            pieces: 2,
            damaged: 10,
            large: 100_000,
        }
    }

    /// Each group has numbers of its own.
    fn rng(&self, group: u64) -> Rng {
        Rng::new(self.seed ^ group << 32)
    }
}

type Group = (&'static str, fn(&mut Judge, &Plan));

const GROUPS: [Group; 19] = [
    ("known outputs", kept::known),
    ("stored vectors", kept::vectors),
    ("short values", short::values),
    ("short texts", short::texts),
    ("every output length, short values", lengths::short),
    ("every output length, random values", lengths::random),
    ("a byte at every place", lengths::places),
    ("random values", random::values),
    ("values of about 65,536 bytes", large::values),
    ("inputs of megabytes", large::inputs),
    ("UTF-8 and damaged UTF-8", unicode::sequences),
    ("Unicode scalars", unicode::scalars),
    ("escapes", unicode::escapes),
    ("damaged literals", damage::literals),
    ("settings", refusals::settings),
    ("yes-or-no numbers", refusals::switches),
    ("several faults at once", refusals::together),
    ("null pointers", refusals::nulls),
    ("safe wrapper", wrapper::same_answers),
];

pub fn run(plan: &Plan) -> Tally {
    if !crate_printer::PRESENT {
        println!("{ABSENT}");
        println!("the plain printer stands for it");
    }
    let mut tally = Tally::default();
    for (name, group) in GROUPS {
        let start = Instant::now();
        let mut judge = Judge::default();
        group(&mut judge, plan);
        let counts = judge.finish();
        println!(
            "{name}: {} prints, {} reads: {counts} ({:.1} s)",
            judge.prints,
            judge.reads,
            start.elapsed().as_secs_f64()
        );
        tally.add(counts);
    }
    tally
}

/// Bytes in the midst of others, so that a call that looks past their end goes wrong.
struct Placed {
    whole: Vec<u8>,
    start: usize,
    end: usize,
}

impl Placed {
    fn new(before: &[u8], bytes: &[u8], after: &[u8]) -> Self {
        Self {
            whole: [before, bytes, after].concat(),
            start: before.len(),
            end: before.len() + bytes.len(),
        }
    }

    /// A quote stands before them, and three after.
    fn quotes_around(bytes: &[u8]) -> Self {
        Self::new(b"\xff\"", bytes, b"\"\"\"\xff")
    }

    fn bytes(&self) -> &[u8] {
        &self.whole[self.start..self.end]
    }
}
