//! Printing documents through the C interface.

mod damaged;
mod generated;
mod huge;
mod judge;
mod kept;
mod large;
mod lengths;
mod places;
mod pools;
mod refusals;
mod wrapper;

pub use generated::any_table;

use judge::Judge;
use oracle::crate_printer;
use oracle::rng::Rng;
use oracle::run::{Tally, ABSENT};
use std::time::Instant;

/// How much is run.
pub struct Plan {
    pub seed: u64,
    /// Generated tables.
    pub tables: usize,
    /// Longest of the short values that are put to every place of a literal.
    pub short: usize,
    /// Tables that are printed to outputs of every length.
    pub every_length: usize,
    /// Generated tables that are damaged in every way.
    pub damaged: usize,
    /// Large tables of each sort.
    pub large: usize,
    pub large_nodes: usize,
    /// Are all the texts of gigabytes measured, and not one?
    pub huge: bool,
}

impl Plan {
    pub fn full(seed: u64) -> Self {
        Self {
            seed,
            tables: 210_000,
            short: 4,
            every_length: 3_000,
            damaged: 3_000,
            large: 8,
            large_nodes: 8_000,
            huge: true,
        }
    }

    pub fn small(seed: u64) -> Self {
        Self {
            seed,
            tables: 1_500,
            short: 1,
            every_length: 20,
            damaged: 30,
            large: 1,
            large_nodes: 1_000,
            huge: false,
        }
    }

    /// Each group has numbers of its own.
    fn rng(&self, group: u64) -> Rng {
        Rng::new(self.seed ^ group << 32)
    }
}

type Group = (&'static str, fn(&mut Judge, &Plan));

const GROUPS: [Group; 16] = [
    ("known outputs", kept::known),
    ("stored vectors", kept::vectors),
    ("generated tables", generated::tables),
    ("large tables", large::tables),
    ("literals at every place", places::literals),
    ("every output length", lengths::every),
    ("shared and overlapping texts", pools::shared),
    ("unnamed bytes", pools::unnamed),
    ("faults one by one", damaged::faults),
    ("damaged tables", damaged::tables),
    ("damaged tables, large", damaged::large),
    ("settings", refusals::settings),
    ("several faults at once", refusals::together),
    ("null pointers", refusals::nulls),
    ("safe wrapper", wrapper::same_answers),
    ("texts of gigabytes, measured", huge::texts),
];

pub fn run(plan: &Plan) -> Tally {
    if !crate_printer::PRESENT {
        println!("{ABSENT}");
        println!("the plain printer stands for it");
    }
    let mut whole = Judge::default();
    for (name, group) in GROUPS {
        let start = Instant::now();
        let mut judge = Judge::default();
        group(&mut judge, plan);
        judge.finish();
        println!(
            "{name}: {} documents, {} prints: {} ({:.1} s)",
            judge.documents,
            judge.prints,
            judge.tally,
            start.elapsed().as_secs_f64()
        );
        whole.add(&judge);
    }
    whole.print_counts();
    whole.tally
}
