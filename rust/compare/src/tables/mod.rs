//! The check of a node table through the C interface, held against the plain checker.

mod damaged;
mod generated;
mod judge;
mod limits;
mod small;
mod unnamed;

use judge::Judge;
use oracle::rng::Rng;
use oracle::run::Tally;
use std::time::Instant;

/// How much is run.
pub struct Plan {
    pub seed: u64,
    /// Every so many of the small tables.
    pub small_step: usize,
    /// Generated tables of each kind of definition.
    pub of_kind: usize,
    /// Generated tables that are damaged.
    pub damaged: usize,
    /// Damaged copies of each, by each way.
    pub copies: usize,
    /// Tables of 1,000 nodes and more.
    pub large: usize,
}

impl Plan {
    pub fn full(seed: u64) -> Self {
        Self {
            seed,
            small_step: 1,
            of_kind: 1_500,
            damaged: 6_000,
            copies: 15,
            large: 120,
        }
    }

    pub fn small(seed: u64) -> Self {
        Self {
            seed,
            small_step: 101,
            of_kind: 10,
            damaged: 40,
            copies: 4,
            large: 1,
        }
    }

    /// Each group has numbers of its own.
    fn rng(&self, group: u64) -> Rng {
        Rng::new(self.seed ^ group << 32)
    }
}

type Group = (&'static str, fn(&mut Judge, &Plan));

const GROUPS: [Group; 15] = [
    ("one node", small::one_node),
    ("two nodes", small::two_nodes),
    ("a document and one node", small::one_below),
    ("three nodes", small::three_nodes),
    ("four nodes, all kinds", small::four_nodes),
    ("all ends of up to eight nodes", small::ends),
    ("texts of up to four bytes", small::texts),
    ("generated tables", generated::tables),
    ("generated tables, large", generated::large),
    ("faults one by one", damaged::faults),
    ("damaged tables", damaged::tables),
    ("damaged chains", damaged::deep),
    ("damaged tables, large", damaged::large),
    ("limits", limits::all),
    ("unnamed bytes", unnamed::bytes),
];

pub fn run(plan: &Plan) -> Tally {
    let mut whole = Judge::default();
    for (name, group) in GROUPS {
        let start = Instant::now();
        let mut judge = Judge::default();
        group(&mut judge, plan);
        println!(
            "{name}: {} ({:.1} s)",
            judge.tally,
            start.elapsed().as_secs_f64()
        );
        whole.add(judge);
    }
    whole.print_counts();
    whole.tally
}
