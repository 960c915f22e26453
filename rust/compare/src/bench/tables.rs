//! The check of tables of growing size.

use super::{calls, median, time};
use crate::shapes;
use dervisclo::check_table;
use oracle::generate::{self, OwnTable};
use oracle::rng::Rng;
use oracle::table::MOST_POOL;
use std::hint::black_box;
use std::time::Duration;

/// Nodes of the tables that are checked.
const NODES: [usize; 4] = [1_000, 2_000, 4_000, 8_000];

/// Most time of one measurement in all its rounds.
const MOST: Duration = Duration::from_secs(1);

/// Generated tables of one size: their mean is taken, since no two have one shape.
const GENERATED: u64 = 16;

type Shape = (&'static str, fn(usize) -> Vec<OwnTable>);

const SHAPES: [Shape; 9] = [
    ("generated", generated),
    ("scalars side by side", |nodes| vec![shapes::wide(nodes)]),
    ("chains of depth 64", |nodes| vec![shapes::chains(nodes)]),
    ("one parent of all", |nodes| vec![shapes::one_parent(nodes)]),
    ("one chain of all", |nodes| vec![shapes::one_chain(nodes)]),
    ("the last end crosses all", |nodes| {
        vec![shapes::crossing(nodes)]
    }),
    ("each end crosses 63", |nodes| {
        vec![shapes::staggered(nodes)]
    }),
    ("chains, a wrong name at the end", wrong_at_the_end),
    ("each name is a pool of 65,536", whole_pool),
];

fn generated(nodes: usize) -> Vec<OwnTable> {
    let table = |seed| generate::table(&mut Rng::new(seed), nodes);
    (0..GENERATED).map(table).collect()
}

fn wrong_at_the_end(nodes: usize) -> Vec<OwnTable> {
    let mut table = shapes::chains(nodes);
    table.pool.push(b'1');
    let last = table.words.len() - 3;
    table.words[last] = 1;
    vec![table]
}

fn whole_pool(nodes: usize) -> Vec<OwnTable> {
    let mut table = shapes::wide(nodes);
    table.pool = vec![b'a'; MOST_POOL];
    for length in table.words.iter_mut().skip(8).step_by(5) {
        *length = MOST_POOL as u32;
    }
    vec![table]
}

/// The query of a.
fn query() -> OwnTable {
    OwnTable {
        words: vec![0, 0, 0, 0, 3, 1, 0, 0, 0, 3, 29, 0, 0, 1, 3],
        pool: b"a".to_vec(),
    }
}

pub fn run(rounds: usize) {
    println!(
        "checking tables; median of {rounds} rounds, of fewer where they take over a second; the answer is that at {} nodes",
        NODES[3]
    );
    println!("microseconds of one table, and nanoseconds of each of its nodes");
    let titles = NODES.map(|nodes| format!("{nodes:>9}"));
    let titles = titles.concat();
    println!("{:34}{:>7}  us{titles}  ns a node{titles}", "", "answer");
    for (name, tables) in SHAPES {
        let mut micros = String::new();
        let mut nanos = String::new();
        let mut number = 0;
        for nodes in NODES {
            let tables = tables(nodes);
            number = check_table(&tables[0].words, &tables[0].pool)
                .map_or_else(|refusal| refusal.number(), |()| 0);
            let seconds = checking(rounds, &tables);
            micros += &format!("{:9.1}", seconds * 1e6);
            nanos += &format!("{:9.1}", seconds * 1e9 / nodes as f64);
        }
        println!("{name:34}{number:7}    {micros}           {nanos}");
    }
    let seconds = checking(rounds, &[query()]);
    println!("the query of a, 3 nodes: {:.2} us", seconds * 1e6);
}

/// Median seconds of the check of one table, over all of these.
fn checking(rounds: usize, tables: &[OwnTable]) -> f64 {
    let call = &mut |_: &mut [u8]| {
        let is_accepted = |table: &&OwnTable| {
            let table = black_box(*table);
            check_table(&table.words, &table.pool).is_ok()
        };
        tables.iter().filter(is_accepted).count()
    };
    let calls = calls(&mut [], call);
    let one_round = time(calls, &mut [], call) * calls as f64;
    let rounds = rounds.min((MOST.as_secs_f64() / one_round) as usize);
    let times = (0..rounds.max(1)).map(|_| time(calls, &mut [], call));
    median(times.collect()) / tables.len() as f64
}
