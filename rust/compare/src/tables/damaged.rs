//! Damaged copies of accepted tables.

use super::generated::SMALL;
use super::{Judge, Plan};
use crate::changes::WAYS;
use crate::shapes;
use oracle::generate::{self, faults};
use oracle::table::MOST_DEPTH;

/// Small tables with one fault each, and each of them damaged again.
pub fn faults(judge: &mut Judge, plan: &Plan) {
    let mut rng = plan.rng(3);
    for table in faults::tables(&mut rng) {
        judge.table(&table);
        judge.wrapper(&table.words, &table.pool);
        for way in WAYS {
            for _ in 0..plan.copies {
                let mut table = table.clone();
                way(&mut rng, &mut table);
                judge.table(&table);
            }
        }
    }
}

pub fn tables(judge: &mut Judge, plan: &Plan) {
    let mut rng = plan.rng(4);
    for count in 0..plan.damaged {
        let nodes = rng.between(1, SMALL);
        let table = match count % 4 {
            0 => generate::table(&mut rng, nodes),
            1 if count % 16 == 1 => generate::deep_table(&mut rng),
            _ => generate::table_of_kind(&mut rng, 1 + (count % 17) as u32, nodes.min(25)),
        };
        for way in WAYS {
            for _ in 0..plan.copies {
                let mut table = table.clone();
                way(&mut rng, &mut table);
                judge.table(&table);
            }
        }
    }
}

/// Chains about as deep as may be, one alone or many, whole and damaged.
pub fn deep(judge: &mut Judge, plan: &Plan) {
    let mut rng = plan.rng(7);
    for nodes in MOST_DEPTH - 2..MOST_DEPTH + 8 {
        for table in [
            shapes::one_chain(nodes),
            shapes::chains(nodes),
            shapes::chains(nodes + MOST_DEPTH),
            shapes::staggered(nodes),
            shapes::crossing(nodes),
            shapes::one_parent(nodes),
        ] {
            judge.table(&table);
            for way in WAYS {
                for _ in 0..5 * plan.copies {
                    let mut table = table.clone();
                    way(&mut rng, &mut table);
                    judge.table(&table);
                }
            }
        }
    }
}

pub fn large(judge: &mut Judge, plan: &Plan) {
    let mut rng = plan.rng(5);
    for count in 0..plan.large {
        let nodes = match count % 8 {
            0 => rng.between(4_000, 8_192),
            _ => rng.between(100, 1_500),
        };
        let table = generate::table(&mut rng, nodes);
        for way in WAYS {
            let mut table = table.clone();
            way(&mut rng, &mut table);
            judge.table(&table);
        }
    }
}
