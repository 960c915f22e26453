//! Damaged tables: what the plain checker refuses is refused with its number and place, and nothing is written.

use super::generated::{all_settings, any_table};
use super::{Judge, Plan};
use crate::call::Document;
use crate::changes::WAYS;
use crate::registry;
use oracle::generate::faults;

/// Small tables with one fault each.
pub fn faults(judge: &mut Judge, plan: &Plan) {
    let mut rng = plan.rng(7);
    let all = all_settings();
    for table in faults::tables(&mut rng) {
        for settings in &all {
            judge.as_wanted(&Document::new(&table, settings)).ok();
        }
    }
}

pub fn tables(judge: &mut Judge, plan: &Plan) {
    let mut rng = plan.rng(8);
    let all = all_settings();
    for number in 0..plan.damaged {
        let table = any_table(&mut rng, number);
        for way in WAYS {
            for _ in 0..3 {
                let mut table = table.clone();
                way(&mut rng, &mut table);
                let settings = rng.pick(&all);
                judge.as_wanted(&Document::new(&table, settings)).ok();
            }
        }
    }
}

pub fn large(judge: &mut Judge, plan: &Plan) {
    let mut rng = plan.rng(9);
    let all = all_settings();
    let nodes = (plan.large_nodes / 4).max(1_000);
    for _ in 0..plan.large {
        for table in [
            registry::schema(rng.number(), nodes),
            registry::requests(rng.number(), nodes),
        ] {
            for way in WAYS {
                let mut table = table.clone();
                way(&mut rng, &mut table);
                let settings = rng.pick(&all);
                judge.as_wanted(&Document::new(&table, settings)).ok();
            }
        }
    }
}
