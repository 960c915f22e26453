//! Large tables: registries, and the generator's.

use super::generated::all_settings;
use super::{Judge, Plan};
use crate::registry;
use oracle::generate;
use oracle::Settings;

/// Longest indent of a line that starts at the outermost level: deep tables print megabytes all the same.
const INDENT: usize = 128;

pub fn tables(judge: &mut Judge, plan: &Plan) {
    let mut rng = plan.rng(2);
    let nodes = plan.large_nodes;
    let mut settings = all_settings();
    settings.retain(|settings| settings.level * settings.prefix.len() <= INDENT);
    for _ in 0..plan.large {
        for table in [
            registry::schema(rng.number(), nodes),
            registry::requests(rng.number(), nodes),
            generate::table(&mut rng, nodes),
        ] {
            judge.accepted(&table, &Settings::default());
            judge.accepted(&table, &Settings::off());
            judge.accepted(&table, rng.pick(&settings));
        }
    }
    let widest = Settings::on(&"\t".repeat(16), 64);
    judge.accepted(&registry::schema(rng.number(), nodes), &widest);
}
