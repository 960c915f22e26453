//! Tables that document 01 accepts.

use super::{Judge, Plan};
use oracle::generate::{self, OwnTable};

/// Most nodes of a small table.
pub const SMALL: usize = 60;

pub fn tables(judge: &mut Judge, plan: &Plan) {
    let mut rng = plan.rng(1);
    for kind in 1..=17 {
        for count in 0..plan.of_kind {
            let table = generate::table_of_kind(&mut rng, kind, count % SMALL);
            accepted(judge, &table);
        }
    }
    for nodes in 1..=SMALL {
        for _ in 0..plan.of_kind.div_ceil(10) {
            accepted(judge, &generate::table(&mut rng, nodes));
        }
    }
    for _ in 0..plan.of_kind.div_ceil(5) {
        accepted(judge, &generate::deep_table(&mut rng));
    }
}

pub fn large(judge: &mut Judge, plan: &Plan) {
    let mut rng = plan.rng(2);
    for count in 0..plan.large {
        let nodes = match count % 4 {
            0 => rng.between(1_000, 8_192),
            _ => rng.between(100, 2_000),
        };
        accepted(judge, &generate::table(&mut rng, nodes));
    }
}

/// The generator's word for it, and the plain checker's.
fn accepted(judge: &mut Judge, table: &OwnTable) {
    let wanted = judge.table(table);
    judge.tally.check(wanted.number == 0, || {
        format!("generated, and refused by the plain checker with {wanted:?}")
    });
}
