//! Bytes of the pool that no node names: they never matter.

use super::generated::SMALL;
use super::{Judge, Plan};
use crate::changes::other_unnamed_bytes;
use oracle::generate;

pub fn bytes(judge: &mut Judge, plan: &Plan) {
    let mut rng = plan.rng(6);
    for count in 0..2 * plan.damaged {
        let nodes = rng.between(1, SMALL);
        let mut table = generate::table(&mut rng, nodes);
        let more = rng.below(4);
        table.pool.extend(std::iter::repeat_n(b'a', more));
        if count % 2 == 1 {
            generate::damage(&mut rng, &mut table);
        }
        let before = judge.table(&table);
        for _ in 0..3 {
            let changed = other_unnamed_bytes(&mut rng, &table);
            judge.is(&table.words, &changed, before);
        }
    }
}
