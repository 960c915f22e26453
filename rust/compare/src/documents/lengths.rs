//! Outputs of every length, from none to one more than is needed.

use super::generated::{all_settings, small_table};
use super::{Judge, Plan};
use crate::call::Document;
use crate::wanted;

/// Longest text.
const TEXT: usize = 1_500;

pub fn every(judge: &mut Judge, plan: &Plan) {
    let mut rng = plan.rng(3);
    let all = all_settings();
    let first = judge.documents;
    let mut number = 0;
    while judge.documents - first < plan.every_length {
        let table = small_table(&mut rng, number);
        let settings = rng.pick(&all);
        number += 1;
        let text = wanted::text(&table.words, &table.pool, settings);
        if text.len() <= TEXT {
            let document = Document::new(&table, settings);
            judge.print_at(&document, 0..=text.len() + 1, Ok(&text));
            judge.documents += 1;
        }
    }
}
