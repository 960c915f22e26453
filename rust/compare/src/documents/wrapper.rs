//! The safe functions of `dervisclo` give the C interface's answers.

use super::generated::{all_settings, any_table};
use super::judge::describe;
use super::{Judge, Plan};
use crate::call::{Checked, Document};
use crate::judge::few_rooms;
use crate::lent::Lent;
use crate::wanted;
use dervisclo::{print_document, print_document_to_vec, DocumentRefusal, Style};
use oracle::generate;

pub fn same_answers(judge: &mut Judge, plan: &Plan) {
    let mut rng = plan.rng(10);
    let mut lent = Lent::default();
    let all = all_settings();
    for number in 0..plan.tables / 20 {
        let mut table = any_table(&mut rng, number);
        if rng.percent(30) {
            generate::damage(&mut rng, &mut table);
        }
        let mut document = Document::new(&table, rng.pick(&all));
        match rng.below(20) {
            0 => document.level += 65,
            1 => document.prefix = b"\n",
            _ => {}
        }
        let wanted = wanted::document(&document);
        one_document(judge, &mut lent, &document, &wanted);
        judge.documents += 1;
    }
}

/// The number of a refusal, its place, and the needed length.
fn told(refusal: DocumentRefusal) -> (u32, usize, usize) {
    let needed = match refusal {
        DocumentRefusal::Room { needed } => needed,
        DocumentRefusal::Table(_) => 0,
    };
    (refusal.number(), refusal.place(), needed)
}

fn one_document(
    judge: &mut Judge,
    lent: &mut Lent,
    document: &Document<'_>,
    wanted: &Result<Vec<u8>, Checked>,
) {
    let Document { words, pool, .. } = document;
    let style = Style {
        breaks: document.breaks == 1,
        prefix: document.prefix,
        level: document.level,
    };
    let refused = |refusal: &Checked| (refusal.number, refusal.place as usize, 0);
    let same = match (print_document_to_vec(words, pool, &style), wanted) {
        (Ok(text), Ok(wanted)) => text == *wanted,
        (Err(refusal), Err(wanted)) => told(refusal) == refused(wanted),
        _ => false,
    };
    judge.prints += 1;
    judge
        .tally
        .check(same, || format!("to a vector: {}", describe(document)));
    for room in few_rooms(wanted.as_ref().map_or(3, Vec::len)) {
        let answer = print_document(words, pool, &style, lent.lend(room)).map_err(told);
        let (right, written) = match wanted {
            Ok(text) if text.len() > room => (Err((8, 0, text.len())), &[][..]),
            Ok(text) => (Ok(text.len()), &text[..]),
            Err(refusal) => (Err(refused(refusal)), &[][..]),
        };
        let same = lent.holds(room, written) && answer == right;
        judge.prints += 1;
        judge
            .tally
            .check(same, || format!("to {room} bytes: {}", describe(document)));
    }
}
