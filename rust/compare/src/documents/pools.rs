//! Texts that share bytes of the pool, and bytes that no node names.

use super::generated::{all_settings, any_table, small_table};
use super::{Judge, Plan};
use crate::call::Document;
use crate::changes::other_unnamed_bytes;
use oracle::generate::{self, OwnTable};
use oracle::rng::Rng;
use oracle::table::{kind, WORDS};

/// Any part of it is a name, and none is reserved.
const NAMES: &[u8] = b"abcdefghABCDEFGH";
/// Any part of it is an Int.
const DIGITS: &[u8] = b"123456789";
const FLOAT: &[u8] = b"1.5e1234";
const REST: &[u8] = b"\n\t\xc3\xa9\n\"\"\"a\\";

fn pool() -> Vec<u8> {
    [NAMES, DIGITS, FLOAT, REST].concat()
}

/// The texts of a generated table, all moved into that pool.
fn all_in_one(rng: &mut Rng, table: &OwnTable) -> OwnTable {
    let pool = pool();
    let (digits, float) = (NAMES.len(), NAMES.len() + DIGITS.len());
    let mut words = table.words.clone();
    for node in words.chunks_mut(WORDS).filter(|node| node[3] > 0) {
        let (start, length) = match node[0] {
            kind::DESCRIPTION | kind::STRING => any_string(rng, &pool),
            kind::INT => part(rng, digits, DIGITS.len()),
            // with no exponent, or one of a digit and more
            kind::FLOAT => (float, *rng.pick(&[3, 5, 6, 7, 8])),
            _ => part(rng, 0, NAMES.len()),
        };
        node[2] = start as u32;
        node[3] = length as u32;
    }
    OwnTable { words, pool }
}

/// A range of one byte or more.
fn part(rng: &mut Rng, start: usize, length: usize) -> (usize, usize) {
    let from = rng.below(length);
    (start + from, rng.between(1, length - from))
}

fn any_string(rng: &mut Rng, pool: &[u8]) -> (usize, usize) {
    loop {
        let (start, length) = part(rng, 0, pool.len());
        if std::str::from_utf8(&pool[start..start + length]).is_ok() {
            return (start, length);
        }
    }
}

pub fn shared(judge: &mut Judge, plan: &Plan) {
    let mut rng = plan.rng(5);
    let all = all_settings();
    for number in 0..plan.tables / 20 {
        let table = small_table(&mut rng, number);
        let table = all_in_one(&mut rng, &table);
        judge.accepted(&table, rng.pick(&all));
    }
}

/// Whole tables and damaged ones: the answer and the text stay.
pub fn unnamed(judge: &mut Judge, plan: &Plan) {
    let mut rng = plan.rng(6);
    let all = all_settings();
    for number in 0..plan.tables / 20 {
        let mut table = any_table(&mut rng, number);
        let more = rng.below(4);
        table.pool.extend(std::iter::repeat_n(b'a', more));
        if number % 4 == 1 {
            generate::damage(&mut rng, &mut table);
        }
        let settings = rng.pick(&all);
        let before = judge.as_wanted(&Document::new(&table, settings));
        table.pool = other_unnamed_bytes(&mut rng, &table);
        let room = before.as_ref().map_or(50, Vec::len);
        let wanted = before.as_deref().map_err(|refusal| *refusal);
        judge.print_at(&Document::new(&table, settings), [0, room], wanted);
    }
}
