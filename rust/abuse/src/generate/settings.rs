//! Switches, prefixes, levels and lengths of outputs.

use super::bytes;
use crate::entries::Entry;
use crate::input::Input;
use compare::numbers::{LEVELS, SWITCHES};
use compare::wanted::{HIGHEST_DOCUMENT_LEVEL, HIGHEST_LEVEL, LONGEST_PREFIX};
use oracle::rng::Rng;

/// Three times in four they are allowed; otherwise each is arbitrary or not.
pub fn set(rng: &mut Rng, input: &mut Input) {
    let is_literal = input.entry == Entry::PrintLiteral;
    let highest = if is_literal {
        HIGHEST_LEVEL
    } else {
        HIGHEST_DOCUMENT_LEVEL
    };
    let arbitrary = if rng.percent(75) { 0 } else { 40 };
    let any = |rng: &mut Rng| rng.percent(arbitrary);
    input.breaks = if any(rng) { switch(rng) } else { bit(rng, 75) };
    if is_literal {
        input.description = if any(rng) { switch(rng) } else { bit(rng, 60) };
    }
    input.level = if any(rng) {
        level(rng)
    } else {
        allowed_level(rng, highest)
    };
    input.prefix = if any(rng) {
        prefix(rng)
    } else {
        blanks(rng, LONGEST_PREFIX)
    };
}

fn bit(rng: &mut Rng, percent: usize) -> u32 {
    u32::from(rng.percent(percent))
}

fn switch(rng: &mut Rng) -> u32 {
    match rng.below(3) {
        0 => rng.number() as u32,
        1 => 1 << rng.below(32),
        _ => *rng.pick(&SWITCHES),
    }
}

fn level(rng: &mut Rng) -> u64 {
    match rng.below(4) {
        0 => rng.number(),
        1 => rng.number() >> rng.below(64),
        2 => rng.below(200) as u64,
        _ => *rng.pick(&LEVELS),
    }
}

fn allowed_level(rng: &mut Rng, highest: u64) -> u64 {
    match rng.below(20) {
        0 => highest,
        1 => rng.below(highest as usize + 1) as u64,
        _ => rng.below(4) as u64,
    }
}

fn blanks(rng: &mut Rng, longest: usize) -> Vec<u8> {
    let length = match rng.below(4) {
        0 => rng.below(longest + 1),
        _ => rng.below(4),
    };
    (0..length).map(|_| *rng.pick(b" \t")).collect()
}

fn prefix(rng: &mut Rng) -> Vec<u8> {
    let longest = if rng.percent(2) { 9_000 } else { 40 };
    match rng.below(4) {
        0 => bytes::random(rng, longest),
        1 => bytes::random(rng, LONGEST_PREFIX),
        2 => blanks(rng, longest),
        _ => {
            let mut prefix = blanks(rng, LONGEST_PREFIX);
            let at = rng.below(prefix.len() + 1);
            prefix.insert(at, rng.number() as u8);
            prefix
        }
    }
}

/// About the length that is needed, or arbitrary.
pub fn room(rng: &mut Rng, need: Option<usize>) -> usize {
    let need = match need {
        Some(need) if rng.percent(90) => need,
        _ => rng.below(200),
    };
    match rng.below(12) {
        0 => 0,
        1 | 2 => need.saturating_sub(1),
        3 | 4 => need,
        5 => need + 1,
        6 => need + rng.below(100),
        7 => rng.below(2 * need + 40),
        8 if rng.percent(1) => rng.below(1 << 18),
        _ => rng.below(need + 1),
    }
}
