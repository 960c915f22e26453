//! Values to be printed, and texts to be read.

use super::bytes;
use compare::literals::{any_settings, any_value};
use compare::wanted::LONGEST_VALUE;
use oracle::plain_print;
use oracle::rng::Rng;

/// How many values in a million are about as long as may be, and how many are too long.
const LONG: usize = 3_000;
const TOO_LONG: usize = 4_000;

/// UTF-8 and not, mostly short.
pub fn value(rng: &mut Rng) -> Vec<u8> {
    let any = rng.below(1_000_000);
    if any < LONG {
        return long(rng);
    }
    if any < LONG + TOO_LONG {
        return bytes::exactly(rng, LONGEST_VALUE + 1);
    }
    match rng.below(10) {
        0 => bytes::random(rng, 80),
        1 => bytes::telling(rng, 60),
        2 => bytes::about_utf8(rng, 30),
        3..=5 => {
            let mut value = any_value(rng).into_bytes();
            bytes::change(rng, &mut value);
            value
        }
        _ => any_value(rng).into_bytes(),
    }
}

/// About the limit of a value: one piece again and again, changed at some place.
fn long(rng: &mut Rng) -> Vec<u8> {
    let length = match rng.below(5) {
        0 => LONGEST_VALUE,
        1 => LONGEST_VALUE + 1,
        2 => LONGEST_VALUE + rng.below(40_000),
        3 => LONGEST_VALUE - rng.below(4),
        _ => rng.below(LONGEST_VALUE),
    };
    let piece = match rng.below(5) {
        0 => bytes::exactly(rng, 1_000),
        1 => vec![rng.number() as u8 & 0x7f],
        2 => b"a\n".repeat(rng.between(1, 20)),
        3 => format!("{}\n", any_value(rng)).into_bytes(),
        _ => any_value(rng).into_bytes(),
    };
    let mut value = piece.repeat(length / piece.len().max(1) + 1);
    if rng.percent(30) {
        bytes::change(rng, &mut value);
    }
    value.truncate(length);
    value
}

/// One literal or nearly one.
pub fn text(rng: &mut Rng, sources: &[Vec<u8>]) -> Vec<u8> {
    let mut text = match rng.below(12) {
        0 => return bytes::random(rng, 60),
        1 => return bytes::telling(rng, 40),
        2 => quoted(&bytes::random(rng, 40)),
        3 => quoted(&bytes::telling(rng, 30)),
        4 => block(&bytes::random(rng, 40)),
        5 => block(&bytes::telling(rng, 40)),
        6 => block(&bytes::about_utf8(rng, 20)),
        7 | 8 => rng.pick(sources).clone(),
        _ => {
            let value = match rng.below(1_000_000) < LONG {
                true => long(rng),
                false => any_value(rng).into_bytes(),
            };
            let mut settings = any_settings(rng);
            settings.level %= 4;
            plain_print::print_literal(&value, rng.percent(60), &settings)
        }
    };
    if rng.percent(35) {
        bytes::change(rng, &mut text);
    }
    text
}

fn quoted(between: &[u8]) -> Vec<u8> {
    [b"\"", between, b"\""].concat()
}

fn block(between: &[u8]) -> Vec<u8> {
    [b"\"\"\"", between, b"\"\"\""].concat()
}
