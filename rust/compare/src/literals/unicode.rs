//! UTF-8, right and damaged, and escapes.

use super::{Placed, Plan};
use crate::call::Print;
use crate::judge::Judge;
use crate::wanted;
use oracle::generate::texts::{BAD_UTF8, GOOD_UTF8};
use oracle::Settings;

/// Bytes beside each edge of document 01's UTF-8, and those that literals are made of.
const EDGES: [u8; 26] = [
    0x00, b'"', b'\\', 0x7F, 0x80, 0x8F, 0x90, 0x9F, 0xA0, 0xBF, 0xC0, 0xC1, 0xC2, 0xDF, 0xE0,
    0xE1, 0xEC, 0xED, 0xEE, 0xEF, 0xF0, 0xF1, 0xF3, 0xF4, 0xF5, 0xFF,
];

/// All of one or two bytes; all of three and every so many of four bytes out of `EDGES`; the generators' own, in places
/// of a longer value.
pub fn sequences(judge: &mut Judge, plan: &Plan) {
    let mut count = 0;
    for first in 0..=255 {
        one_sequence(judge, &[first]);
        for second in 0..=255 {
            one_sequence(judge, &[first, second]);
        }
    }
    for first in EDGES {
        for second in EDGES {
            for third in EDGES {
                one_sequence(judge, &[first, second, third]);
                for fourth in EDGES {
                    count += 1;
                    if count % plan.unicode_step == 0 {
                        one_sequence(judge, &[first, second, third, fourth]);
                    }
                }
            }
        }
    }
    for sequence in BAD_UTF8.iter().chain(&GOOD_UTF8) {
        for before in 0..20 {
            for after in [0, 1, 7, 30] {
                let around = [vec![b'a'; before], vec![b'b'; after]];
                one_sequence(judge, &[&around[0], *sequence, &around[1]].concat());
            }
        }
    }
}

/// As a value and between quotes of either form. What stands after it would complete a sequence that is cut short.
fn one_sequence(judge: &mut Judge, sequence: &[u8]) {
    let settings = Settings::default();
    let placed = Placed::new(b"\xf4", sequence, b"\x80\x80\x80");
    let is_description = sequence.len() % 2 == 1;
    judge.print_as_wanted(&Print::new(placed.bytes(), is_description, &settings));
    judge.read_as_wanted(&[b"\"", sequence, b"\""].concat());
    judge.read_as_wanted(&[b"\"\"\"", sequence, b"\"\"\""].concat());
}

/// Every so many of the scalars, alone, as both kinds.
pub fn scalars(judge: &mut Judge, plan: &Plan) {
    let settings = Settings::default();
    let scalars = (0..=0x10_FFFF).filter_map(char::from_u32);
    for scalar in scalars.step_by(plan.unicode_step) {
        let value = String::from(scalar);
        for is_description in [false, true] {
            let text = wanted::literal(&value, is_description, &settings);
            let print = Print::new(value.as_bytes(), is_description, &settings);
            judge.print(&print, text.len(), Ok(&text));
            let form = wanted::form(&value, is_description, true);
            judge.read_back(&text, form, value.as_bytes());
        }
    }
}

/// `\uXXXX` for every so many numbers in digits of either case and of both, and a backslash before every byte.
pub fn escapes(judge: &mut Judge, plan: &Plan) {
    for number in (0..=0xFFFF_u32).step_by(plan.unicode_step) {
        let upper = format!("{number:04X}");
        let lower = format!("{number:04x}");
        let mixed = format!("{}{}", &upper[..2], &lower[2..]);
        for digits in [&upper, &lower, &mixed] {
            judge.read_as_wanted(format!("\"\\u{digits}\"").as_bytes());
        }
        judge.read_as_wanted(format!("\"a\\u{upper}\\u{lower}b\"").as_bytes());
    }
    // one byte that may be no digit at each of the four places
    for byte in 0..=255 {
        for place in 0..4 {
            let mut text = *b"\"\\u0041\"";
            text[3 + place] = byte;
            judge.read_as_wanted(&text);
        }
        judge.read_as_wanted(&[b'"', b'\\', byte, b'"']);
        judge.read_as_wanted(&[b'"', b'a', b'\\', byte, b'b', b'"']);
        judge.read_as_wanted(&[b"\"\"\"a\\", &[byte][..], b"b\"\"\""].concat());
    }
}
