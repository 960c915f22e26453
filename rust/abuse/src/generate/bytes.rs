//! Bytes, arbitrary and changed.

use oracle::generate::texts::{BAD_UTF8, GOOD_UTF8};
use oracle::rng::Rng;

/// Bytes that mean something to a printer or a reader.
const TELLING: &[u8] =
    b"\"\"\"\\\\\n\n\r\t  abfnrtu0189AFDdg/\x00\x01\x08\x0c\x1f\x7f\x80\xbf\xc2\xe2\xed\xf4\xff";

/// Pure noise of up to that length.
pub fn random(rng: &mut Rng, longest: usize) -> Vec<u8> {
    let length = rng.below(longest + 1);
    exactly(rng, length)
}

pub fn exactly(rng: &mut Rng, length: usize) -> Vec<u8> {
    let mut bytes = Vec::with_capacity(length + 8);
    while bytes.len() < length {
        bytes.extend(rng.number().to_ne_bytes());
    }
    bytes.truncate(length);
    bytes
}

/// Of bytes that mean something.
pub fn telling(rng: &mut Rng, longest: usize) -> Vec<u8> {
    let length = rng.below(longest + 1);
    // ASCII alone half the time
    let from = match rng.below(2) {
        0 => TELLING,
        _ => &TELLING[..36],
    };
    (0..length).map(|_| *rng.pick(from)).collect()
}

/// UTF-8 at its edges, at times just past them.
pub fn about_utf8(rng: &mut Rng, longest: usize) -> Vec<u8> {
    let bad = *rng.pick(&[0, 0, 5, 50]);
    let mut bytes = Vec::new();
    for _ in 0..rng.below(longest + 1) {
        match rng.below(4) {
            0 => bytes.push(b'a'),
            _ if rng.percent(bad) => bytes.extend(*rng.pick(&BAD_UTF8)),
            _ => bytes.extend(*rng.pick(&GOOD_UTF8)),
        }
    }
    bytes
}

/// One to four changes.
pub fn change(rng: &mut Rng, bytes: &mut Vec<u8>) {
    for _ in 0..rng.between(1, 4) {
        change_once(rng, bytes);
    }
}

fn change_once(rng: &mut Rng, bytes: &mut Vec<u8>) {
    let at = rng.below(bytes.len() + 1);
    let byte = match rng.below(4) {
        0 => rng.number() as u8,
        _ => *rng.pick(TELLING),
    };
    if at == bytes.len() {
        return bytes.push(byte);
    }
    let other = rng.between(at, bytes.len());
    match rng.below(8) {
        0 => bytes[at] = byte,
        1 => bytes.insert(at, byte),
        2 => bytes[at] ^= 1 << rng.below(8),
        3 => bytes.truncate(at),
        4 => drop(bytes.drain(..at)),
        5 => drop(bytes.drain(at..other.min(at + 8))),
        6 => {
            let copy = bytes[at..other.min(at + 40)].to_vec();
            let to = rng.below(bytes.len() + 1);
            drop(bytes.splice(to..to, copy));
        }
        _ => {
            bytes.remove(at);
        }
    }
}
