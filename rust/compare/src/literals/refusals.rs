//! Settings within and past their limits, several faults at once, and empty slices passed as null pointers.

use super::Plan;
use crate::call::{Empty, Print};
use crate::judge::Judge;
use crate::numbers::{LEVELS, SWITCHES};
use crate::wanted::{HIGHEST_LEVEL, LONGEST_PREFIX, LONGEST_VALUE};

const VALUES: [&[u8]; 4] = [b"", b"abc", b"a\nb", b"a\n\n \n\"\"\""];

/// Each value as both kinds, with breaks on and off.
fn each(judge: &mut Judge, prefix: &[u8], level: u64) {
    for value in VALUES {
        for (description, breaks) in [(0, 0), (0, 1), (1, 0), (1, 1)] {
            judge.print_as_wanted(&Print {
                value,
                description,
                breaks,
                prefix,
                level,
            });
        }
    }
}

pub fn settings(judge: &mut Judge, _: &Plan) {
    // every level with every length of a prefix, and one more of each
    for level in 0..=HIGHEST_LEVEL + 1 {
        for length in 0..=LONGEST_PREFIX + 1 {
            each(judge, &b"\t  ".repeat(length)[..length], level);
        }
    }
    for level in LEVELS {
        for prefix in [&b""[..], b"  ", b"\t", &[b' '; LONGEST_PREFIX], b"x"] {
            each(judge, prefix, level);
        }
    }
    for length in (0..=40).chain([255, 256, 257, 272, 65_536, 65_537]) {
        each(judge, &vec![b' '; length], 1);
        each(judge, &vec![b'\t'; length], 0);
    }
    // each byte at each place of a prefix
    for byte in 0..=255 {
        for length in [1, 2, LONGEST_PREFIX, LONGEST_PREFIX + 1] {
            for place in 0..length {
                let mut prefix = vec![b' '; length];
                prefix[place] = byte;
                each(judge, &prefix, 1);
            }
        }
        each(judge, &[byte], 0);
    }
}

/// Each number for description with each for breaks; the value's own bytes are the prefix at times.
pub fn switches(judge: &mut Judge, _: &Plan) {
    for description in SWITCHES {
        for breaks in SWITCHES {
            for (value, prefix) in VALUES
                .map(|value| (value, &b"  "[..]))
                .into_iter()
                .chain([&b" "[..], b"\t \t", b"a"].map(|both| (both, both)))
            {
                judge.print_as_wanted(&Print {
                    value,
                    description,
                    breaks,
                    prefix,
                    level: 1,
                });
            }
        }
    }
}

/// Every choice of right and wrong switches, prefix, level, size and text.
pub fn together(judge: &mut Judge, _: &Plan) {
    let long = vec![b'a'; LONGEST_VALUE + 1];
    let long_and_bad = [&long[..], b"\xff"].concat();
    let bad_at_the_limit = [&long[2..], b"\xff"].concat();
    let values = [
        &b"a\nb"[..],
        b"\xff",
        &long,
        &long_and_bad,
        &bad_at_the_limit,
        &long[1..],
    ];
    for value in values {
        for description in [0, 1, 2] {
            for breaks in [0, 1, 2] {
                for prefix in [&b"  "[..], &[b' '; LONGEST_PREFIX + 1], b" a"] {
                    for level in [1, HIGHEST_LEVEL + 1] {
                        judge.print_as_wanted(&Print {
                            value,
                            description,
                            breaks,
                            prefix,
                            level,
                        });
                    }
                }
            }
        }
    }
}

pub fn nulls(judge: &mut Judge, _: &Plan) {
    for empty in [Empty::Dangling, Empty::Null] {
        judge.empty = empty;
        for prefix in [&b""[..], b" "] {
            for level in [0, 1, HIGHEST_LEVEL, HIGHEST_LEVEL + 1] {
                each(judge, prefix, level);
            }
        }
        for text in [
            &b""[..],
            b"\"",
            b"\"\"",
            b"\"a\"",
            b"\"\"\"\"\"\"",
            b"\"\"\"a\"\"\"",
        ] {
            judge.read_as_wanted(text);
            judge.read_as_wanted(&text[..0]);
        }
    }
}
