//! All small tables over small words.

use super::{Judge, Plan};
use oracle::plain_check::{has_no_text, last_variant};
use oracle::table::{kind, KIND_NAMES};

const KINDS: u32 = KIND_NAMES.len() as u32;

/// Each node of these words: kinds to one past the last, and the others below their limits.
fn nodes(variants: u32, starts: u32, lengths: u32, ends: u32) -> Vec<[u32; 5]> {
    let mut nodes = Vec::new();
    for kind in 0..=KINDS {
        for variant in 0..variants {
            for start in 0..starts {
                for length in 0..lengths {
                    for end in 0..ends {
                        nodes.push([kind, variant, start, length, end]);
                    }
                }
            }
        }
    }
    nodes
}

pub fn one_node(judge: &mut Judge, plan: &Plan) {
    for node in nodes(4, 3, 3, 3).iter().step_by(plan.small_step) {
        for pool in [&b""[..], b"a", b"ab"] {
            judge.check(node, pool);
        }
    }
}

pub fn two_nodes(judge: &mut Judge, plan: &Plan) {
    let firsts = nodes(2, 2, 2, 4);
    let seconds = nodes(1, 2, 2, 4);
    for first in firsts.iter().step_by(plan.small_step) {
        for second in seconds.iter().step_by(plan.small_step) {
            judge.check([*first, *second].as_flattened(), b"a");
        }
    }
}

pub fn one_below(judge: &mut Judge, plan: &Plan) {
    for node in nodes(21, 4, 5, 4).iter().step_by(plan.small_step) {
        for pool in [&b""[..], b"a_1", b"1a\xc3\xa9", b"\xff"] {
            judge.check([[0, 0, 0, 0, 2], *node].as_flattened(), pool);
        }
    }
}

pub fn three_nodes(judge: &mut Judge, plan: &Plan) {
    let below: Vec<[u32; 5]> = nodes(2, 1, 2, 5)
        .into_iter()
        .filter(|node| node[0] > 0 && node[4] > 1)
        .collect();
    for second in &below {
        for third in below.iter().step_by(plan.small_step) {
            judge.check([[0, 0, 0, 0, 3], *second, *third].as_flattened(), b"a");
        }
    }
}

/// A node with text where its kind has one: `a`, or a number of its kind. The pool is [`POOL`].
fn fitting(kind: u32, variant: u32, end: u32) -> [u32; 5] {
    let (start, length) = match kind {
        _ if has_no_text(kind) => (0, 0),
        kind::FLOAT => (1, 3),
        kind::INT => (1, 1),
        _ => (0, 1),
    };
    [kind, variant, start, length, end]
}

const POOL: &[u8] = b"a1.5";

/// A document, a node of each kind, and below it two of each kind: beside one another, or one within the other.
pub fn four_nodes(judge: &mut Judge, plan: &Plan) {
    for outer in 1..KINDS {
        for first in (1..KINDS).step_by(plan.small_step) {
            for second in 1..KINDS {
                for variant in 0..=last_variant(first).min(1) {
                    for end in [3, 4] {
                        let words = [
                            [0, 0, 0, 0, 4],
                            fitting(outer, 0, 4),
                            fitting(first, variant, end),
                            fitting(second, 0, 4),
                        ];
                        judge.check(words.as_flattened(), POOL);
                    }
                }
            }
        }
    }
}

/// Lists with every combination of ends; the last node's go from its own number to one past the table.
pub fn ends(judge: &mut Judge, plan: &Plan) {
    for nodes in 1..=8 {
        let mut words = vec![[kind::LIST, 0, 0, 0, 0]; nodes];
        words[0] = [kind::DOCUMENT, 0, 0, 0, nodes as u32];
        each_ends(&mut words, 1, &mut |words| {
            judge.check(words.as_flattened(), b"");
        });
        if plan.small_step > 1 && nodes == 5 {
            break;
        }
    }
}

fn each_ends(words: &mut [[u32; 5]], node: usize, call: &mut impl FnMut(&[[u32; 5]])) {
    if node == words.len() {
        return call(words);
    }
    // Wrong ends at the last node only, so that most tables get past the test of nodes.
    let least = if node + 1 == words.len() {
        node
    } else {
        node + 1
    };
    for end in least..=words.len() + usize::from(least == node) {
        words[node][4] = end as u32;
        each_ends(words, node + 1, call);
    }
}

/// Texts of up to four bytes over twelve bytes, and reserved names, at nodes of the kinds that ask for more than a name
/// or for something else.
pub fn texts(judge: &mut Judge, plan: &Plan) {
    const BYTES: [u8; 12] = *b"aZ_09-+.eE\x80\xc3";
    let mut texts = vec![Vec::new()];
    let mut from = 0;
    for _ in 0..4 {
        let to = texts.len();
        for at in from..to {
            for byte in BYTES {
                texts.push([&texts[at][..], &[byte]].concat());
            }
        }
        from = to;
    }
    let reserved = ["on", "true", "false", "null", "onn", "True", "nul", "o"];
    texts.extend(reserved.map(|text| text.as_bytes().to_vec()));
    let words = |length: usize, kind: u32| {
        let (start, length) = (0, length as u32);
        match kind {
            kind::FRAGMENT => vec![
                [kind::DOCUMENT, 0, 0, 0, 4],
                [kind, 0, start, length, 4],
                [kind::NAMED_TYPE, 0, start, length, 3],
                [kind::FIELD, 0, start, length, 4],
            ],
            kind::FRAGMENT_SPREAD => vec![
                [kind::DOCUMENT, 0, 0, 0, 3],
                [kind::OPERATION, 0, 0, 0, 3],
                [kind, 0, start, length, 3],
            ],
            kind::ENUM_VALUE_DEFINITION => vec![
                [kind::DOCUMENT, 0, 0, 0, 3],
                [kind::ENUM, 0, 1, 1, 3],
                [kind, 0, start, length, 3],
            ],
            kind::DESCRIPTION => vec![
                [kind::DOCUMENT, 0, 0, 0, 3],
                [kind::SCALAR, 0, 1, 1, 3],
                [kind, 0, start, length, 3],
            ],
            _ => vec![
                [kind::DOCUMENT, 0, 0, 0, 5],
                [kind::OPERATION, 0, 0, 0, 5],
                [kind::FIELD, 0, 0, 0, 5],
                [kind::ARGUMENT, 0, 0, 0, 5],
                [kind, 0, start, length, 5],
            ],
        }
    };
    let kinds = [
        kind::FRAGMENT,
        kind::FRAGMENT_SPREAD,
        kind::ENUM_VALUE_DEFINITION,
        kind::DESCRIPTION,
        kind::ENUM_VALUE,
        kind::STRING,
        kind::VARIABLE,
        kind::FLOAT,
        kind::INT,
    ];
    for kind in kinds {
        for text in texts.iter().step_by(plan.small_step) {
            // The parents' names stand after the text.
            let pool = [&text[..], b"a"].concat();
            let mut words = words(text.len(), kind);
            for node in &mut words {
                let is_parent = node[0] != kind && node[0] > 1;
                if is_parent {
                    node[2] = text.len() as u32;
                    node[3] = 1;
                }
            }
            judge.check(words.as_flattened(), &pool);
        }
    }
}
