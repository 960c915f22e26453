//! From a failing input to a small one that fails too. Each is tried in a process of its own, which may crash.

use crate::entries::Entries;
use crate::fuzz;
use crate::input::{Input, Placing};
use crate::judge::Judge;
use crate::system::{be_silent, Child, Ended, Mapping, PAGE};
use crate::wanted::wanted;
use oracle::table::WORDS;
use std::ops::Range;

/// Most inputs that are tried.
const MOST: usize = 1_500;

/// What is wrong with the input, found by a child.
pub fn fault(entries: &Entries, input: &Input) -> Option<String> {
    let mut message = Mapping::shared(PAGE);
    let child = Child::start(|| {
        be_silent();
        let fault = fuzz::fault(&mut Judge::new(*entries), input, &wanted(input));
        let Some(fault) = fault else {
            return 0;
        };
        let length = fault.len().min(PAGE);
        message.bytes_mut()[..length].copy_from_slice(&fault.as_bytes()[..length]);
        1
    });
    let ended = child.wait();
    let text = String::from_utf8_lossy(message.bytes());
    let text = text.trim_end_matches('\0');
    match ended {
        Ended::Status(0) => None,
        _ if !text.is_empty() => Some(text.into()),
        _ => Some(format!("the call ended the process with {ended:?}")),
    }
}

/// The input if nothing smaller fails, and what is wrong with the one given back.
pub fn smallest(entries: &Entries, input: Input) -> (Input, String) {
    let mut tried = 0;
    let mut best = input;
    let mut found = fault(entries, &best).unwrap_or_default();
    let mut smaller = |input: &Input| {
        let left = candidates(input).take(MOST - tried);
        let fails = |input: Input| {
            tried += 1;
            fault(entries, &input).map(|fault| (input, fault))
        };
        left.map(fails).find_map(|found| found)
    };
    while let Some(next) = smaller(&best) {
        (best, found) = next;
    }
    (best, found)
}

/// Smaller inputs, those that lack much first.
fn candidates(input: &Input) -> impl Iterator<Item = Input> + '_ {
    let nodes = input.words.len() / WORDS;
    let without = |cut: fn(&mut Input, Range<usize>)| {
        move |range| {
            let mut input = input.clone();
            cut(&mut input, range);
            input
        }
    };
    let nodes = ranges(nodes).map(without(cut_nodes));
    let words = ranges(input.words.len()).map(without(|input, range| {
        input.words.drain(range);
    }));
    let bytes = ranges(input.bytes.len()).map(without(|input, range| {
        input.bytes.drain(range);
    }));
    let pool = ranges(input.pool.len()).map(without(cut_pool));
    let prefix = ranges(input.prefix.len()).map(without(|input, range| {
        input.prefix.drain(range);
    }));
    let cuts = nodes.chain(words).chain(bytes).chain(pool).chain(prefix);
    smaller_numbers(input).chain(cuts)
}

/// All, then halves, quarters and so on to single ones.
fn ranges(length: usize) -> impl Iterator<Item = Range<usize>> {
    let widths = std::iter::successors(Some(length), |width| Some(width / 2));
    widths
        .take_while(|&width| width > 0)
        .flat_map(move |width| {
            let starts = (0..length).step_by(width);
            starts.map(move |start| start..(start + width).min(length))
        })
}

/// Where something stands when a range before it, or about it, is cut out.
fn moved(at: u32, range: &Range<usize>) -> u32 {
    let after = (at as usize).saturating_sub(range.start);
    at - after.min(range.len()) as u32
}

/// The ends after them fall.
fn cut_nodes(input: &mut Input, range: Range<usize>) {
    input.words.drain(range.start * WORDS..range.end * WORDS);
    for end in input.words.iter_mut().skip(4).step_by(WORDS) {
        *end = moved(*end, &range);
    }
}

/// The texts of the nodes move with their bytes, if they lie in the pool.
fn cut_pool(input: &mut Input, range: Range<usize>) {
    for node in input.words.chunks_exact_mut(WORDS) {
        let (start, end) = (node[2], node[2].saturating_add(node[3]));
        if end as usize > input.pool.len() {
            continue;
        }
        let (start, end) = (moved(start, &range), moved(end, &range));
        node[3] = end - start;
        node[2] = if start == end { 0 } else { start };
    }
    input.pool.drain(range);
}

fn smaller_numbers(input: &Input) -> impl Iterator<Item = Input> {
    let mut all = Vec::new();
    let mut take = |changed: Input| {
        if changed.size() < input.size() {
            all.push(changed);
        }
    };
    for room in [0, input.room / 2, input.room.saturating_sub(1)] {
        take(Input {
            room,
            ..input.clone()
        });
    }
    for level in [0, 1, input.level / 2] {
        take(Input {
            level,
            ..input.clone()
        });
    }
    for number in [0, 1] {
        take(Input {
            breaks: number,
            ..input.clone()
        });
        take(Input {
            description: number,
            ..input.clone()
        });
    }
    if let Placing::Pages(1..) = input.placing {
        all.push(Input {
            placing: Placing::Pages(0),
            ..input.clone()
        });
    }
    all.into_iter()
}
