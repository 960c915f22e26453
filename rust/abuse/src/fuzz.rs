//! The run: processes of their own take inputs in turn, and what they find stands in memory that they share.

use crate::entries::{Entries, Entry, ANSWERS};
use crate::generate::Maker;
use crate::input::Input;
use crate::judge::Judge;
use crate::system::{Child, Ended, Mapping};
use crate::wanted::{answer, printers_agree, Wanted};
use crate::{safe, shrink};
use oracle::run::Tally;
use std::sync::atomic::{AtomicU64, Ordering::Relaxed};

#[derive(Clone, Copy, Debug)]
pub struct Plan {
    pub seed: u64,
    pub inputs: u64,
    pub workers: usize,
    /// Are blocks of the heap lent, and not memory beside guarded pages?
    pub is_heap: bool,
}

/// Inputs that a worker takes at a time.
const TAKEN: u64 = 6_000;

/// Every so many inputs are given to the safe functions too.
const SAFE: u64 = 8;

/// From so many inputs on, each answer of each entry is to be reached.
pub const FAIR: u64 = 20_000;

pub const MOST_WORKERS: usize = 16;

/// Failing inputs that a worker notes.
const NOTED: usize = 3;

const NONE: u64 = u64::MAX;

/// What the processes share. It begins as zeros.
#[repr(C)]
struct Board {
    next: AtomicU64,
    desks: [Desk; MOST_WORKERS],
}

/// One worker's.
#[repr(C)]
struct Desk {
    /// The input that is being tried.
    now: AtomicU64,
    failed: AtomicU64,
    noted: [AtomicU64; NOTED],
    /// By entry and answer.
    counts: [[AtomicU64; ANSWERS.len()]; Entry::ALL.len()],
    safe: AtomicU64,
}

/// What is wrong with a call of the entry, or with the programs that it is held against.
pub fn fault(judge: &mut Judge, input: &Input, wanted: &Wanted) -> Option<String> {
    if !printers_agree(input, wanted) {
        return Some("the plain printer's text is not the crate's".into());
    }
    judge.fault(input, wanted)
}

fn work(plan: &Plan, entries: Entries, maker: &mut Maker, board: &Board, desk: &Desk) -> u8 {
    let mut judge = Judge::new(entries);
    loop {
        let first = board.next.fetch_add(TAKEN, Relaxed);
        if first >= plan.inputs {
            break;
        }
        for number in first..(first + TAKEN).min(plan.inputs) {
            desk.now.store(number, Relaxed);
            let (input, wanted) = maker.input(number);
            let is_safe = number % SAFE == 0;
            let fails = fault(&mut judge, &input, &wanted).is_some()
                || is_safe && !safe::same(&input, &wanted);
            desk.safe.fetch_add(u64::from(is_safe), Relaxed);
            if fails {
                let noted = desk.failed.fetch_add(1, Relaxed) as usize;
                if let Some(note) = desk.noted.get(noted) {
                    note.store(number, Relaxed);
                }
            } else {
                let (right, _) = answer(&input, &wanted);
                desk.counts[input.entry as usize][right.number as usize].fetch_add(1, Relaxed);
            }
        }
    }
    desk.now.store(NONE, Relaxed);
    u8::from(!judge.is_whole())
}

/// Tries all inputs and prints what was found.
pub fn run(plan: &Plan, entries: Entries) -> Tally {
    let mapping = Mapping::shared(size_of::<Board>());
    // SAFETY: there is room for a board, zeros are one, and all access to it is by atomic numbers.
    let board = unsafe { &*mapping.start().cast::<Board>() };
    let mut maker = Maker::new(plan.seed, plan.is_heap);
    let desks = &board.desks[..plan.workers.clamp(1, MOST_WORKERS)];
    let children: Vec<Child> = desks
        .iter()
        .map(|desk| Child::start(|| work(plan, entries, &mut maker, board, desk)))
        .collect();
    let mut tally = Tally::default();
    for (child, desk) in children.into_iter().zip(desks) {
        let ended = child.wait();
        let now = desk.now.load(Relaxed);
        if now != NONE {
            tally.failed += 1;
            println!("FAILED a worker ended with {ended:?} at input {now}");
            show(&mut maker, &entries, now);
        } else {
            tally.check(ended == Ended::Status(0), || {
                format!("bytes far from all that was lent changed; a worker ended with {ended:?}")
            });
        }
        tally.failed += desk.failed.load(Relaxed) as usize;
        for note in desk.noted.iter().take(desk.failed.load(Relaxed) as usize) {
            show(&mut maker, &entries, note.load(Relaxed));
        }
    }
    let safe: u64 = desks.iter().map(|desk| desk.safe.load(Relaxed)).sum();
    println!("{safe} of the inputs by the safe functions too");
    count(plan, &mut tally, desks);
    tally
}

/// Each input is a check, and so is each answer that is to be reached, unless something else failed.
fn count(plan: &Plan, tally: &mut Tally, desks: &[Desk]) {
    let is_fair = plan.inputs >= FAIR && tally.failed == 0;
    for entry in Entry::ALL {
        let counts: Vec<u64> = (0..ANSWERS.len())
            .map(|number| {
                let of_desk = |desk: &Desk| desk.counts[entry as usize][number].load(Relaxed);
                desks.iter().map(of_desk).sum()
            })
            .collect();
        let inputs: u64 = counts.iter().sum();
        tally.passed += inputs as usize;
        println!("{}: {inputs}", entry.name());
        for &number in entry.answers() {
            let (count, name) = (counts[number as usize], ANSWERS[number as usize]);
            println!("  {number} {name}: {count}");
            if is_fair {
                tally.check(count > 0, || {
                    format!("{} never answered {number}", entry.name())
                });
            }
        }
    }
}

/// Prints a failing input and the smallest that was found from it.
fn show(maker: &mut Maker, entries: &Entries, number: u64) {
    let (input, wanted) = maker.input(number);
    match shrink::fault(entries, &input) {
        Some(_) => {
            let (input, fault) = shrink::smallest(entries, input);
            println!("FAILED input {number}: {fault}\n{input}");
        }
        None if !safe::same(&input, &wanted) => {
            println!("FAILED input {number}: the safe function differs\n{input}");
        }
        None => println!("FAILED input {number}, and not when tried alone\n{input}"),
    }
}

/// One input alone: prints it, and what is wrong with it.
pub fn one(plan: &Plan, number: u64) -> Tally {
    let (input, wanted) = Maker::new(plan.seed, plan.is_heap).input(number);
    let (right, _) = answer(&input, &wanted);
    println!("{input}\nwanted {right:x?}");
    let mut tally = Tally::default();
    let fault = shrink::fault(&Entries::LIBRARY, &input);
    tally.check(fault.is_none(), || fault.unwrap_or_default());
    tally.check(safe::same(&input, &wanted), || "the safe function".into());
    tally
}
