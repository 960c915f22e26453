//! Calls the library and holds each answer against the plain checker's.

use crate::call::{self, Checked, Empty};
use crate::wanted;
use oracle::generate::OwnTable;
use oracle::run::Tally;
use std::collections::BTreeSet;

/// Answers: 0 for accepted, and document 01's numbers 2 to 7.
const NAMES: [&str; 8] = [
    "accepted", "settings", "size", "node", "nesting", "depth", "children", "text",
];

/// One check a call: the number and the place.
#[derive(Default)]
pub struct Judge {
    pub tally: Tally,
    /// How often each answer was wanted.
    counts: [usize; NAMES.len()],
    /// The places that were wanted with each answer.
    places: [BTreeSet<u64>; NAMES.len()],
}

impl Judge {
    pub fn table(&mut self, table: &OwnTable) -> Checked {
        self.check(&table.words, &table.pool)
    }

    /// Asks for the plain checker's answer.
    pub fn check(&mut self, words: &[u32], pool: &[u8]) -> Checked {
        let wanted = wanted::checked(words, pool);
        self.is(words, pool, wanted);
        wanted
    }

    /// Asks for this answer.
    pub fn is(&mut self, words: &[u32], pool: &[u8], wanted: Checked) {
        self.is_by(words, pool, wanted, Empty::Dangling);
    }

    pub fn is_by(&mut self, words: &[u32], pool: &[u8], wanted: Checked, empty: Empty) {
        let answer = call::check(words, pool, empty);
        self.count(wanted);
        self.tally
            .check(answer == wanted, || differs(answer, wanted, words, pool));
    }

    /// Asks for the plain checker's answer by the safe wrapper.
    pub fn wrapper(&mut self, words: &[u32], pool: &[u8]) {
        let wanted = wanted::checked(words, pool);
        let answer = match dervisclo::check_table(words, pool) {
            Ok(()) => Checked::ACCEPTED,
            Err(refusal) => Checked {
                number: refusal.number(),
                place: refusal.place() as u64,
            },
        };
        self.count(wanted);
        self.tally
            .check(answer == wanted, || differs(answer, wanted, words, pool));
    }

    fn count(&mut self, wanted: Checked) {
        let number = wanted.number as usize;
        self.counts[number] += 1;
        self.places[number].insert(wanted.place);
    }

    pub fn add(&mut self, mut other: Judge) {
        self.tally.add(other.tally);
        for number in 0..NAMES.len() {
            self.counts[number] += other.counts[number];
            self.places[number].append(&mut other.places[number]);
        }
    }

    pub fn print_counts(&self) {
        for (number, name) in NAMES.iter().enumerate().filter(|&(number, _)| number != 1) {
            let (count, places) = (self.counts[number], self.places[number].len());
            match number {
                0 | 2 => println!("{number} {name}: {count}"),
                _ => println!("{number} {name}: {count}, at {places} places"),
            }
        }
        let places: BTreeSet<u64> = self.places.iter().flatten().copied().collect();
        println!("{} places in all", places.len());
    }
}

fn differs(answer: Checked, wanted: Checked, words: &[u32], pool: &[u8]) -> String {
    let shown = &words[..words.len().min(150)];
    let text = pool[..pool.len().min(200)].escape_ascii();
    format!(
        "answer {answer:?}\n  wanted {wanted:?}\n  {} words {shown:?}\n  pool of {} bytes \"{text}\"",
        words.len(),
        pool.len()
    )
}
