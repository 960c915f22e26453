//! The largest stack that each entry uses, over the inputs that ask for most and arbitrary ones.

use crate::deep;
use crate::entries::{Entries, Entry};
use crate::fuzz::fault;
use crate::generate::Maker;
use crate::input::Input;
use crate::judge::Judge;
use crate::stack::{limit, Stack};
use crate::wanted::{wanted, Wanted};
use oracle::run::Tally;

/// Answers are held against what is wanted here too.
pub struct Measure {
    judge: Judge,
    pub tally: Tally,
}

impl Default for Measure {
    fn default() -> Self {
        let mut judge = Judge::new(Entries::LIBRARY);
        judge.stack = Some(Stack::default());
        Self {
            judge,
            tally: Tally::default(),
        }
    }
}

impl Measure {
    /// With no output and with one of just the room.
    pub fn with_rooms(&mut self, mut input: Input) {
        let wanted = wanted(&input);
        self.one(&input, &wanted);
        if input.entry.reports_length() {
            input.room = wanted.as_ref().map_or(0, |text| text.bytes.len());
            self.one(&input, &wanted);
        }
    }

    fn one(&mut self, input: &Input, wanted: &Wanted) {
        let fault = fault(&mut self.judge, input, wanted);
        self.tally.check(fault.is_none(), || {
            format!("{}\n{input}", fault.unwrap_or_default())
        });
    }

    pub fn used(&self, entry: Entry) -> usize {
        let stack = self.judge.stack.as_ref();
        stack.map_or(0, |stack| stack.used(entry))
    }

    fn print(&self, of: &str) {
        println!("largest stack in bytes, {of}:");
        for entry in Entry::ALL {
            let (used, limit) = (self.used(entry), limit(entry));
            println!("  {}: {used} of {limit}", entry.name());
        }
    }
}

pub fn run(seed: u64, inputs: u64) -> Tally {
    let mut measure = Measure::default();
    for input in deep::inputs() {
        measure.with_rooms(input);
    }
    measure.print("over the deepest tables and the longest values");
    let mut maker = Maker::new(seed, false);
    for number in 0..inputs {
        let (input, wanted) = maker.input(number);
        measure.one(&input, &wanted);
    }
    measure.print(&format!("and over {inputs} arbitrary inputs, seed {seed}"));
    for entry in Entry::ALL {
        let (used, limit) = (measure.used(entry), limit(entry));
        measure.tally.check(used > 0 && used <= limit, || {
            format!("{} uses {used} bytes, over {limit}", entry.name())
        });
    }
    measure.tally
}
