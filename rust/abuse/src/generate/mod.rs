//! Arbitrary inputs, each given by the seed and its number alone.

mod bytes;
mod literals;
mod settings;
mod tables;

use crate::entries::Entry;
use crate::input::{Input, Placing};
use crate::wanted::{wanted, Wanted};
use oracle::generate::{faults, sources, OwnTable};
use oracle::rng::Rng;
use std::sync::LazyLock;

/// Inputs that share the tables that they are made from.
const SHARING: u64 = 60;

/// Texts about the edges of what is one literal.
static TEXTS: LazyLock<Vec<Vec<u8>>> = LazyLock::new(|| sources::texts(&mut Rng::new(1)));

/// Small tables with one fault each.
static FAULTS: LazyLock<Vec<OwnTable>> = LazyLock::new(|| faults::tables(&mut Rng::new(1)));

/// What stands behind the inputs of one run.
pub struct Maker {
    seed: u64,
    is_heap: bool,
    /// Of inputs SHARING times this number and on: tables that document 01 accepts.
    group: Option<u64>,
    tables: Vec<OwnTable>,
}

impl Maker {
    pub fn new(seed: u64, is_heap: bool) -> Self {
        // before any child is made, for all of them
        LazyLock::force(&FAULTS);
        Self {
            seed,
            is_heap,
            group: None,
            tables: Vec::new(),
        }
    }

    /// A stream of numbers of its own for each number.
    fn rng(&self, stream: u64, number: u64) -> Rng {
        let mut seeds = Rng::new(self.seed ^ stream << 56);
        Rng::new(Rng::new(seeds.number() ^ number).number())
    }

    /// The entries take turns.
    pub fn input(&mut self, number: u64) -> (Input, Wanted) {
        let entry = Entry::ALL[(number % Entry::ALL.len() as u64) as usize];
        self.input_of(entry, number)
    }

    fn input_of(&mut self, entry: Entry, number: u64) -> (Input, Wanted) {
        let mut rng = self.rng(1, number);
        let placing = match self.is_heap {
            true => Placing::Heap(rng.number()),
            false => Placing::Pages(rng.number()),
        };
        let mut input = Input::new(entry, placing);
        match entry {
            Entry::PrintLiteral => input.bytes = literals::value(&mut rng),
            Entry::ReadLiteral => input.bytes = literals::text(&mut rng, &TEXTS),
            _ => {
                self.set_tables(number / SHARING);
                let table = tables::table(&mut rng, &self.tables, &FAULTS);
                (input.words, input.pool) = (table.words, table.pool);
            }
        }
        if entry.takes_settings() {
            settings::set(&mut rng, &mut input);
        }
        let wanted = wanted(&input);
        if entry.reports_length() {
            let need = wanted.as_ref().ok().map(|text| text.bytes.len());
            input.room = settings::room(&mut rng, need);
        }
        (input, wanted)
    }

    fn set_tables(&mut self, group: u64) {
        if self.group != Some(group) {
            self.tables = tables::accepted(&mut self.rng(2, group));
            self.group = Some(group);
        }
    }
}
