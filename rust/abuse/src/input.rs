//! One input: an entry, and everything that it is given.

use crate::entries::Entry;
use crate::slot::Place;
use compare::call::{Document, Print};
use std::fmt;

/// What the entry does not take is 0 or empty.
#[derive(Clone, Debug, Eq, PartialEq)]
pub struct Input {
    pub entry: Entry,
    /// The value to be printed, or the text to be read.
    pub bytes: Vec<u8>,
    pub description: u32,
    pub breaks: u32,
    pub prefix: Vec<u8>,
    pub level: u64,
    pub words: Vec<u32>,
    pub pool: Vec<u8>,
    /// Length of the output.
    pub room: usize,
    pub placing: Placing,
}

/// Where the parameters stand, from one arbitrary number.
#[derive(Clone, Copy, Debug, Eq, PartialEq)]
pub enum Placing {
    /// Beside guarded pages or between watched bytes.
    Pages(u64),
    /// In blocks of the heap.
    Heap(u64),
}

impl Placing {
    /// The place of the parameter of this number, below 20.
    pub fn of(self, parameter: usize) -> Place {
        match self {
            Self::Heap(_) => Place::Heap,
            Self::Pages(number) => match number >> (2 * parameter) & 3 {
                0 | 1 => Place::BeforePage,
                2 => Place::AfterPage,
                _ => Place::Between,
            },
        }
    }

    fn number(self) -> u64 {
        match self {
            Self::Pages(number) | Self::Heap(number) => number,
        }
    }

    /// Are empty slices passed as null?
    pub fn has_nulls(self) -> bool {
        self.number() >> 60 & 3 == 0
    }

    /// Are the output and the numbers to be reported unset before the call? In the heap only.
    pub fn is_unset(self) -> bool {
        matches!(self, Self::Heap(_)) && self.number() >> 62 & 1 == 0
    }
}

impl Input {
    pub fn new(entry: Entry, placing: Placing) -> Self {
        Self {
            entry,
            bytes: Vec::new(),
            description: 0,
            breaks: 0,
            prefix: Vec::new(),
            level: 0,
            words: Vec::new(),
            pool: Vec::new(),
            room: 0,
            placing,
        }
    }

    pub fn print(&self) -> Print<'_> {
        Print {
            value: &self.bytes,
            description: self.description,
            breaks: self.breaks,
            prefix: &self.prefix,
            level: self.level,
        }
    }

    pub fn document(&self) -> Document<'_> {
        Document {
            breaks: self.breaks,
            prefix: &self.prefix,
            level: self.level,
            words: &self.words,
            pool: &self.pool,
        }
    }

    /// How much there is to read in it.
    pub fn size(&self) -> usize {
        let numbers = [
            u64::from(self.description),
            u64::from(self.breaks),
            self.level,
        ];
        let bits = numbers.map(|number| (u64::BITS - number.leading_zeros()) as usize);
        self.bytes.len()
            + self.prefix.len()
            + 4 * self.words.len()
            + self.pool.len()
            + (usize::BITS - self.room.leading_zeros()) as usize
            + bits.iter().sum::<usize>()
    }
}

/// All parameters in hexadecimal, lengths in front.
impl fmt::Display for Input {
    fn fmt(&self, f: &mut fmt::Formatter<'_>) -> fmt::Result {
        writeln!(f, "{}", self.entry.name())?;
        if !self.entry.takes_table() {
            writeln!(f, "  bytes {}", hex(&self.bytes))?;
        }
        if self.entry == Entry::PrintLiteral {
            writeln!(f, "  description {:x}", self.description)?;
        }
        if self.entry.takes_settings() {
            let (breaks, level) = (self.breaks, self.level);
            let prefix = hex(&self.prefix);
            writeln!(f, "  breaks {breaks:x}, level {level:x}, prefix {prefix}")?;
        }
        if self.entry.takes_table() {
            write!(f, "  words [{:x}]", self.words.len())?;
            for word in &self.words {
                write!(f, " {word:x}")?;
            }
            writeln!(f, "\n  pool {}", hex(&self.pool))?;
        }
        if self.entry.reports_length() {
            writeln!(f, "  output of {:x} bytes", self.room)?;
        }
        write!(f, "  placing {:x?}", self.placing)
    }
}

fn hex(bytes: &[u8]) -> String {
    let digits: String = bytes.iter().map(|byte| format!("{byte:02x}")).collect();
    format!("[{:x}] {digits}", bytes.len())
}
