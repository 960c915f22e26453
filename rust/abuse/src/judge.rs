//! Lends an input's parameters, calls the entry, and holds all that it did against what is wanted.

use crate::entries::{Entries, Entry};
use crate::input::Input;
use crate::slot::Slot;
use crate::stack::Stack;
use crate::wanted::{answer, Answer, Wanted};
use std::ptr;

/// What stands where a number is to be reported: no answer has it.
const UNWRITTEN: [u8; 8] = [0x55; 8];

/// What outputs hold before a call: no UTF-8 has such bytes, and neighbours differ.
const OUTPUT: [u8; 5] = [0xFE, 0xF9, 0xFF, 0xF8, 0xFB];

/// The parameters that point to memory.
const PARAMETERS: usize = 8;
const LENGTH: usize = 5;
const PLACE: usize = 6;
const FORM: usize = 7;

const NAMES: [&str; PARAMETERS] = [
    "value or text",
    "prefix",
    "words",
    "pool",
    "output",
    "length",
    "place",
    "form",
];

pub struct Judge {
    entries: Entries,
    slots: [Slot; PARAMETERS],
    /// Where the calls' stack is measured.
    pub stack: Option<Stack>,
}

/// One parameter's memory: what it holds before a call and what it is to hold after, and of each how many bytes are set.
struct Lent {
    before: Vec<u8>,
    set_before: usize,
    after: Vec<u8>,
    set_after: usize,
}

impl Lent {
    /// That no call changes.
    fn input(bytes: Vec<u8>) -> Self {
        Self {
            set_before: bytes.len(),
            set_after: bytes.len(),
            after: bytes.clone(),
            before: bytes,
        }
    }
}

impl Judge {
    pub fn new(entries: Entries) -> Self {
        Self {
            entries,
            slots: Default::default(),
            stack: None,
        }
    }

    /// What is wrong with the call, if anything is.
    pub fn fault(&mut self, input: &Input, wanted: &Wanted) -> Option<String> {
        let (right, written) = answer(input, wanted);
        let lent = lent(input, &right, written);
        let mut pointers = [ptr::null_mut(); PARAMETERS];
        for (parameter, lent) in lent.iter().enumerate() {
            let place = input.placing.of(parameter);
            pointers[parameter] = self.slots[parameter].lend(&lent.before, lent.set_before, place);
            if lent.before.is_empty() && input.placing.has_nulls() {
                pointers[parameter] = ptr::null_mut();
            }
        }
        let number = self.call(input, &pointers);
        let given = told(input.entry, number, &pointers);
        let mut faults = Vec::new();
        if given != right {
            faults.push(format!("answer {given:x?}, wanted {right:x?}"));
        }
        for (parameter, lent) in lent.iter().enumerate() {
            if !self.slots[parameter].holds(&lent.after, lent.set_after) {
                faults.push(format!("bytes of {} or beside it", NAMES[parameter]));
            }
        }
        (!faults.is_empty()).then(|| faults.join("; "))
    }

    fn call(&mut self, input: &Input, pointers: &[*mut u8; PARAMETERS]) -> u32 {
        let entries = self.entries;
        let call = || {
            // SAFETY: each pointer points to as much memory as the length beside it says, or is null where that is 0.
            unsafe { call(&entries, input, pointers) }
        };
        match &mut self.stack {
            Some(stack) => stack.run(input.entry, call),
            None => call(),
        }
    }

    /// Is every byte of all the memory that was lent from as it was?
    pub fn is_whole(&self) -> bool {
        self.slots.iter().all(Slot::is_whole)
    }
}

fn lent(input: &Input, right: &Answer, written: &[u8]) -> [Lent; PARAMETERS] {
    let is_unset = input.placing.is_unset();
    let entry = input.entry;
    [
        Lent::input(input.bytes.clone()),
        Lent::input(input.prefix.clone()),
        Lent::input(
            input
                .words
                .iter()
                .flat_map(|word| word.to_ne_bytes())
                .collect(),
        ),
        Lent::input(input.pool.clone()),
        output(input, written),
        reported(
            entry.reports_length(),
            is_unset,
            &right.length.to_ne_bytes(),
        ),
        reported(entry.reports_place(), is_unset, &right.place.to_ne_bytes()),
        reported(entry.reports_form(), is_unset, &right.form.to_ne_bytes()),
    ]
}

fn output(input: &Input, written: &[u8]) -> Lent {
    let mut lent = Lent::input(OUTPUT.iter().copied().cycle().take(input.room).collect());
    lent.after[..written.len()].copy_from_slice(written);
    if input.placing.is_unset() {
        lent.set_before = 0;
        lent.set_after = written.len();
    }
    lent
}

/// A number that the entry reports if it takes its address.
fn reported(is_taken: bool, is_unset: bool, right: &[u8]) -> Lent {
    let mut lent = Lent::input(UNWRITTEN[..right.len()].to_vec());
    if is_taken {
        lent.after.copy_from_slice(right);
        if is_unset {
            lent.set_before = 0;
        }
    }
    lent
}

/// The answer, with what stands where numbers are reported.
fn told(entry: Entry, number: u32, pointers: &[*mut u8; PARAMETERS]) -> Answer {
    let long = |is_reported: bool, parameter: usize| match is_reported {
        // SAFETY: a number of eight bytes stands there, aligned.
        true => unsafe { pointers[parameter].cast::<u64>().read() },
        false => 0,
    };
    Answer {
        number,
        place: long(entry.reports_place(), PLACE),
        length: long(entry.reports_length(), LENGTH),
        form: match entry.reports_form() {
            // SAFETY: likewise of four.
            true => unsafe { pointers[FORM].cast::<u32>().read() },
            false => 0,
        },
    }
}

/// # Safety
///
/// The pointers are as the entry asks for: see `include/dervisclo.h`.
unsafe fn call(entries: &Entries, input: &Input, pointers: &[*mut u8; PARAMETERS]) -> u32 {
    let [bytes, prefix, words, pool, out, length, place, form] = *pointers;
    match input.entry {
        Entry::PrintLiteral => (entries.print_literal)(
            bytes,
            input.bytes.len(),
            input.description,
            input.breaks,
            prefix,
            input.prefix.len(),
            input.level,
            out,
            input.room,
            length.cast(),
        ),
        Entry::ReadLiteral => (entries.read_literal)(
            bytes,
            input.bytes.len(),
            out,
            input.room,
            length.cast(),
            form.cast(),
        ),
        Entry::CheckTable => (entries.check_table)(
            words.cast(),
            input.words.len(),
            pool,
            input.pool.len(),
            place.cast(),
        ),
        Entry::CheckDocument => (entries.check_document)(
            input.breaks,
            prefix,
            input.prefix.len(),
            input.level,
            words.cast(),
            input.words.len(),
            pool,
            input.pool.len(),
            place.cast(),
        ),
        Entry::PrintDocument => (entries.print_document)(
            input.breaks,
            prefix,
            input.prefix.len(),
            input.level,
            words.cast(),
            input.words.len(),
            pool,
            input.pool.len(),
            out,
            input.room,
            place.cast(),
            length.cast(),
        ),
    }
}
