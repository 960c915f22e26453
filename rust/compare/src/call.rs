//! The C functions as the runs call them: with any numbers, and with everything that they report.

use dervisclo::c;
use oracle::generate::OwnTable;
use oracle::Settings;
use std::ptr;

/// What printing is given beside the output.
#[derive(Clone, Copy)]
pub struct Print<'a> {
    pub value: &'a [u8],
    pub description: u32,
    pub breaks: u32,
    pub prefix: &'a [u8],
    pub level: u64,
}

impl<'a> Print<'a> {
    pub fn new(value: &'a [u8], is_description: bool, settings: &'a Settings) -> Self {
        Self {
            value,
            description: u32::from(is_description),
            breaks: u32::from(settings.breaks),
            prefix: settings.prefix.as_bytes(),
            level: settings.level as u64,
        }
    }
}

/// The result, and what the call left behind `length` and `form`.
#[derive(Clone, Copy, Debug, Eq, PartialEq)]
pub struct Answer {
    pub number: u32,
    pub length: u64,
    /// Of reading only.
    pub form: u32,
}

/// What stands behind `length`, `form` and `place` before a call: no answer has it.
const UNWRITTEN: u32 = 0x5555_5555;

/// How an empty slice is passed.
#[derive(Clone, Copy, Debug, Eq, PartialEq)]
pub enum Empty {
    /// As Rust has it: a pointer to no byte.
    Dangling,
    Null,
}

impl Empty {
    fn pointer<T>(self, slice: &[T]) -> *const T {
        match self {
            Empty::Null if slice.is_empty() => ptr::null(),
            _ => slice.as_ptr(),
        }
    }

    fn pointer_mut(self, bytes: &mut [u8]) -> *mut u8 {
        match self {
            Empty::Null if bytes.is_empty() => ptr::null_mut(),
            _ => bytes.as_mut_ptr(),
        }
    }
}

pub fn print(print: &Print<'_>, empty: Empty, out: &mut [u8]) -> Answer {
    let mut length = u64::from(UNWRITTEN);
    // SAFETY: each pointer comes with the length of the slice behind it, and is null only where that is 0.
    let number = unsafe {
        c::dervisclo_print_literal(
            empty.pointer(print.value),
            print.value.len(),
            print.description,
            print.breaks,
            empty.pointer(print.prefix),
            print.prefix.len(),
            print.level,
            empty.pointer_mut(out),
            out.len(),
            &mut length,
        )
    };
    Answer {
        number,
        length,
        form: 0,
    }
}

pub fn read(text: &[u8], empty: Empty, out: &mut [u8]) -> Answer {
    let mut length = u64::from(UNWRITTEN);
    let mut form = UNWRITTEN;
    // SAFETY: as above.
    let number = unsafe {
        c::dervisclo_read_literal(
            empty.pointer(text),
            text.len(),
            empty.pointer_mut(out),
            out.len(),
            &mut length,
            &mut form,
        )
    };
    Answer {
        number,
        length,
        form,
    }
}

/// What checking a table answers: the number, and what the call left behind `place`.
#[derive(Clone, Copy, Debug, Eq, PartialEq)]
pub struct Checked {
    pub number: u32,
    pub place: u64,
}

impl Checked {
    pub const ACCEPTED: Self = Self {
        number: 0,
        place: 0,
    };
}

pub fn check(words: &[u32], pool: &[u8], empty: Empty) -> Checked {
    let mut place = u64::from(UNWRITTEN);
    // SAFETY: as above.
    let number = unsafe {
        c::dervisclo_check_table(
            empty.pointer(words),
            words.len(),
            empty.pointer(pool),
            pool.len(),
            &mut place,
        )
    };
    Checked { number, place }
}

/// What printing a document is given beside the output.
#[derive(Clone, Copy)]
pub struct Document<'a> {
    pub breaks: u32,
    pub prefix: &'a [u8],
    pub level: u64,
    pub words: &'a [u32],
    pub pool: &'a [u8],
}

impl<'a> Document<'a> {
    pub fn new(table: &'a OwnTable, settings: &'a Settings) -> Self {
        Self {
            breaks: u32::from(settings.breaks),
            prefix: settings.prefix.as_bytes(),
            level: settings.level as u64,
            words: &table.words,
            pool: &table.pool,
        }
    }
}

/// What printing a document answers: the number, and what the call left behind `place` and `length`.
#[derive(Clone, Copy, Debug, Eq, PartialEq)]
pub struct Printed {
    pub number: u32,
    pub place: u64,
    pub length: u64,
}

pub fn print_document(document: &Document<'_>, empty: Empty, out: &mut [u8]) -> Printed {
    let mut place = u64::from(UNWRITTEN);
    let mut length = u64::from(UNWRITTEN);
    // SAFETY: as above.
    let number = unsafe {
        c::dervisclo_print_document(
            document.breaks,
            empty.pointer(document.prefix),
            document.prefix.len(),
            document.level,
            empty.pointer(document.words),
            document.words.len(),
            empty.pointer(document.pool),
            document.pool.len(),
            empty.pointer_mut(out),
            out.len(),
            &mut place,
            &mut length,
        )
    };
    Printed {
        number,
        place,
        length,
    }
}

pub fn check_document(document: &Document<'_>, empty: Empty) -> Checked {
    let mut place = u64::from(UNWRITTEN);
    // SAFETY: as above.
    let number = unsafe {
        c::dervisclo_check_document(
            document.breaks,
            empty.pointer(document.prefix),
            document.prefix.len(),
            document.level,
            empty.pointer(document.words),
            document.words.len(),
            empty.pointer(document.pool),
            document.pool.len(),
            &mut place,
        )
    };
    Checked { number, place }
}
