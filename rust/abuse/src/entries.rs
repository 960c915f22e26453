//! The five C entries.

use dervisclo::c;

#[derive(Clone, Copy, Debug, Eq, PartialEq)]
pub enum Entry {
    PrintLiteral,
    ReadLiteral,
    CheckTable,
    CheckDocument,
    PrintDocument,
}

/// Answers: 0, and document 01's numbers.
pub const ANSWERS: [&str; 10] = [
    "success", "settings", "size", "node", "nesting", "depth", "children", "text", "room",
    "literal",
];

impl Entry {
    pub const ALL: [Self; 5] = [
        Self::PrintLiteral,
        Self::ReadLiteral,
        Self::CheckTable,
        Self::CheckDocument,
        Self::PrintDocument,
    ];

    pub fn name(self) -> &'static str {
        match self {
            Self::PrintLiteral => "dervisclo_print_literal",
            Self::ReadLiteral => "dervisclo_read_literal",
            Self::CheckTable => "dervisclo_check_table",
            Self::CheckDocument => "dervisclo_check_document",
            Self::PrintDocument => "dervisclo_print_document",
        }
    }

    /// The numbers that it can answer.
    pub fn answers(self) -> &'static [u32] {
        match self {
            Self::PrintLiteral => &[0, 1, 2, 7, 8],
            Self::ReadLiteral => &[0, 8, 9],
            Self::CheckTable => &[0, 2, 3, 4, 5, 6, 7],
            Self::CheckDocument => &[0, 1, 2, 3, 4, 5, 6, 7],
            Self::PrintDocument => &[0, 1, 2, 3, 4, 5, 6, 7, 8],
        }
    }

    pub fn takes_table(self) -> bool {
        !matches!(self, Self::PrintLiteral | Self::ReadLiteral)
    }

    pub fn takes_settings(self) -> bool {
        !matches!(self, Self::ReadLiteral | Self::CheckTable)
    }

    pub fn reports_place(self) -> bool {
        self.takes_table()
    }

    /// And takes an output.
    pub fn reports_length(self) -> bool {
        !matches!(self, Self::CheckTable | Self::CheckDocument)
    }

    pub fn reports_form(self) -> bool {
        self == Self::ReadLiteral
    }
}

pub type PrintLiteral = unsafe extern "C" fn(
    *const u8,
    usize,
    u32,
    u32,
    *const u8,
    usize,
    u64,
    *mut u8,
    usize,
    *mut u64,
) -> u32;

pub type ReadLiteral =
    unsafe extern "C" fn(*const u8, usize, *mut u8, usize, *mut u64, *mut u32) -> u32;

pub type CheckTable = unsafe extern "C" fn(*const u32, usize, *const u8, usize, *mut u64) -> u32;

pub type CheckDocument = unsafe extern "C" fn(
    u32,
    *const u8,
    usize,
    u64,
    *const u32,
    usize,
    *const u8,
    usize,
    *mut u64,
) -> u32;

pub type PrintDocument = unsafe extern "C" fn(
    u32,
    *const u8,
    usize,
    u64,
    *const u32,
    usize,
    *const u8,
    usize,
    *mut u8,
    usize,
    *mut u64,
    *mut u64,
) -> u32;

/// What is called: the library, or in tests something that errs.
#[derive(Clone, Copy)]
pub struct Entries {
    pub print_literal: PrintLiteral,
    pub read_literal: ReadLiteral,
    pub check_table: CheckTable,
    pub check_document: CheckDocument,
    pub print_document: PrintDocument,
}

impl Entries {
    pub const LIBRARY: Self = Self {
        print_literal: c::dervisclo_print_literal,
        read_literal: c::dervisclo_read_literal,
        check_table: c::dervisclo_check_table,
        check_document: c::dervisclo_check_document,
        print_document: c::dervisclo_print_document,
    };
}
