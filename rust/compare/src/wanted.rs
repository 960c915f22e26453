//! What document 01 says of a call, the room left out.

use crate::call::{Checked, Document, Print};
use oracle::plain_read::{self, block_value, Form, NotOneLiteral};
use oracle::{crate_printer, plain_check, plain_print, Settings};

pub const LONGEST_VALUE: usize = 65_536;
pub const LONGEST_PREFIX: usize = 16;
pub const HIGHEST_LEVEL: u64 = 128;
pub const HIGHEST_DOCUMENT_LEVEL: u64 = 64;

/// A literal's form and value, or refusal 9.
pub type Reading = Result<(Form, Vec<u8>), NotOneLiteral>;

/// The literal, or the number of the refusal.
pub fn printed(print: &Print<'_>) -> Result<Vec<u8>, u32> {
    if print.description > 1
        || print.breaks > 1
        || print.level > HIGHEST_LEVEL
        || !is_prefix(print.prefix)
    {
        return Err(1);
    }
    if print.value.len() > LONGEST_VALUE {
        return Err(2);
    }
    let value = std::str::from_utf8(print.value).map_err(|_| 7_u32)?;
    let settings = settings(print.breaks, print.prefix, print.level);
    Ok(literal(value, print.description == 1, &settings))
}

fn is_prefix(prefix: &[u8]) -> bool {
    let is_blank = |&byte: &u8| byte == b' ' || byte == b'\t';
    prefix.len() <= LONGEST_PREFIX && prefix.iter().all(is_blank)
}

pub fn settings(breaks: u32, prefix: &[u8], level: u64) -> Settings {
    Settings {
        breaks: breaks == 1,
        prefix: String::from_utf8_lossy(prefix).into(),
        level: level as usize,
    }
}

/// The document's text, or the refusal.
pub fn document(document: &Document<'_>) -> Result<Vec<u8>, Checked> {
    let Document {
        breaks,
        prefix,
        level,
        words,
        pool,
    } = *document;
    match checked_document(document) {
        Checked::ACCEPTED => Ok(text(words, pool, &settings(breaks, prefix, level))),
        refusal => Err(refusal),
    }
}

/// What the plain checker says, the settings looked at first.
pub fn checked_document(document: &Document<'_>) -> Checked {
    if document.breaks > 1 || document.level > HIGHEST_DOCUMENT_LEVEL || !is_prefix(document.prefix)
    {
        return Checked {
            number: 1,
            place: 0,
        };
    }
    checked(document.words, document.pool)
}

/// What the plain checker says.
pub fn checked(words: &[u32], pool: &[u8]) -> Checked {
    match plain_check::is_valid(words, pool) {
        Ok(()) => Checked::ACCEPTED,
        Err(refusal) => Checked {
            number: refusal.number,
            place: refusal.place as u64,
        },
    }
}

/// An accepted table's text, by the crate's own printer, or by the plain one where the crate's sources are absent.
pub fn text(words: &[u32], pool: &[u8], settings: &Settings) -> Vec<u8> {
    if crate_printer::PRESENT {
        crate_printer::print_document(words, pool, settings).into_bytes()
    } else {
        plain_print::print_document(words, pool, settings)
    }
}

/// One literal's text, likewise.
pub fn literal(value: &str, is_description: bool, settings: &Settings) -> Vec<u8> {
    if crate_printer::PRESENT {
        crate_printer::print_literal(value, is_description, settings).into_bytes()
    } else {
        plain_print::print_literal(value.as_bytes(), is_description, settings)
    }
}

pub fn read(text: &[u8]) -> Reading {
    plain_read::read_literal(text)
}

/// "non-empty and the specification's block value of some raw text whose first line is blank"
pub fn can_be_block(value: &str) -> bool {
    !value.is_empty() && block_value(&format!("\n{value}")) == value
}

/// The form that a literal of this value is printed in.
pub fn form(value: &str, is_description: bool, breaks: bool) -> Form {
    if breaks && (is_description || value.contains('\n')) && can_be_block(value) {
        Form::Block
    } else {
        Form::Quoted
    }
}

/// The form of a printed literal: one that begins with three quotes is a block.
pub fn form_of(text: &[u8]) -> Form {
    if text.starts_with(b"\"\"\"") {
        Form::Block
    } else {
        Form::Quoted
    }
}
