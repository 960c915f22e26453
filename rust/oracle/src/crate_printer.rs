//! The crate's own printer, called from its unchanged sources.

use crate::ast::serialize::{BareDocument, BareLiteral};
use crate::ast::{Document, Value};
use crate::settings::Settings;
use crate::tree;
use std::fmt::Write;

/// Are the crate's sources compiled in?
pub const PRESENT: bool = true;

/// The two sources, as compiled.
pub const SOURCES: [(&str, &[u8]); 2] = [
    (
        "ast/mod.rs",
        include_bytes!(concat!(env!("OUT_DIR"), "/ast/mod.rs")),
    ),
    (
        "ast/serialize.rs",
        include_bytes!(concat!(env!("OUT_DIR"), "/ast/serialize_unchanged.rs")),
    ),
];

/// An accepted table's text by the crate, no indent before the first line, as document 01 has it.
pub fn print_document(words: &[u32], pool: &[u8], settings: &Settings) -> String {
    let mut text = String::new();
    Tree::new(words, pool).print_to(settings, &mut text);
    text
}

/// An accepted table as the crate's tree, to be printed any number of times.
pub struct Tree(Document);

impl Tree {
    pub fn new(words: &[u32], pool: &[u8]) -> Self {
        Self(tree::document(words, pool))
    }

    /// Adds what [`print_document`] gives.
    pub fn print_to(&self, settings: &Settings, text: &mut String) {
        let document = BareDocument {
            document: &self.0,
            prefix: settings.indent_prefix(),
            level: settings.level,
        };
        write!(text, "{document}").unwrap();
    }
}

/// An accepted table's text by the crate's Display.
pub fn display_document(words: &[u32], pool: &[u8], settings: &Settings) -> String {
    let document = tree::document(words, pool);
    let builder = document.serialize().initial_indent_level(settings.level);
    match settings.indent_prefix() {
        Some(prefix) => builder.indent_prefix(prefix).to_string(),
        None => builder.no_indent().to_string(),
    }
}

/// One literal by the crate's `serialize_string_value`.
pub fn print_literal(value: &str, is_description: bool, settings: &Settings) -> String {
    BareLiteral {
        value,
        is_description,
        prefix: settings.indent_prefix(),
        level: settings.level,
    }
    .to_string()
}

/// One string value by the crate's Display.
pub fn display_string(value: &str, settings: &Settings) -> String {
    let value = Value::String(value.into());
    let builder = value.serialize().initial_indent_level(settings.level);
    match settings.indent_prefix() {
        Some(prefix) => builder.indent_prefix(prefix).to_string(),
        None => builder.no_indent().to_string(),
    }
}
