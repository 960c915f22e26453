//! The oracle: the crate's own printer, and plain programs written from document 01 to hold against it.

pub mod generate;
pub mod plain_check;
pub mod plain_print;
pub mod plain_read;
pub mod rng;
pub mod run;
mod settings;
pub mod table;
pub mod table_file;

#[cfg_attr(sources_absent, path = "absent_printer.rs")]
pub mod crate_printer;
#[cfg(not(sources_absent))]
pub mod tree;

// The crate's sources name these at the root of their crate.
#[cfg(not(sources_absent))]
mod shims;
#[cfg(not(sources_absent))]
use shims::{executable, parser, schema, ExecutableDocument, Name, Node, Schema};
#[cfg(not(sources_absent))]
include!(concat!(env!("OUT_DIR"), "/ast.rs"));

pub use crate_printer::{display_document, print_document, print_literal};
pub use settings::Settings;
