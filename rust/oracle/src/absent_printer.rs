//! Stands in where the crate's sources are absent: the same names, so that everything builds.
//! Ask [`PRESENT`] first; the functions panic.

use crate::settings::Settings;

/// Are the crate's sources compiled in?
pub const PRESENT: bool = false;

pub const SOURCES: [(&str, &[u8]); 0] = [];

pub fn print_document(_: &[u32], _: &[u8], _: &Settings) -> String {
    absent()
}

pub struct Tree;

impl Tree {
    pub fn new(_: &[u32], _: &[u8]) -> Self {
        absent()
    }

    pub fn print_to(&self, _: &Settings, _: &mut String) {
        absent()
    }
}

pub fn display_document(_: &[u32], _: &[u8], _: &Settings) -> String {
    absent()
}

pub fn print_literal(_: &str, _: bool, _: &Settings) -> String {
    absent()
}

pub fn display_string(_: &str, _: &Settings) -> String {
    absent()
}

fn absent() -> ! {
    panic!("the crate's sources are absent")
}
