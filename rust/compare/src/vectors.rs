//! The files under `vectors/`.

use oracle::run::rows::{self, rows};
use oracle::Settings;
use std::path::Path;

/// The fields of each line.
pub fn file(name: &str) -> Vec<Vec<String>> {
    let path = Path::new(env!("CARGO_MANIFEST_DIR"))
        .join("../../vectors")
        .join(name);
    let content = std::fs::read_to_string(&path).unwrap_or_else(|e| panic!("{name}: {e}"));
    let own = |fields: Vec<&str>| fields.into_iter().map(String::from).collect();
    rows(&content)
        .into_iter()
        .map(|(_, fields)| own(fields))
        .collect()
}

pub fn unhex(hex: &str) -> Vec<u8> {
    rows::bytes(hex).unwrap_or_else(|| panic!("not hex: {hex}"))
}

pub fn words(joined: &str) -> Vec<u32> {
    rows::words(joined).unwrap_or_else(|| panic!("no words: {joined}"))
}

pub fn settings(breaks: &str, level: &str, prefix: &str) -> Settings {
    Settings {
        breaks: breaks == "1",
        prefix: String::from_utf8(unhex(prefix)).unwrap(),
        level: level.parse().unwrap(),
    }
}
