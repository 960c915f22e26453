//! The lines of a vector file.

use std::fmt::Write;

/// The fields of each vector, with the number of its line.
pub fn rows(content: &str) -> Vec<(usize, Vec<&str>)> {
    (1..)
        .zip(content.lines())
        .filter(|(_, line)| !line.starts_with('#'))
        .map(|(number, line)| (number, line.split(' ').collect()))
        .collect()
}

/// Lower case, two digits a byte; `-` for no bytes.
pub fn hex(bytes: &[u8]) -> String {
    if bytes.is_empty() {
        return "-".into();
    }
    let mut text = String::new();
    for byte in bytes {
        write!(text, "{byte:02x}").unwrap();
    }
    text
}

/// What `hex` wrote, or nothing.
pub fn bytes(hex: &str) -> Option<Vec<u8>> {
    if hex == "-" {
        return Some(Vec::new());
    }
    if hex.is_empty() || !hex.len().is_multiple_of(2) {
        return None;
    }
    hex.as_bytes()
        .chunks(2)
        .map(|pair| u8::from_str_radix(std::str::from_utf8(pair).ok()?, 16).ok())
        .collect()
}

/// In decimal, apart by commas; `-` for no words.
pub fn joined(words: &[u32]) -> String {
    if words.is_empty() {
        return "-".into();
    }
    let words: Vec<String> = words.iter().map(u32::to_string).collect();
    words.join(",")
}

/// What `joined` wrote, or nothing.
pub fn words(joined: &str) -> Option<Vec<u32>> {
    if joined == "-" {
        return Some(Vec::new());
    }
    joined.split(',').map(|word| word.parse().ok()).collect()
}
