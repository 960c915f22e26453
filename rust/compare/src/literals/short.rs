//! All short values, and all short texts.

use super::{Placed, Plan};
use crate::call::Print;
use crate::judge::Judge;
use crate::wanted::{self, Reading};
use oracle::plain_read::Form;
use oracle::run::literals::short_values;
use oracle::Settings;

/// Breaks on and off, three levels, four prefixes.
pub fn all_settings() -> Vec<Settings> {
    let mut all = Vec::new();
    for breaks in [false, true] {
        for level in [0, 1, 128] {
            for prefix in ["", "  ", "\t", " \t  \t\t \t    \t \t "] {
                let prefix = prefix.into();
                all.push(Settings {
                    breaks,
                    prefix,
                    level,
                });
            }
        }
    }
    all
}

/// Every value of up to so many bytes over eight, of both kinds, under all the settings: measured, printed, read back.
pub fn values(judge: &mut Judge, plan: &Plan) {
    let settings = all_settings();
    for (at, value) in short_values(plan.short).iter().enumerate() {
        let placed = Placed::quotes_around(value.as_bytes());
        let can_be_block = wanted::can_be_block(value);
        let has_line_feed = value.contains('\n');
        for is_description in [false, true] {
            // With breaks off, neither prefix nor level has an effect.
            let on_one_line = wanted::literal(value, is_description, &Settings::off());
            for settings in &settings {
                let on_lines = settings
                    .breaks
                    .then(|| wanted::literal(value, is_description, settings));
                let text = on_lines.as_ref().unwrap_or(&on_one_line);
                let print = Print::new(placed.bytes(), is_description, settings);
                judge.print(&print, 0, Ok(text));
                judge.print(&print, text.len() + at % 3, Ok(text));
                let block = settings.breaks && (is_description || has_line_feed) && can_be_block;
                let form = if block { Form::Block } else { Form::Quoted };
                judge.read_back(text, form, value.as_bytes());
            }
        }
    }
}

/// Bytes that escapes are made of.
const ESCAPES: [u8; 8] = *b"\"\\unD80\n";

/// Every text of up to so many bytes: alone, between quotes, between triple quotes. And between them, every text of as
/// many bytes that escapes are made of.
pub fn texts(judge: &mut Judge, plan: &Plan) {
    let mut at = 0;
    let mut read = |text: &[&[u8]]| {
        let placed = Placed::quotes_around(&text.concat());
        let wanted = wanted::read(placed.bytes());
        let need = length(&wanted);
        at += 1;
        if need > 0 {
            judge.read(placed.bytes(), need - 1, &wanted);
        }
        judge.read(placed.bytes(), need + at % 3, &wanted);
    };
    for inner in short_values(plan.short) {
        read(&[inner.as_bytes()]);
        read(&[b"\"", inner.as_bytes(), b"\""]);
        read(&[b"\"\"\"", inner.as_bytes(), b"\"\"\""]);
    }
    for length in 0..=plan.short {
        for number in 0..ESCAPES.len().pow(length as u32) {
            let inner = digits(number, length);
            read(&[b"\"", &inner, b"\""]);
            read(&[b"\"\"\"", &inner, b"\"\"\""]);
        }
    }
}

fn digits(mut number: usize, length: usize) -> Vec<u8> {
    let mut bytes = Vec::with_capacity(length);
    for _ in 0..length {
        bytes.push(ESCAPES[number % ESCAPES.len()]);
        number /= ESCAPES.len();
    }
    bytes
}

fn length(reading: &Reading) -> usize {
    reading.as_ref().map_or(0, |(_, value)| value.len())
}
