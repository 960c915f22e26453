//! Literals: all short values over a small alphabet and random longer ones, under several settings.

use super::Tally;
use crate::crate_printer;
use crate::generate::texts;
use crate::plain_print::{self, can_be_block};
use crate::plain_read::{block_value, read_literal, Form};
use crate::rng::Rng;
use crate::settings::Settings;

/// The bytes of the short values.
pub const ALPHABET: [u8; 8] = [b' ', b'\t', b'\n', b'\r', b'"', b'\\', b'a', 0x01];

/// Longest of the short values.
const SHORT: usize = 5;

#[derive(Default)]
struct Counts {
    values: usize,
    texts: usize,
    quoted: usize,
    one_line: usize,
    multi_line: usize,
    displayed_indented: usize,
}

pub fn run(seed: u64, count: usize) -> Tally {
    let mut tally = Tally::default();
    let mut counts = Counts::default();
    let settings = short_settings();
    for value in short_values(SHORT) {
        one_value(&mut tally, &mut counts, &value, &settings);
    }
    let short = counts.values;
    let mut rng = Rng::new(seed);
    for _ in 0..count {
        let value = long_value(&mut rng);
        let settings = random_settings(&mut rng);
        one_value(&mut tally, &mut counts, &value, &settings);
    }
    println!(
        "literals: seed {seed}, {short} short values, {} random ones, {} texts",
        counts.values - short,
        counts.texts
    );
    println!(
        "  quoted {}, blocks on one line {}, on several {}",
        counts.quoted, counts.one_line, counts.multi_line
    );
    if crate_printer::PRESENT {
        let indented = counts.displayed_indented;
        println!("  Display of a string value indents it: {indented}");
    }
    println!("literals: {tally}");
    tally
}

/// All values of up to this many bytes of the alphabet, shortest first.
pub fn short_values(most: usize) -> Vec<String> {
    let mut values = vec![String::new()];
    let mut start = 0;
    for _ in 0..most {
        let end = values.len();
        for at in start..end {
            for byte in ALPHABET {
                let value = format!("{}{}", values[at], byte as char);
                values.push(value);
            }
        }
        start = end;
    }
    values
}

fn short_settings() -> Vec<Settings> {
    vec![
        Settings::off(),
        Settings::default(),
        Settings::on("  ", 1),
        Settings::on("\t", 2),
        Settings::on("", 3),
    ]
}

fn random_settings(rng: &mut Rng) -> Vec<Settings> {
    let level = *rng.pick(&[0, 1, 2, 63, 127, 128]);
    let length = *rng.pick(&[0, 1, 2, 3, 16]);
    let prefix: String = (0..length).map(|_| *rng.pick(&[' ', '\t'])).collect();
    vec![Settings::off(), Settings::on(&prefix, level)]
}

/// Any string, or several of them joined.
fn long_value(rng: &mut Rng) -> String {
    let mut value = texts::string(rng);
    while rng.percent(25) {
        value += *rng.pick(&["", "\n", " ", "\"\"\"", "\\"]);
        value += &texts::string(rng);
    }
    value
}

fn one_value(tally: &mut Tally, counts: &mut Counts, value: &str, settings: &[Settings]) {
    counts.values += 1;
    // The block rule says just when some block text has this value.
    let can_be_read_from_block = !value.is_empty() && block_value(&format!("\n{value}")) == value;
    tally.check(
        can_be_block(value.as_bytes()) == can_be_read_from_block,
        || format!("the block rule against block reading: {value:?}"),
    );
    for settings in settings {
        for is_description in [false, true] {
            one_text(tally, counts, value, is_description, settings);
        }
    }
}

fn one_text(
    tally: &mut Tally,
    counts: &mut Counts,
    value: &str,
    is_description: bool,
    settings: &Settings,
) {
    counts.texts += 1;
    let case = || format!("{value:?}, description: {is_description}, {settings:?}");
    let text = plain_print::print_literal(value.as_bytes(), is_description, settings);
    if crate_printer::PRESENT {
        let by_crate = crate_printer::print_literal(value, is_description, settings);
        tally.same("crate, plain printer", by_crate.as_bytes(), &text, case);
    }
    if crate_printer::PRESENT && !is_description {
        let displayed = crate_printer::display_string(value, settings);
        let mut expected = Vec::new();
        if settings.breaks {
            expected = settings.prefix.repeat(settings.level).into_bytes();
            counts.displayed_indented += usize::from(!expected.is_empty());
        }
        expected.extend_from_slice(&text);
        tally.same("Display, its law", displayed.as_bytes(), &expected, case);
    }

    let has_line_feed = value.contains('\n');
    let wants_block = settings.breaks && (is_description || has_line_feed);
    let form = if wants_block && can_be_block(value.as_bytes()) {
        Form::Block
    } else {
        Form::Quoted
    };
    let read = read_literal(&text);
    let wanted = (form, value.as_bytes().to_vec());
    tally.check(read.as_ref() == Ok(&wanted), || {
        format!("reading back gives {read:?}: {}", case())
    });
    tally.check(text.len() <= bound(form, value, settings), || {
        format!("longer than its bound: {}", case())
    });
    let counter = match form {
        Form::Quoted => &mut counts.quoted,
        Form::Block if text.contains(&b'\n') => &mut counts.multi_line,
        Form::Block => &mut counts.one_line,
    };
    *counter += 1;
}

/// The longest text that document 01 allows for.
fn bound(form: Form, value: &str, settings: &Settings) -> usize {
    let n = value.len();
    let line_feeds = value.matches('\n').count();
    let indent = settings.level * settings.prefix.len();
    match form {
        Form::Quoted => 6 * n + 2,
        Form::Block => n + n / 3 + 8 + (line_feeds + 2) * indent,
    }
}
