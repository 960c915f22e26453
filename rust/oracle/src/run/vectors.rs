//! The files under `vectors/`: inputs with the text that the crate's printer gives, or with the answer of a plain
//! program.

use super::coverage::Coverage;
use super::known;
use super::literals::short_values;
use super::rows::{hex, joined};
use crate::crate_printer;
use crate::generate::{self, faults, sources, texts, OwnTable};
use crate::plain_check;
use crate::plain_read::{read_literal, Form};
use crate::rng::Rng;
use crate::settings::Settings;
use std::collections::BTreeSet;
use std::fmt::Write;

const SEED: u64 = 33;

/// Tables tried for each kind of definition, whether they show something new or not.
const EACH: u32 = 5;

/// A file's name and content.
pub type File = (&'static str, String);

/// The files that the crate's printer is asked for.
pub fn by_the_crate() -> [File; 2] {
    [("literals.txt", literals()), ("documents.txt", documents())]
}

/// The files that plain programs answer.
pub fn by_plain_programs() -> [File; 2] {
    [("refusals.txt", refusals()), ("readings.txt", readings())]
}

const BY_THE_CRATE: &str =
    "as printed by serialize.rs of apollo-compiler 1.33.0 (its functions under shims, first line not indented)";

fn header(what: &str, by: &str, format: &str) -> String {
    format!(
        "# {what}, {by}.\n\
         # Made by: cargo run --release -p oracle -- vectors ../vectors   (in rust/; seed {SEED})\n\
         # {format}\n"
    )
}

fn literals() -> String {
    let mut file = header(
        "String literals",
        BY_THE_CRATE,
        "<d description or s string> <breaks 0|1> <level> <prefix hex> <value hex> <text hex>; - for no bytes",
    );
    for (is_description, value, settings) in literal_cases() {
        let text = crate_printer::print_literal(&value, is_description, &settings);
        writeln!(
            file,
            "{} {} {} {} {} {}",
            if is_description { 'd' } else { 's' },
            u8::from(settings.breaks),
            settings.level,
            hex(settings.prefix.as_bytes()),
            hex(value.as_bytes()),
            hex(text.as_bytes()),
        )
        .unwrap();
    }
    file
}

fn literal_cases() -> Vec<(bool, String, Settings)> {
    let mut cases: Vec<(bool, String, Settings)> = known::literals()
        .into_iter()
        .map(|row| (row.is_description, row.value, row.settings))
        .collect();
    for value in short_values(2) {
        for settings in [Settings::off(), Settings::default(), Settings::on("  ", 1)] {
            for is_description in [false, true] {
                cases.push((is_description, value.clone(), settings.clone()));
            }
        }
    }
    for byte in 0..0x20_u8 {
        cases.push((false, format!("a{}b", byte as char), Settings::default()));
    }
    let long = [
        "é".repeat(35),
        "é".repeat(36),
        "x".repeat(69) + "\"",
        "line of text, ".repeat(40),
        "a \"\"\" b\n\tc\n\n \nd\\\n".repeat(30) + "e",
        "\u{1}\"\\\t".repeat(100),
    ];
    for value in long {
        for settings in [Settings::default(), Settings::on(" \t", 128)] {
            cases.push((true, value.clone(), settings));
        }
        cases.push((false, value, Settings::off()));
    }
    let mut rng = Rng::new(SEED);
    while cases.len() < 600 {
        let value = texts::string(&mut rng);
        if value.len() > 300 {
            continue;
        }
        let prefix = *rng.pick(&["", "\t", "  ", "    ", "\t \t \t \t \t \t \t \t "]);
        let level = *rng.pick(&[0, 1, 2, 3, 128]);
        let settings = Settings {
            breaks: rng.percent(85),
            ..Settings::on(prefix, level)
        };
        cases.push((rng.percent(50), value, settings));
    }
    cases
}

fn documents() -> String {
    let mut file = header(
        "Documents",
        BY_THE_CRATE,
        "<breaks 0|1> <level> <prefix hex> <words in decimal, by commas> <pool hex> <text hex>; - for no bytes",
    );
    for (table, settings) in document_cases() {
        let OwnTable { words, pool } = &table;
        let text = crate_printer::print_document(words, pool, &settings);
        writeln!(
            file,
            "{} {} {} {} {} {}",
            u8::from(settings.breaks),
            settings.level,
            hex(settings.prefix.as_bytes()),
            joined(words),
            hex(pool),
            hex(text.as_bytes()),
        )
        .unwrap();
    }
    file
}

/// Tables of 3 to 40 nodes until every kind, variant and part has been seen, then some more and a few larger ones.
fn document_cases() -> Vec<(OwnTable, Settings)> {
    let mut cases: Vec<(OwnTable, Settings)> = known::documents()
        .into_iter()
        .map(|row| (row.table, row.settings))
        .collect();
    let mut rng = Rng::new(SEED);
    for settings in [
        Settings::default(),
        Settings::on("  ", 1),
        Settings::on("\t", 64),
        Settings::off(),
    ] {
        cases.push((generate::table(&mut rng, 1), settings));
    }
    cases.extend(covering_tables(&mut rng));
    while cases.len() < 230 {
        let nodes = rng.between(3, 40);
        let table = generate::table(&mut rng, nodes);
        push_small(&mut rng, &mut cases, table);
    }
    for nodes in [60, 80, 100, 120, 150, 200, 250, 300] {
        let table = generate::table(&mut rng, nodes);
        push_small(&mut rng, &mut cases, table);
    }
    while cases.len() < 250 {
        let table = generate::deep_table(&mut rng);
        if (41..=300).contains(&table.nodes()) && table.pool.len() <= 2_000 {
            push_small(&mut rng, &mut cases, table);
        }
    }
    cases
}

fn push_small(rng: &mut Rng, cases: &mut Vec<(OwnTable, Settings)>, table: OwnTable) {
    assert_eq!(plain_check::is_valid(&table.words, &table.pool), Ok(()));
    let prefix = *rng.pick(&["", "\t", "  ", "  ", " \t "]);
    let highest = if table.nodes() <= 12 { 64 } else { 5 };
    let level = *rng.pick(&[0, 0, 0, 1, 2, highest]);
    let settings = Settings {
        breaks: rng.percent(80),
        ..Settings::on(prefix, level)
    };
    cases.push((table, settings));
}

/// Tables with one definition each: some of each kind, then those that show something new, until nothing is missing.
fn covering_tables(rng: &mut Rng) -> Vec<(OwnTable, Settings)> {
    let mut cases = Vec::new();
    let mut coverage = Coverage::default();
    let mut missing: BTreeSet<String> = coverage.missing().into_iter().collect();
    // Documents without a definition and with several come elsewhere.
    missing.retain(|part| !part.starts_with("Document with"));
    let mut number = 0;
    while !missing.is_empty() {
        let kind = 1 + number % 17;
        number += 1;
        let nodes = rng.between(2, 40);
        let table = generate::table_of_kind(rng, kind, nodes);
        if !(3..=40).contains(&table.nodes()) || table.pool.len() > 600 {
            continue;
        }
        coverage.add(&table.words, &table.pool);
        let still: BTreeSet<String> = coverage.missing().into_iter().collect();
        if missing.iter().any(|part| !still.contains(part)) || number <= EACH * 17 {
            push_small(rng, &mut cases, table);
            missing.retain(|part| still.contains(part));
        }
    }
    cases
}

fn refusals() -> String {
    let mut file = header(
        "Refusals of tables",
        "as answered by oracle/src/plain_check.rs, an independent check written from document 01",
        "<number> <place> <words in decimal, by commas> <pool hex>; 0 0 for an accepted table, - for no words or bytes",
    );
    for OwnTable { words, pool } in faults::tables(&mut Rng::new(SEED)) {
        let (number, place) = match plain_check::is_valid(&words, &pool) {
            Ok(()) => (0, 0),
            Err(refusal) => (refusal.number, refusal.place),
        };
        writeln!(file, "{number} {place} {} {}", joined(&words), hex(&pool)).unwrap();
    }
    file
}

fn readings() -> String {
    let mut file = header(
        "Readings of one string literal",
        "as answered by oracle/src/plain_read.rs, an independent reader written from document 01 and the Spec",
        "<form q quoted, b block, or - refused> <value hex> <text hex>; - for no bytes",
    );
    for text in sources::texts(&mut Rng::new(SEED)) {
        let (form, value) = match read_literal(&text) {
            Ok((Form::Quoted, value)) => ('q', value),
            Ok((Form::Block, value)) => ('b', value),
            Err(_) => ('-', Vec::new()),
        };
        writeln!(file, "{form} {} {}", hex(&value), hex(&text)).unwrap();
    }
    file
}
