//! Documents of 8,000 nodes, against the crate's `serialize.rs` printing the same tree into a String that is used again.

use super::in_turn;
use crate::registry;
use crate::wanted;
use dervisclo::{check_document, print_document, Style};
use oracle::crate_printer::{self, Tree};
use oracle::generate::OwnTable;
use oracle::run::ABSENT;
use oracle::Settings;
use std::hint::black_box;

const NODES: usize = 8_000;
const SEED: u64 = 1;

pub fn run(rounds: usize) {
    if !crate_printer::PRESENT {
        return println!("{ABSENT}");
    }
    println!(
        "documents of {NODES} nodes; median of {rounds} rounds, library and serialize.rs in turn"
    );
    println!("the library checks, and prints to an output of just the room, which is not cleared between rounds");
    println!("microseconds; check: the library's check alone; difference: its printing with that taken off");
    println!("ratios: to the time of serialize.rs");
    println!(
        "{:28}{:>9}{:>9}{:>9}{:>7}{:>9}{:>12}{:>7}",
        "", "bytes", "library", "Rust", "ratio", "check", "difference", "ratio"
    );
    for (name, table) in [
        ("schema", registry::schema(SEED, NODES)),
        ("requests", registry::requests(SEED, NODES)),
    ] {
        for (how, settings) in [
            ("breaks on", Settings::default()),
            ("breaks off", Settings::off()),
        ] {
            one(&format!("{name}, {how}"), &table, &settings, rounds);
        }
    }
}

fn one(name: &str, table: &OwnTable, settings: &Settings, rounds: usize) {
    let OwnTable { words, pool } = table;
    let style = Style {
        breaks: settings.breaks,
        prefix: settings.prefix.as_bytes(),
        level: settings.level as u64,
    };
    let wanted = wanted::text(words, pool, settings);
    let mut out = vec![0; wanted.len()];
    let answer = print_document(words, pool, &style, &mut out);
    assert_eq!(answer, Ok(wanted.len()));
    assert!(out == wanted, "the library prints something else");

    let tree = Tree::new(words, pool);
    let mut text = String::new();
    let [library, rust, check] = in_turn(
        rounds,
        &mut out,
        [
            &mut |out| print_document(black_box(words), pool, &style, out).unwrap(),
            &mut |_| {
                text.clear();
                black_box(&tree).print_to(settings, &mut text);
                text.len()
            },
            &mut |_| check_document(&style, black_box(words), pool).map_or(1, |()| 0),
        ],
    );
    let difference = library - check;
    let micros = [library, rust, check, difference].map(|seconds| seconds * 1e6);
    println!(
        "{name:28}{:9}{:9.1}{:9.1}{:7.2}{:9.1}{:12.1}{:7.2}",
        wanted.len(),
        micros[0],
        micros[1],
        library / rust,
        micros[2],
        micros[3],
        difference / rust
    );
}
