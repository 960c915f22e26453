//! Literals, against plain Rust.

use super::in_turn;
use crate::baseline;
use dervisclo::{print_literal, read_literal, Kind, Style};
use std::hint::black_box;

/// Bytes of each value.
const BYTES: usize = 65_536;

struct Case {
    name: &'static str,
    value: Vec<u8>,
    kind: Kind,
    style: Style<'static>,
}

pub fn run(rounds: usize) {
    let megabytes = |time: f64| BYTES as f64 / 1e6 / time;
    println!("values of {BYTES} bytes; median of {rounds} rounds, library and plain Rust in turn");
    println!("the output is not cleared between rounds");
    println!("MB/s are of value bytes; ratio: the library's time by that of plain Rust");
    let title = ["", "library MB/s", "Rust MB/s", "ratio"];
    println!(
        "{:44}{:>12}{:>12}{:>8}",
        title[0], title[1], title[2], title[3]
    );
    for case in cases() {
        for (what, [ours, rust]) in measure(&case, rounds) {
            println!(
                "{:44}{:12.0}{:12.0}{:8.2}",
                format!("{}, {what}", case.name),
                megabytes(ours),
                megabytes(rust),
                ours / rust
            );
        }
    }
}

fn cases() -> [Case; 4] {
    let style = Style::default();
    let level_2 = Style { level: 2, ..style };
    let case = |name, piece: &[u8], kind, style| Case {
        name,
        value: filled(piece),
        kind,
        style,
    };
    let controls: Vec<u8> = (0..0x20).filter(|&byte| byte != b'\t').collect();
    [
        case(
            "plain text",
            b"The quick brown fox jumps over the lazy dog; 1234567890. ",
            Kind::String,
            style,
        ),
        case(
            "mixed text",
            "forty bytes and then a quote: é€😀\"\
             forty bytes, then a backslash: é€ ab\\\
             forty bytes and a return: é€😀, ab\r"
                .as_bytes(),
            Kind::String,
            style,
        ),
        case(
            "prose as a block",
            b"A description tells what its field is for, in a sentence...\n",
            Kind::Description,
            level_2,
        ),
        case("control bytes", &controls, Kind::String, style),
    ]
}

/// The piece over and over. The end is a letter, so that prose can be a block.
fn filled(piece: &[u8]) -> Vec<u8> {
    let mut value: Vec<u8> = piece.iter().copied().cycle().take(BYTES - 8).collect();
    while std::str::from_utf8(&value).is_err() {
        value.pop();
    }
    value.resize(BYTES, b'z');
    value
}

/// Seconds of the library and of plain Rust, for printing and for reading.
fn measure(case: &Case, rounds: usize) -> [(&'static str, [f64; 2]); 2] {
    let Case {
        value, kind, style, ..
    } = case;
    let text = dervisclo::print_literal_to_vec(value, *kind, style).unwrap();
    let mut out = vec![0; text.len()];
    let answer = baseline::print_literal(value, *kind, style, &mut out);
    assert_eq!(answer, Ok(text.len()));
    assert!(out == text, "plain Rust prints something else");
    let printing = in_turn(
        rounds,
        &mut out,
        [
            &mut |out| print_literal(black_box(value), *kind, style, out).unwrap(),
            &mut |out| baseline::print_literal(black_box(value), *kind, style, out).unwrap(),
        ],
    );
    let mut out = vec![0; value.len()];
    let answer = baseline::read_literal(&text, &mut out);
    assert_eq!(answer, read_literal(&text, &mut vec![0; value.len()]));
    assert!(out == *value, "plain Rust reads something else");
    let reading = in_turn(
        rounds,
        &mut out,
        [
            &mut |out| read_literal(black_box(&text), out).unwrap().1,
            &mut |out| baseline::read_literal(black_box(&text), out).unwrap().1,
        ],
    );
    [("printing", printing), ("reading", reading)]
}
