//! The two customers' jobs (docs/JOBS.md), programs that `rt ci` makes, and `rt run` in their folders, against the tool: for any file the
//! same text or the same refusal.

use crate::common::{Run, finish, query_of_a, run_on, sample};
use dervisclo::file::LONGEST;
use dervisclo::{Style, Table};
use std::fs;
use std::path::Path;
use std::process::Command;

const ARCHIVE_EXPORTER: &str = "archive_exporter";
const DIGEST_JOB: &str = "digest_job";

/// The jobs' output is no longer.
const LONGEST_TEXT: usize = 1 << 20;

/// None where `rt` has not made the program.
fn job(name: &str, input: &[u8]) -> Option<Run> {
    let crates = Path::new(env!("CARGO_MANIFEST_DIR")).join("../../crates");
    let program = crates.join(name).join("out").join(name);
    if !program.exists() {
        eprintln!("{name} is not there: skipped");
        return None;
    }
    Some(finish(&mut Command::new(program), input))
}

/// As the digest is defined: the number that byte 01 and the text make in base 256, modulo 2^56 - 5.
fn digest_line(text: &[u8]) -> String {
    let next = |number: u128, byte: &u8| (number * 256 + u128::from(*byte)) % ((1 << 56) - 5);
    let digest = text.iter().fold(1, next);
    format!("{digest:016x} {} bytes\n", text.len())
}

/// Both jobs write the text or its digest.
fn written(input: &[u8], text: &[u8]) {
    let wanted = [
        (ARCHIVE_EXPORTER, text.to_vec()),
        (DIGEST_JOB, digest_line(text).into_bytes()),
    ];
    for (name, output) in wanted {
        if let Some(run) = job(name, input) {
            assert_eq!((run.status, run.errors.as_str()), (Some(0), ""), "{name}");
            assert!(run.output == output, "{name}");
        }
    }
}

/// Both jobs refuse, and write nothing to standard output.
fn refused(input: &[u8], number: u32, place: usize) {
    for name in [ARCHIVE_EXPORTER, DIGEST_JOB] {
        if let Some(run) = job(name, input) {
            assert_eq!(run.errors, format!("refused with {number} at {place}\n"));
            assert_eq!((run.status, run.text()), (Some(0), ""), "{name}");
        }
    }
}

/// Both jobs do what the tool does with the settings that they have.
fn as_the_tool(input: &[u8]) {
    let run = run_on(&["print", "-", "--prefix=  "], input);
    let Some(told) = run.errors.split("refused with ").nth(1) else {
        return written(input, &run.output);
    };
    // `3 (node) at node 2: ..`
    let (number, rest) = told.split_once(' ').unwrap();
    let place = rest.split([' ', ':']).nth(3).unwrap();
    refused(input, number.parse().unwrap(), place.parse().unwrap());
}

#[test]
fn the_sample_and_what_is_left_of_it() {
    let file = fs::read(sample("registry.dvt")).unwrap();
    as_the_tool(&file);
    for length in [0, 7, 8, 15, 16, 17, file.len() - 1] {
        as_the_tool(&file[..length]);
    }
    as_the_tool(&[&file[..], b"a"].concat());
    for at in (0..file.len()).step_by(41) {
        let mut damaged = file.clone();
        damaged[at] ^= 1 << (at % 8);
        as_the_tool(&damaged);
    }
}

#[test]
fn files_of_the_least_and_the_greatest_size() {
    let query = query_of_a();
    let empty = Table::document(|_| ());
    let cut = Table {
        words: query.words[..14].to_vec(),
        pool: query.pool.clone(),
    };
    for table in [&query, &empty, &cut] {
        as_the_tool(&table.to_file().unwrap());
    }
    let names: Vec<_> = (0..8191).map(|i| format!("S{i}")).collect();
    let scalars = |count: usize| {
        let document = Table::document(|document| {
            for name in &names[..count] {
                document.scalar_type(name, |_| ());
            }
        });
        document.to_file().unwrap()
    };
    as_the_tool(&scalars(8191));
    let head = |words: u32, pool: u32| {
        [b"DVTABLE1", &words.to_le_bytes()[..], &pool.to_le_bytes()].concat()
    };
    for (words, pool) in [
        (40_960, 65_536),
        (40_965, 0),
        (40_960, 65_537),
        (u32::MAX, 1),
        (5, 0),
    ] {
        let told = 16 + 4 * u64::from(words) + u64::from(pool);
        for length in [LONGEST - 1, LONGEST, LONGEST + 1, LONGEST + 5000, told] {
            let mut file = head(words, pool);
            file.resize(length.min(LONGEST + 5000) as usize, 0);
            as_the_tool(&file);
        }
    }
}

#[test]
fn a_text_past_the_room_is_refused() {
    let described = |last: usize| {
        Table::document(|document| {
            for i in 0..19 {
                let length = if i == 0 { last } else { 58_000 };
                let text = "a".repeat(length);
                document.scalar_type("S", |scalar| scalar.description(&text));
            }
        })
    };
    let style = Style {
        prefix: b"  ",
        ..Style::default()
    };
    let print = |table: &Table| table.print(&style).unwrap();
    let least = print(&described(100)).len();
    let whole = described(100 + LONGEST_TEXT - least);
    assert_eq!(print(&whole).len(), LONGEST_TEXT);
    written(&whole.to_file().unwrap(), &print(&whole));
    let longer = described(101 + LONGEST_TEXT - least);
    refused(&longer.to_file().unwrap(), 8, 0);
}
