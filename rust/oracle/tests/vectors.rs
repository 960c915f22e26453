//! The files under `vectors/` are what the crate's printer and the plain programs give today, and the plain programs
//! agree with them.

use oracle::plain_check::Refusal;
use oracle::plain_read::Form;
use oracle::run::coverage::Coverage;
use oracle::run::{definitions, rows, vectors};
use oracle::table::WORDS;
use oracle::{crate_printer, plain_check, plain_print, plain_read, Settings};
use std::collections::BTreeSet;
use std::path::{Path, PathBuf};
use std::{env, fs, process};

fn directory() -> PathBuf {
    Path::new(env!("CARGO_MANIFEST_DIR")).join("../../vectors")
}

fn file(name: &str) -> String {
    fs::read_to_string(directory().join(name)).unwrap()
}

fn rows(content: &str) -> Vec<Vec<&str>> {
    let rows = rows::rows(content).into_iter();
    rows.map(|(_, fields)| fields).collect()
}

fn bytes(hex: &str) -> Vec<u8> {
    rows::bytes(hex).unwrap()
}

fn settings(breaks: &str, level: &str, prefix: &str) -> Settings {
    Settings {
        breaks: breaks == "1",
        level: level.parse().unwrap(),
        prefix: String::from_utf8(bytes(prefix)).unwrap(),
    }
}

#[test]
fn made_again_they_are_the_same() {
    for (name, content) in vectors::by_plain_programs() {
        assert!(file(name) == content, "{name} differs");
    }
    if !crate_printer::PRESENT {
        return;
    }
    for (name, content) in vectors::by_the_crate() {
        assert!(file(name) == content, "{name} differs");
    }
}

#[test]
fn the_plain_printer_and_reader_agree_with_the_literals() {
    for row in rows(&file("literals.txt")) {
        let [form, breaks, level, prefix, value, text] = row[..] else {
            panic!("{row:?}");
        };
        let settings = settings(breaks, level, prefix);
        let (value, text) = (bytes(value), bytes(text));
        assert_eq!(
            plain_print::print_literal(&value, form == "d", &settings),
            text
        );
        assert_eq!(plain_read::read_literal(&text).unwrap().1, value);
    }
}

#[test]
fn the_plain_printer_agrees_with_the_documents_and_they_show_every_part() {
    let mut coverage = Coverage::default();
    for row in rows(&file("documents.txt")) {
        let [breaks, level, prefix, words, pool, text] = row[..] else {
            panic!("{row:?}");
        };
        let settings = settings(breaks, level, prefix);
        let words = rows::words(words).unwrap();
        let pool = bytes(pool);
        assert_eq!(plain_check::is_valid(&words, &pool), Ok(()));
        assert_eq!(
            plain_print::print_document(&words, &pool, &settings),
            bytes(text)
        );
        coverage.add(&words, &pool);
    }
    assert_eq!(coverage.missing(), Vec::<String>::new());
}

#[test]
fn the_plain_check_agrees_with_the_refusals_and_they_show_every_number() {
    let mut seen = [0; 8];
    let mut places = vec![BTreeSet::new(); 8];
    for row in rows(&file("refusals.txt")) {
        let [number, place, words, pool] = row[..] else {
            panic!("{row:?}");
        };
        let (number, place): (u32, usize) = (number.parse().unwrap(), place.parse().unwrap());
        let words = rows::words(words).unwrap();
        let wanted = match (number, place) {
            (0, 0) => Ok(()),
            _ => Err(Refusal { number, place }),
        };
        assert_eq!(plain_check::is_valid(&words, &bytes(pool)), wanted);
        let may_be_deep = matches!(number, 0 | 5);
        let most = if may_be_deep { 70 } else { 24 };
        assert!(words.len() / WORDS <= most, "{row:?}");
        seen[number as usize] += 1;
        places[number as usize].insert(place);
    }
    for number in [0, 2, 3, 4, 5, 6, 7] {
        assert!(seen[number] >= 25, "{number}: {seen:?}");
    }
    for number in [3, 4, 6, 7] {
        assert!(places[number].len() >= 8, "{number}: {places:?}");
    }
    assert!(places[5].len() >= 4, "{places:?}");
}

#[test]
fn the_plain_reader_agrees_with_the_readings() {
    let mut seen = [0; 3];
    for row in rows(&file("readings.txt")) {
        let [form, value, text] = row[..] else {
            panic!("{row:?}");
        };
        let (at, wanted) = match form {
            "q" => (0, Ok((Form::Quoted, bytes(value)))),
            "b" => (1, Ok((Form::Block, bytes(value)))),
            _ => (2, Err(plain_read::NotOneLiteral)),
        };
        assert_eq!(plain_read::read_literal(&bytes(text)), wanted);
        seen[at] += 1;
    }
    assert!(seen.iter().all(|&count| count >= 60), "{seen:?}");
}

#[test]
fn they_become_theorems_and_a_broken_line_does_not() {
    // Outside the repository, where `rt ci` takes each such file for a part of a crate.
    let room = env::temp_dir().join(format!("dervisclo-definitions-{}", process::id()));
    let theorems = definitions::write(&directory(), &room).unwrap();
    let made: usize = ["Documents", "Literals", "Refusals", "Readings"]
        .iter()
        .map(|module| room.join(format!("specs/{module}.antt")))
        .map(|path| {
            fs::read_to_string(path)
                .unwrap()
                .matches("= refl\n")
                .count()
        })
        .sum();
    // A document has two: its text, and that it is accepted.
    assert!(theorems > 1_000 && made > theorems, "{theorems} {made}");

    let broken = room.join("broken");
    fs::create_dir_all(&broken).unwrap();
    for name in [
        "documents.txt",
        "literals.txt",
        "refusals.txt",
        "readings.txt",
    ] {
        fs::write(broken.join(name), file(name)).unwrap();
    }
    fs::write(broken.join("readings.txt"), "# none\nq 61 22612\n").unwrap();
    let answer = definitions::write(&broken, &room.join("crate"));
    assert!(answer
        .unwrap_err()
        .ends_with("line 2 is not a vector of this file"));
    fs::write(broken.join("readings.txt"), "# none\n").unwrap();
    let answer = definitions::write(&broken, &room.join("crate"));
    assert!(answer.unwrap_err().ends_with("no vector to compute"));
    fs::remove_dir_all(&room).unwrap();
}
