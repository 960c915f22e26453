//! Every refusal number: its message and its exit status.

use crate::common::{TOOL, fails, file, finish, query_of_a, run_on, sample};
use dervisclo::builder::Builder;
use dervisclo::{DocumentRefusal, Style, Table, print_document, refusals};
use std::ffi::OsStr;
use std::fs::{self, File};
use std::os::unix::ffi::OsStrExt;
use std::process::{Command, Stdio};

/// Document 01's words for the number.
fn words(number: u32) -> &'static str {
    refusals::row(number).unwrap().words
}

/// Refused by `print` and `check` with this number, name and place.
fn refused(name: &str, table: &Table, number: u32, refusal: &str) {
    let bytes = table.to_file().unwrap();
    let path = file(name, &bytes);
    let told = format!("refused with {refusal}: {}", words(number));
    for command in ["print", "check"] {
        let message = format!("{path}: {told}");
        fails(&[command, &path], b"", number as i32, &message);
        let message = format!("standard input: {told}");
        fails(&[command, "-"], &bytes, number as i32, &message);
    }
}

/// The query of a with one word changed.
fn changed(at: usize, word: u32) -> Table {
    let mut table = query_of_a();
    table.words[at] = word;
    table
}

#[test]
fn number_1() {
    let told = format!("refused with 1 (settings) at place 0: {}", words(1));
    let path = file("number_1.dvt", &query_of_a().to_file().unwrap());
    for flag in [
        "--level=65",
        "--level=18446744073709551616",
        "--prefix=x",
        "--prefix=\n",
        "--prefix=\\n",
        "--prefix=                 ",
    ] {
        for command in ["print", "check"] {
            let message = format!("{path}: {told}");
            fails(&[command, flag, &path], b"", 1, &message);
            // it goes before whatever is wrong with the file
            let message = format!("no such file: {told}");
            fails(&[command, flag, "no such file"], b"", 1, &message);
        }
    }
    let message = format!("the argument: {told}");
    let prefix = OsStr::from_bytes(b"--prefix=\xff");
    for flag in [OsStr::new("--level=129"), OsStr::new("--prefix=x"), prefix] {
        let words = ["print-literal".as_ref(), "a".as_ref(), flag];
        fails(&words, b"", 1, &message);
    }
    let message = format!("standard input: {told}");
    let long = vec![b'a'; 65_537];
    fails(&["print-literal", "--level=129"], &long, 1, &message);
}

#[test]
fn number_2() {
    let empty = Table::default();
    refused("number_2_empty.dvt", &empty, 2, "2 (size) at place 0");
    let mut cut = query_of_a();
    cut.words.pop();
    refused("number_2_cut.dvt", &cut, 2, "2 (size) at place 0");
    let mut pool = query_of_a();
    pool.pool.resize(65_537, b'a');
    refused("number_2_pool.dvt", &pool, 2, "2 (size) at place 0");
    let nodes = Table::document(|document| {
        for _ in 0..8_192 {
            document.scalar_type("S", |_| ());
        }
    });
    refused("number_2_nodes.dvt", &nodes, 2, "2 (size) at place 0");

    let told = format!("refused with 2 (size) at place 0: {}", words(2));
    let long = vec![b'a'; 65_537];
    let message = format!("standard input: {told}");
    fails(&["print-literal"], &long, 2, &message);
    let long = String::from_utf8(long).unwrap();
    let message = format!("the argument: {told}");
    fails(&["print-literal", &long], b"", 2, &message);
}

#[test]
fn number_3() {
    let unknown = changed(10, 45);
    refused("number_3_kind.dvt", &unknown, 3, "3 (node) at node 2");
    let outside = changed(13, 2);
    refused("number_3_text.dvt", &outside, 3, "3 (node) at node 2");
    let ends = changed(4, 2);
    refused("number_3_end.dvt", &ends, 3, "3 (node) at node 0");
}

#[test]
fn number_4() {
    let nodes = [
        [0, 0, 0, 0, 4],
        [1, 0, 0, 0, 3],
        [29, 0, 0, 1, 4],
        [29, 0, 0, 1, 4],
    ];
    let crossed = Table {
        words: nodes.as_flattened().to_vec(),
        pool: b"a".to_vec(),
    };
    refused("number_4.dvt", &crossed, 4, "4 (nesting) at node 1");
}

fn fields(node: &mut Builder, depth: usize) {
    node.field("a", |field| {
        if depth > 1 {
            fields(field, depth - 1);
        }
    });
}

#[test]
fn number_5() {
    let deep = Table::document(|document| document.query("", |query| fields(query, 64)));
    refused("number_5.dvt", &deep, 5, "5 (depth) at node 65");
}

#[test]
fn number_6() {
    let nothing = Table::document(|document| document.query("Q", |_| ()));
    refused("number_6.dvt", &nothing, 6, "6 (children) at node 1");
    let variable = Table::document(|document| {
        document.scalar_type("S", |s| {
            s.directive("d", |d| d.argument("a", |a| a.variable("v")));
        });
    });
    refused(
        "number_6_variable.dvt",
        &variable,
        6,
        "6 (children) at node 4",
    );
}

#[test]
fn number_7() {
    let digit = Table::document(|document| document.scalar_type("2D", |_| ()));
    refused("number_7.dvt", &digit, 7, "7 (text) at node 1");

    let told = format!("refused with 7 (text) at place 0: {}", words(7));
    let message = format!("the argument: {told}");
    let value = OsStr::from_bytes(b"a\xff");
    fails(&["print-literal".as_ref(), value], b"", 7, &message);
    let message = format!("standard input: {told}");
    fails(&["print-literal"], b"a\xff", 7, &message);
}

/// The text is of over a gigabyte, and memory is kept below that.
#[test]
fn number_8() {
    let lines = "line\n".repeat(13_000) + "line";
    let table = Table::document(|document| {
        for _ in 0..90 {
            document.scalar_type("S", |s| s.description(&lines));
        }
    });
    let style = Style {
        prefix: &[b' '; 16],
        level: 64,
        ..Style::default()
    };
    let measured = print_document(&table.words, &table.pool, &style, &mut []);
    let Err(DocumentRefusal::Room { needed }) = measured else {
        panic!("{measured:?}");
    };
    assert!(needed > 1_000_000_000, "{needed}");
    let path = file("number_8.dvt", &table.to_file().unwrap());
    let prefix = format!("--prefix={}", " ".repeat(16));
    let limited = "ulimit -v 800000 && exec \"$0\" \"$@\"";
    let run = finish(
        Command::new("sh").args(["-c", limited, TOOL, "print", &path, "--level=64", &prefix]),
        b"",
    );
    let message = format!(
        "dervisclo: {path}: refused with 8 (room) at place 0: {}; {needed} bytes are needed\n",
        words(8)
    );
    assert_eq!(run.errors, message);
    assert_eq!((run.status, run.output), (Some(8), vec![]));
}

#[test]
fn number_9() {
    let told = format!("refused with 9 (literal) at place 0: {}", words(9));
    let message = format!("the argument: {told}");
    for text in [
        &b""[..],
        b"abc",
        b"\"a",
        b"\"a\" ",
        b"\"\xff\"",
        b"\"\"\"\"\"",
    ] {
        let text = OsStr::from_bytes(text);
        fails(&["read-literal".as_ref(), text], b"", 9, &message);
    }
    let message = format!("standard input: {told}");
    fails(&["read-literal"], b"\"a\"\n", 9, &message);
    fails(&["read-literal"], b"", 9, &message);
}

/// Refused by `print` and `check`, as a file and on standard input.
fn refused_file(name: &str, bytes: &[u8], number: i32, told: &str) {
    let path = file(name, bytes);
    for command in ["print", "check"] {
        let message = format!("{path}: refused with {told}");
        fails(&[command, &path], b"", number, &message);
        let message = format!("standard input: refused with {told}");
        fails(&[command, "-"], bytes, number, &message);
    }
}

#[test]
fn number_20() {
    let told = format!("20 (file) at byte 0: {}", words(20));
    refused_file("number_20_empty.dvt", b"", 20, &told);
    refused_file("number_20_text.dvt", b"scalar Date\n", 20, &told);
    let mut bytes = query_of_a().to_file().unwrap();
    bytes[7] = b'2';
    refused_file("number_20_magic.dvt", &bytes, 20, &told);
    refused_file("number_20_short.dvt", b"DVTABLE", 20, &told);
}

#[test]
fn number_21() {
    let told = format!("21 (length) at byte 0: {}", words(21));
    let bytes = query_of_a().to_file().unwrap();
    for length in 8..16 {
        let told = format!("{told}; the lengths end at byte 16, {length} are found");
        refused_file("number_21_header.dvt", &bytes[..length], 21, &told);
    }
    for length in [16, 76] {
        let told = format!("{told}; 77 bytes are told, {length} are found");
        refused_file("number_21_cut.dvt", &bytes[..length], 21, &told);
    }
    let longer = [&bytes[..], b"a"].concat();
    let told = format!("{told}; 77 bytes are told, 78 are found");
    refused_file("number_21_longer.dvt", &longer, 21, &told);
}

/// A file of these lengths that is this long, most of it a hole.
fn huge(name: &str, words: u32, pool: u32, length: u64) -> String {
    let header = [b"DVTABLE1", &words.to_le_bytes()[..], &pool.to_le_bytes()].concat();
    let path = file(name, &header);
    let file = File::options().write(true).open(&path).unwrap();
    file.set_len(length).unwrap();
    path
}

#[test]
fn a_huge_file_is_not_read_whole() {
    const GIB: u64 = 1 << 30;
    let length = format!("refused with 21 (length) at byte 0: {}", words(21));
    let size = format!("refused with 2 (size) at place 0: {}", words(2));

    let path = huge("huge_long.dvt", 15, 1, 8 * GIB);
    let message = format!("{path}: {length}; 77 bytes are told, {} are found", 8 * GIB);
    fails(&["print", &path], b"", 21, &message);
    fs::remove_file(path).unwrap();

    let told = 16 + 4 * u64::from(u32::MAX) + 1;
    let path = huge("huge_whole.dvt", u32::MAX, 1, told);
    let message = format!("{path}: {size}");
    fails(&["print", &path], b"", 2, &message);
    fs::remove_file(path).unwrap();

    let path = huge("huge_short.dvt", u32::MAX, 1, GIB);
    let message = format!("{path}: {length}; {told} bytes are told, {GIB} are found");
    fails(&["check", &path], b"", 21, &message);
    fs::remove_file(path).unwrap();
}

#[test]
fn an_endless_input_is_not_read_whole() {
    let zeros = || Stdio::from(File::open("/dev/zero").unwrap());
    let mut command = Command::new(TOOL);
    let run = command
        .args(["check", "-"])
        .stdin(zeros())
        .output()
        .unwrap();
    assert_eq!(run.status.code(), Some(20));
    let mut command = Command::new(TOOL);
    let run = command
        .arg("print-literal")
        .stdin(zeros())
        .output()
        .unwrap();
    assert_eq!(run.status.code(), Some(2));

    let mut bytes = query_of_a().to_file().unwrap();
    bytes.resize(1_000_000, 0);
    let run = run_on(&["check", "-"], &bytes);
    assert_eq!(run.status, Some(21));
    bytes[8..16].fill(0xff);
    let run = run_on(&["check", "-"], &bytes);
    assert_eq!(run.status, Some(2));
}

/// The sample with a few bytes changed at a time: the tool says of it what the crate does.
#[test]
fn a_damaged_sample_is_refused_as_the_crate_says() {
    let whole = fs::read(sample("registry.dvt")).unwrap();
    let mut seen = [0; 22];
    let mut chance = 1_u64;
    let mut below = |end: usize| {
        chance = chance.wrapping_mul(6_364_136_223_846_793_005);
        chance = chance.wrapping_add(1_442_695_040_888_963_407);
        (chance >> 33) as usize % end
    };
    for turn in 0..400 {
        let mut bytes = whole.clone();
        for _ in 0..below(3) {
            let at = match turn % 4 {
                0 => below(16),
                1 => 16 + 4 * below(2_200),
                _ => below(bytes.len()),
            };
            bytes[at] = below(60) as u8;
        }
        if turn % 10 == 0 {
            bytes.truncate(below(whole.len()));
        }
        let refusal = match Table::from_file(&bytes) {
            Err(refusal) => Some((refusal.number(), refusal.to_string())),
            Ok(table) => {
                let refusal = table.check().err();
                refusal.map(|refusal| (refusal.number(), refusal.to_string()))
            }
        };
        let run = run_on(&["check", "-"], &bytes);
        let (number, message) = match refusal {
            Some((number, words)) => {
                let message = format!("dervisclo: standard input: refused with {words}\n");
                (number, message)
            }
            None => (0, String::new()),
        };
        assert_eq!((run.status, run.errors), (Some(number as i32), message));
        seen[number as usize] += 1;
    }
    for number in [0, 3, 4, 6, 7, 20, 21] {
        assert!(seen[number] > 0, "{seen:?}");
    }
}
