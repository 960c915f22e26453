//! `print` and `check`.

use crate::common::{command, file, finish, query_of_a, run, run_on, sample, writes};
use dervisclo::{Style, Table};
use std::fs;

#[test]
fn the_sample_registry_is_the_stored_text() {
    let registry = sample("registry.dvt");
    let text = fs::read_to_string(sample("registry.graphql")).unwrap();
    let words = ["print".as_ref(), registry.as_os_str()];
    writes(&words, b"", &text);
    writes(&["print", "-"], &fs::read(&registry).unwrap(), &text);
}

/// What the README shows between its first words on it and two dots.
#[test]
fn the_readme_shows_the_first_lines() {
    let readme = fs::read_to_string(sample("../README.md")).unwrap();
    let shown = readme.split_once("requests to it:\n\n").unwrap().1;
    let shown = shown.split_once("    ..\n").unwrap().0;
    let text = fs::read_to_string(sample("registry.graphql")).unwrap();
    assert!(shown.lines().count() >= 20);
    for (shown, line) in shown.lines().zip(text.lines()) {
        assert_eq!(shown.strip_prefix("    ").unwrap_or(shown), line);
    }
}

#[test]
fn settings() {
    let table = query_of_a();
    let path = file("settings.dvt", &table.to_file().unwrap());
    for (flags, text) in [
        (&[][..], "{\n  a\n}\n"),
        (&["--breaks", "on"], "{\n  a\n}\n"),
        (&["--breaks", "off"], "{ a }"),
        (&["--breaks=off", "--breaks=on"], "{\n  a\n}\n"),
        (&["--level", "1"], "{\n    a\n  }\n"),
        (&["--level=2", "--prefix", "\t"], "{\n\t\t\ta\n\t\t}\n"),
        (
            &["--level=1", "--prefix=\\t \\t"],
            "{\n\t \t\t \ta\n\t \t}\n",
        ),
        (&["--level=64", "--prefix="], "{\na\n}\n"),
        (&["--breaks=off", "--level=64"], "{ a }"),
    ] {
        let words = [&["print", &path][..], flags].concat();
        writes(&words, b"", text);
        let words = [&["print"][..], flags, &["--", &path]].concat();
        writes(&words, b"", text);
        let words = [&["check"][..], flags, &[&path]].concat();
        let line = format!("{path}: accepted, 3 nodes, a pool of 1 bytes\n");
        writes(&words, b"", &line);
    }
}

#[test]
fn the_sample_in_other_styles_is_the_librarys_text() {
    let registry = fs::read(sample("registry.dvt")).unwrap();
    let table = Table::from_file(&registry).unwrap();
    for (flags, style) in [
        (["--breaks=off", "--level=0"], Style::one_line()),
        (
            ["--prefix=\\t", "--level=3"],
            Style {
                prefix: b"\t",
                level: 3,
                ..Style::default()
            },
        ),
    ] {
        let words = [&["print", "-"][..], &flags].concat();
        let text = String::from_utf8(table.print(&style).unwrap()).unwrap();
        writes(&words, &registry, &text);
    }
}

#[test]
fn check_tells_the_size() {
    let registry = sample("registry.dvt");
    let table = Table::from_file(&fs::read(&registry).unwrap()).unwrap();
    let line = format!(
        "{}: accepted, {} nodes, a pool of {} bytes\n",
        registry.display(),
        table.nodes(),
        table.pool.len()
    );
    writes(&["check".as_ref(), registry.as_os_str()], b"", &line);
    let file = query_of_a().to_file().unwrap();
    let line = "standard input: accepted, 3 nodes, a pool of 1 bytes\n";
    writes(&["check", "-"], &file, line);
}

#[test]
fn output_goes_to_a_file() {
    let table = file("output.dvt", &query_of_a().to_file().unwrap());
    let text = file("output.graphql", b"something else, and longer");
    writes(&["print", &table, "--output", &text], b"", "");
    assert_eq!(fs::read(&text).unwrap(), b"{\n  a\n}\n");
    writes(&["print", &table, "--output", "-"], b"", "{\n  a\n}\n");
}

#[test]
fn a_refusal_leaves_the_output_alone() {
    let mut table = query_of_a();
    table.pool[0] = b'-';
    let table = file("refused.dvt", &table.to_file().unwrap());
    let text = file("refused.graphql", b"as it was");
    let refused = run(&["print", &table, "--output", &text]);
    assert_eq!(refused.status, Some(7));
    assert_eq!(fs::read(&text).unwrap(), b"as it was");
    let new = format!("{text}.new");
    let _ = fs::remove_file(&new);
    let refused = run(&["print", &table, "--output", &new]);
    assert_eq!(refused.status, Some(7));
    assert!(!fs::exists(&new).unwrap());
}

#[test]
fn the_empty_document_has_no_text() {
    let file = Table::document(|_| ()).to_file().unwrap();
    writes(&["print", "-"], &file, "");
}

/// 8,192 nodes and a pool of 65,536 bytes.
#[test]
fn the_longest_file_is_read_whole() {
    let mut table = Table::document(|document| {
        for number in 0..8_191 {
            document.scalar_type(&format!("S{number}"), |_| ());
        }
    });
    assert!(table.pool.len() < 65_536);
    table.pool.resize(65_536, 0xff);
    let bytes = table.to_file().unwrap();
    assert_eq!(bytes.len(), 229_392);
    let printed = run_on(&["print", "-", "--breaks=off"], &bytes);
    assert_eq!((printed.status, printed.errors.as_str()), (Some(0), ""));
    assert_eq!(printed.output, table.print(&Style::one_line()).unwrap());
    let path = file("longest.dvt", &bytes);
    assert_eq!(run(&["check", &path]).status, Some(0));
    // and with one byte more it is not
    let longer = [&bytes[..], b"a"].concat();
    let path = file("longer.dvt", &longer);
    for refused in [run(&["check", &path]), run_on(&["check", "-"], &longer)] {
        assert_eq!(refused.status, Some(21));
        assert!(
            refused
                .errors
                .ends_with("229392 bytes are told, 229393 are found\n")
        );
    }
}

#[test]
fn standard_input_may_be_a_file() {
    let path = file("input.dvt", &query_of_a().to_file().unwrap());
    let input = fs::File::open(path).unwrap();
    let done = command(&["print", "-"]).stdin(input).output().unwrap();
    assert_eq!(done.stdout, b"{\n  a\n}\n");
    let again = finish(
        &mut command(&["print", "/dev/stdin"]),
        &query_of_a().to_file().unwrap(),
    );
    assert_eq!(again.text(), "{\n  a\n}\n");
}
