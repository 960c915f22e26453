//! Help, the version, wrong command lines, and what cannot be read or written.

use crate::common::{TOOL, command, fails, file, query_of_a, run, sample, writes};
use dervisclo::refusals;
use std::ffi::OsStr;
use std::fs;
use std::os::unix::ffi::OsStrExt;
use std::process::Stdio;

const COMMANDS: [&str; 4] = ["print", "check", "print-literal", "read-literal"];

fn help(words: &[&str]) -> String {
    let help = run(words);
    assert_eq!((help.status, help.errors.as_str()), (Some(0), ""));
    let text = help.text().to_string();
    assert!(text.lines().all(|line| line.chars().count() <= 80));
    text
}

#[test]
fn help_of_the_whole() {
    let text = help(&["--help"]);
    for command in COMMANDS {
        assert!(text.contains(&format!("\n  {command} ")), "{command}");
    }
    let one_line = text.split_whitespace().collect::<Vec<_>>().join(" ");
    for row in refusals::TABLE {
        let entry = format!(" {} {} {}", row.number, row.name, row.words);
        assert!(one_line.contains(&entry), "{entry}");
    }
    for same in [&["-h"][..], &["help"]] {
        assert_eq!(help(same), text);
    }
}

#[test]
fn help_of_each_command() {
    let settings = ["--breaks on|off", "--prefix TEXT", "--level N"];
    for (command, flags) in [
        ("print", &[&settings[..], &["--output FILE"]].concat()[..]),
        ("check", &settings),
        (
            "print-literal",
            &[&settings[..], &["--output FILE", "--description"]].concat(),
        ),
        ("read-literal", &["--output FILE"]),
    ] {
        let text = help(&[command, "--help"]);
        assert!(text.starts_with(&format!("Usage: dervisclo {command} ")));
        for flag in flags {
            assert!(text.contains(&format!("\n  {flag}")), "{command} {flag}");
        }
        for same in [
            &[command, "-h"][..],
            &["help", command],
            &["--help", command],
        ] {
            assert_eq!(help(same), text);
        }
    }
}

/// The commands that the help shows as examples, run where the repository is.
#[test]
fn the_examples_of_the_help_run() {
    let text = help(&["--help"]);
    let examples = text.split_once("Examples:\n").unwrap().1;
    let examples = examples.split_once("\n\n").unwrap().0;
    assert_eq!(examples.lines().count(), 5);
    let folder = env!("CARGO_TARGET_TMPDIR");
    let samples = sample("");
    for line in examples.lines() {
        let words = line.trim().strip_prefix("dervisclo ").unwrap();
        let words = words.replace("samples/", &format!("{}/", samples.display()));
        let script = format!("'{}' {words}", TOOL);
        let mut shell = std::process::Command::new("sh");
        let done = shell.args(["-c", &script]).current_dir(folder).output();
        assert!(done.unwrap().status.success(), "{line}");
    }
    let text = fs::read_to_string(format!("{folder}/shop.graphql")).unwrap();
    assert_eq!(text.lines().count(), 1);
}

#[test]
fn version() {
    let line = concat!("dervisclo ", env!("CARGO_PKG_VERSION"), "\n");
    writes(&["--version"], b"", line);
    writes(&["-V"], b"", line);
}

#[test]
fn wrong_command_lines() {
    let sample = sample("registry.dvt");
    let sample = sample.to_str().unwrap();
    let rows: [(&[&str], &str); 19] = [
        (&[], "no command is given"),
        (&["prin"], "there is no command `prin`"),
        (&["--breaks=off"], "there is no command `--breaks=off`"),
        (&["help", "prin"], "there is no command `prin`"),
        (&["print"], "no FILE is given; `-` is standard input"),
        (&["check"], "no FILE is given; `-` is standard input"),
        (&["print", sample, "b"], "`b` is one word too many"),
        (&["read-literal", "a", "b"], "`b` is one word too many"),
        (&["print", sample, "--breaks"], "`--breaks` has no value"),
        (
            &["print", sample, "--breaks", "yes"],
            "`--breaks` is `on` or `off`",
        ),
        (
            &["print", sample, "--breaks=2"],
            "`--breaks` is `on` or `off`",
        ),
        (&["print", sample, "--level", "-1"], "`--level` is a number"),
        (&["print", sample, "--level="], "`--level` is a number"),
        (&["print", sample, "--level=1x"], "`--level` is a number"),
        (
            &["print", sample, "--colour"],
            "`print` takes no `--colour`",
        ),
        (
            &["print", sample, "--description"],
            "`print` takes no `--description`",
        ),
        (
            &["check", sample, "--output=x"],
            "`check` takes no `--output`",
        ),
        (
            &["read-literal", "--level=1"],
            "`read-literal` takes no `--level`",
        ),
        (
            &["print-literal", "--description=on"],
            "`--description` takes no value",
        ),
    ];
    for (words, what) in rows {
        let message = format!("{what}; `dervisclo --help` says what there is");
        fails(words, b"", 64, &message);
    }
}

#[test]
fn words_that_are_not_utf_8() {
    let odd = OsStr::from_bytes(b"\xff\xfe");
    let odd_flag = OsStr::from_bytes(b"--\xff=\xfe");
    let odd_level = OsStr::from_bytes(b"--level=\xff");
    let odd_breaks = OsStr::from_bytes(b"--breaks=\xff");
    let print = OsStr::new("print");
    for (words, status) in [
        (&[odd][..], 64),
        (&[print, odd_flag], 64),
        (&[print, odd_level, odd], 64),
        (&[print, odd_breaks, odd], 64),
        (&[print, odd], 74),
        (&["check".as_ref(), odd], 74),
        (&["read-literal".as_ref(), odd], 9),
        (&["print-literal".as_ref(), odd], 7),
    ] {
        let run = run(words);
        assert_eq!(run.status, Some(status), "{words:?}");
        assert!(run.errors.starts_with("dervisclo: "), "{}", run.errors);
        assert_eq!(run.errors.lines().count(), 1);
    }
}

#[test]
fn what_cannot_be_read() {
    let missing = run(&["print", "no such file.dvt"]);
    assert_eq!((missing.status, missing.text()), (Some(74), ""));
    assert!(missing.errors.starts_with("dervisclo: no such file.dvt: "));
    let folder = run(&["check", env!("CARGO_TARGET_TMPDIR")]);
    assert_eq!((folder.status, folder.text()), (Some(74), ""));
}

#[test]
fn what_cannot_be_written() {
    let path = file("unwritten.dvt", &query_of_a().to_file().unwrap());
    let run = run(&["print", &path, "--output", "no such folder/a"]);
    assert_eq!((run.status, run.text()), (Some(74), ""));
    assert!(run.errors.starts_with("dervisclo: no such folder/a: "));

    let Ok(full) = fs::File::options().write(true).open("/dev/full") else {
        return;
    };
    let done = command(&["print", &path]).stdout(full).output().unwrap();
    assert_eq!(done.status.code(), Some(74));
    assert!(done.stderr.starts_with(b"dervisclo: standard output: "));
}

/// Whoever reads the output has gone: no panic, no message, and a status that says so.
#[test]
fn a_broken_pipe() {
    let sample = sample("registry.dvt");
    let sample = sample.to_str().unwrap();
    for words in [
        &["print", sample][..],
        &["check", sample],
        &["print-literal", "a"],
        &["read-literal", "\"a\""],
        &["--help"],
        &["--version"],
    ] {
        let (reader, writer) = std::io::pipe().unwrap();
        drop(reader);
        let done = command(words).stdout(writer).output().unwrap();
        assert_eq!(done.status.code(), Some(74), "{words:?}");
        assert_eq!(done.stderr, b"", "{words:?}");
    }
}

/// Neither standard error nor standard output can be written.
#[test]
fn nobody_listens() {
    for (words, status) in [
        (&["print", "no such file.dvt"][..], 74),
        (&["prin"], 64),
        (&["read-literal", "a"], 9),
        (&["read-literal", "\"a\""], 74),
    ] {
        let (reader, writer) = std::io::pipe().unwrap();
        drop(reader);
        let mut command = command(words);
        command.stdout(writer.try_clone().unwrap()).stderr(writer);
        let done = command.stdin(Stdio::null()).status().unwrap();
        assert_eq!(done.code(), Some(status), "{words:?}");
    }
}
