//! Runs the built tool.

use dervisclo::Table;
use std::ffi::OsStr;
use std::io::Write;
use std::path::{Path, PathBuf};
use std::process::{Command, Stdio};

pub const TOOL: &str = env!("CARGO_BIN_EXE_dervisclo");

/// What a run left: its exit status, none where a signal ended it, and what it wrote.
#[derive(Debug, Eq, PartialEq)]
pub struct Run {
    pub status: Option<i32>,
    pub output: Vec<u8>,
    pub errors: String,
}

impl Run {
    pub fn text(&self) -> &str {
        str::from_utf8(&self.output).unwrap()
    }
}

pub fn command<S: AsRef<OsStr>>(words: &[S]) -> Command {
    let mut command = Command::new(TOOL);
    command.args(words);
    command
}

/// Runs the tool on an empty standard input.
pub fn run<S: AsRef<OsStr>>(words: &[S]) -> Run {
    run_on(words, b"")
}

pub fn run_on<S: AsRef<OsStr>>(words: &[S], input: &[u8]) -> Run {
    finish(&mut command(words), input)
}

pub fn finish(command: &mut Command, input: &[u8]) -> Run {
    let mut child = command
        .stdin(Stdio::piped())
        .stdout(Stdio::piped())
        .stderr(Stdio::piped())
        .spawn()
        .unwrap();
    let mut pipe = child.stdin.take().unwrap();
    std::thread::scope(|scope| {
        // the tool may stop reading early
        scope.spawn(move || drop(pipe.write_all(input)));
        let done = child.wait_with_output().unwrap();
        Run {
            status: done.status.code(),
            output: done.stdout,
            errors: String::from_utf8(done.stderr).unwrap(),
        }
    })
}

/// Success, nothing on standard error.
pub fn writes<S: AsRef<OsStr>>(words: &[S], input: &[u8], text: &str) {
    let run = run_on(words, input);
    assert_eq!((run.status, run.errors.as_str()), (Some(0), ""));
    assert_eq!(run.text(), text);
}

/// This status and message, and nothing on standard output.
pub fn fails<S: AsRef<OsStr>>(words: &[S], input: &[u8], status: i32, message: &str) {
    let run = run_on(words, input);
    assert_eq!(run.errors, format!("dervisclo: {message}\n"));
    assert_eq!((run.status, run.text()), (Some(status), ""));
}

pub fn sample(name: &str) -> PathBuf {
    let samples = Path::new(env!("CARGO_MANIFEST_DIR")).join("../../samples");
    samples.join(name)
}

/// A file for one test, which holds these bytes.
pub fn file(name: &str, bytes: &[u8]) -> String {
    let path = Path::new(env!("CARGO_TARGET_TMPDIR")).join(name);
    std::fs::write(&path, bytes).unwrap();
    path.to_str().unwrap().into()
}

pub fn query_of_a() -> Table {
    Table::document(|document| document.query("", |query| query.fields(["a"])))
}
