//! The examples run: those that need no argument, and the one that writes the sample.

use std::env;
use std::path::{Path, PathBuf};
use std::process::Command;

/// Beside the tests, where `cargo test` builds the examples too. `cargo test --test examples` alone does not.
fn example(name: &str) -> Option<PathBuf> {
    let tests = env::current_exe().ok()?;
    let program = tests.parent()?.parent()?.join("examples").join(name);
    program.is_file().then_some(program)
}

fn runs(name: &str, argument: Option<&Path>, shows: &str) {
    let Some(program) = example(name) else {
        return;
    };
    let done = Command::new(program).args(argument).output().unwrap();
    assert!(done.status.success(), "{name}: {:?}", done.status);
    let text = String::from_utf8(done.stdout).unwrap();
    assert!(text.contains(shows), "{name}: {text}");
}

#[test]
fn they_run() {
    runs("one_literal", None, "Block, 36 bytes are read back:");
    runs(
        "one_document",
        None,
        "roles(first: Int = 10): [Role!]! @deprecated",
    );
    runs(
        "build_schema",
        None,
        "`scalar 2D` is refused with 7 (text) at node 1",
    );
    let file = Path::new(env!("CARGO_TARGET_TMPDIR")).join("registry.dvt");
    runs("sample_registry", Some(&file), "440 nodes");
}
