//! `rust/c_example/main.c`, built over `include/dervisclo.h` and the library by the system's C compiler, and run.

use std::env;
use std::fs;
use std::io::Write;
use std::path::Path;
use std::process::Command;

#[test]
fn c_example_prints_and_reads() {
    let compiler = env::var_os("CC").unwrap_or_else(|| "cc".into());
    if Command::new(&compiler).arg("--version").output().is_err() {
        // not by a macro, whose line a passing test would swallow
        let line = format!("there is no C compiler {compiler:?}: the C example is skipped\n");
        return std::io::stderr().write_all(line.as_bytes()).unwrap();
    }
    let repository = Path::new(env!("CARGO_MANIFEST_DIR")).join("../..");
    let example = repository.join("rust/c_example");
    let program = Path::new(env!("CARGO_TARGET_TMPDIR")).join("c_example");
    let built = Command::new(&compiler)
        .args(["-std=c99", "-pedantic", "-Wall", "-Wextra", "-Werror", "-I"])
        .arg(repository.join("include"))
        .arg(example.join("main.c"))
        .arg(env!("DERVISCLO_LIBRARY"))
        .arg("-o")
        .arg(&program)
        .output()
        .unwrap();
    let messages = String::from_utf8_lossy(&built.stderr);
    assert!(built.status.success(), "{messages}");

    let run = Command::new(&program).output().unwrap();
    assert!(run.status.success(), "{:?}", run.status);
    assert_eq!(
        String::from_utf8_lossy(&run.stdout),
        fs::read_to_string(example.join("stdout")).unwrap()
    );
}
