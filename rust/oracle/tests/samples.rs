//! `samples/registry.graphql` is what the crate's printer, and the plain one, give for `samples/registry.dvt`.

use oracle::run::{jobs, print};
use oracle::{crate_printer, plain_check, plain_print, table_file, Settings};
use std::fs;
use std::path::Path;

fn sample(name: &str) -> String {
    let folder = Path::new(env!("CARGO_MANIFEST_DIR")).join("../../samples");
    folder.join(name).to_str().unwrap().into()
}

#[test]
fn the_stored_text_is_the_tables() {
    let text = fs::read_to_string(sample("registry.graphql")).unwrap();
    let table = table_file::read(&fs::read(sample("registry.dvt")).unwrap()).unwrap();
    let (words, pool) = (&table.words, &table.pool);
    assert_eq!(plain_check::is_valid(words, pool), Ok(()));
    let plain = plain_print::print_document(words, pool, &Settings::default());
    assert!(plain == text.as_bytes());
    if crate_printer::PRESENT {
        assert!(print::file(&sample("registry.dvt")) == Ok(text));
    }
}

#[test]
fn a_damaged_file_is_none() {
    let file = fs::read(sample("registry.dvt")).unwrap();
    for length in [0, 7, 8, 15, 16, file.len() - 1] {
        assert_eq!(table_file::read(&file[..length]), None);
    }
    let longer = [&file[..], b"a"].concat();
    assert_eq!(table_file::read(&longer), None);
    let mut other = file;
    other[7] += 1;
    assert_eq!(table_file::read(&other), None);
}

#[test]
fn the_jobs_stored_outputs_are_the_crates() {
    let registry = sample("registry.dvt");
    let stored = |name: &str, file: &str| {
        let crates = Path::new(env!("CARGO_MANIFEST_DIR")).join("../../crates");
        fs::read(crates.join(name).join(file)).unwrap()
    };
    let text = match jobs::archive(&registry) {
        Ok(text) if crate_printer::PRESENT => text.into_bytes(),
        _ => {
            let table = table_file::read(&fs::read(&registry).unwrap()).unwrap();
            plain_print::print_document(&table.words, &table.pool, &Settings::on("  ", 0))
        }
    };
    for name in ["archive_exporter", "digest_job"] {
        assert!(stored(name, "stdin") == fs::read(&registry).unwrap());
    }
    let digest = jobs::digest_line(&text).into_bytes();
    assert!(stored("archive_exporter", "stdout") == text);
    assert_eq!(stored("digest_job", "stdout"), digest);
}
