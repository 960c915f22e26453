//! Writes the sample registry, a shop's schema and some requests to it, as a table file:
//!
//!     cargo run --offline -p dervisclo --example sample_registry -- ../samples/registry.dvt

mod registry;

use std::process::ExitCode;

fn main() -> ExitCode {
    let Some(path) = std::env::args_os().nth(1) else {
        eprintln!("usage: sample_registry FILE");
        return ExitCode::FAILURE;
    };
    let table = registry::registry();
    if let Err(refusal) = table.check() {
        eprintln!("refused with {refusal}");
        return ExitCode::FAILURE;
    }
    let written = match table.to_file() {
        Ok(file) => std::fs::write(&path, file),
        Err(refusal) => {
            eprintln!("refused with {refusal}");
            return ExitCode::FAILURE;
        }
    };
    match written {
        Ok(()) => {
            println!(
                "{} nodes, a pool of {} bytes",
                table.nodes(),
                table.pool.len()
            );
            ExitCode::SUCCESS
        }
        Err(error) => {
            eprintln!("{}: {error}", path.display());
            ExitCode::FAILURE
        }
    }
}
