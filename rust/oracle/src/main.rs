use oracle::crate_printer;
use oracle::run::{compare, definitions, jobs, known, literals, print, vectors, Tally, ABSENT};
use std::fs;
use std::path::Path;
use std::process::ExitCode;

const USAGE: &str = "usage: oracle print <breaks> <level> <prefix> <words> <pool>
       oracle display <breaks> <level> <prefix> <words> <pool>
       oracle print-file <table file>
       oracle archive <table file>
       oracle digest <table file>
       oracle literal <d|s> <breaks> <level> <prefix> <value>
       oracle known
       oracle compare [seed] [count]
       oracle literals [seed] [count]
       oracle vectors <directory>
       oracle definitions <directory of vectors> <directory of the crate made>
       oracle all";

const SEED: usize = 1;
const TABLES: usize = 20_000;
const VALUES: usize = 200_000;

fn main() -> ExitCode {
    let arguments: Vec<String> = std::env::args().skip(1).collect();
    let arguments: Vec<&str> = arguments.iter().map(String::as_str).collect();
    let number = |at: usize, default: usize| match arguments.get(at) {
        Some(text) => text.parse().ok(),
        None => Some(default),
    };
    match arguments[..] {
        ["definitions", vectors, out] => return write_definitions(vectors, out),
        ["print", a, b, c, d, e] => return show(|| print::document([a, b, c, d, e], false)),
        ["display", a, b, c, d, e] => return show(|| print::document([a, b, c, d, e], true)),
        ["print-file", path] => return show(|| print::file(path)),
        ["archive", path] => return show(|| jobs::archive(path)),
        ["digest", path] => return show(|| jobs::digest(path)),
        ["literal", a, b, c, d, e] => return show(|| print::literal([a, b, c, d, e])),
        _ => {}
    }
    print_sources();
    let tally = match (arguments.first(), number(1, SEED)) {
        (Some(&"vectors"), _) => return write_vectors(arguments.get(1).copied()),
        (Some(&"known"), _) => Some(known::run()),
        (Some(&"compare"), Some(seed)) => {
            number(2, TABLES).map(|count| compare::run(seed as u64, count))
        }
        (Some(&"literals"), Some(seed)) => {
            number(2, VALUES).map(|count| literals::run(seed as u64, count))
        }
        (Some(&"all"), _) => Some(all()),
        _ => None,
    };
    let Some(tally) = tally else {
        eprintln!("{USAGE}");
        return ExitCode::from(2);
    };
    if tally.failed == 0 {
        ExitCode::SUCCESS
    } else {
        ExitCode::FAILURE
    }
}

/// Writes a text that the crate printed.
fn show(text: impl Fn() -> Result<String, String>) -> ExitCode {
    if !crate_printer::PRESENT {
        println!("{ABSENT}");
        return ExitCode::SUCCESS;
    }
    match text() {
        Ok(text) => {
            print!("{text}");
            ExitCode::SUCCESS
        }
        Err(what) => {
            eprintln!("{what}");
            ExitCode::FAILURE
        }
    }
}

fn all() -> Tally {
    let mut tally = known::run();
    tally.add(compare::run(SEED as u64, TABLES));
    tally.add(literals::run(SEED as u64, VALUES));
    println!("{tally}");
    tally
}

/// Says which sources are compiled in.
fn print_sources() {
    if !crate_printer::PRESENT {
        println!("{ABSENT}");
    }
    for (name, source) in crate_printer::SOURCES {
        println!("crate's {name}, unchanged: {} bytes", source.len());
    }
}

fn write_vectors(directory: Option<&str>) -> ExitCode {
    let Some(directory) = directory else {
        eprintln!("{USAGE}");
        return ExitCode::from(2);
    };
    if !crate_printer::PRESENT {
        println!("no vectors were made");
        return ExitCode::FAILURE;
    }
    let files = vectors::by_the_crate().into_iter();
    for (name, content) in files.chain(vectors::by_plain_programs()) {
        let path = Path::new(directory).join(name);
        if let Err(error) = fs::write(&path, &content) {
            eprintln!("{}: {error}", path.display());
            return ExitCode::FAILURE;
        }
        let lines = content.lines().filter(|line| !line.starts_with('#'));
        println!("{name}: {} vectors, {} bytes", lines.count(), content.len());
    }
    ExitCode::SUCCESS
}

fn write_definitions(vectors: &str, out: &str) -> ExitCode {
    match definitions::write(Path::new(vectors), Path::new(out)) {
        Ok(count) => {
            println!("{count} vectors as theorems");
            ExitCode::SUCCESS
        }
        Err(what) => {
            eprintln!("{what}");
            ExitCode::FAILURE
        }
    }
}
