//! Prints the words of the command line as one description and reads it back:
//!
//!     cargo run --offline -p dervisclo --example one_literal -- 'say "hi"'

use dervisclo::{Kind, Refusal, Style, print_literal, read_literal};
use std::io::Write;
use std::process::ExitCode;

fn main() -> ExitCode {
    let words: Vec<String> = std::env::args().skip(1).collect();
    let value = match words.is_empty() {
        true => "A description\nof two lines, \"quoted\"".to_string(),
        false => words.join(" "),
    };
    match print_and_read(value.as_bytes()) {
        Ok(()) => ExitCode::SUCCESS,
        Err(refusal) => {
            eprintln!("refused with {refusal}");
            ExitCode::FAILURE
        }
    }
}

fn print_and_read(value: &[u8]) -> Result<(), Refusal> {
    let style = Style {
        level: 1,
        ..Style::default()
    };
    let mut out = [0; 16];
    let mut more;
    let text = match print_literal(value, Kind::Description, &style, &mut out) {
        Ok(length) => &out[..length],
        Err(Refusal::Room { needed }) => {
            println!("{} bytes are too few, {needed} are needed:", out.len());
            more = vec![0; needed];
            let length = print_literal(value, Kind::Description, &style, &mut more)?;
            &more[..length]
        }
        Err(refusal) => return Err(refusal),
    };
    show(text);

    // A value is never longer than its literal.
    let mut room = vec![0; text.len()];
    let (form, length) = read_literal(text, &mut room)?;
    println!("{form:?}, {length} bytes are read back:");
    show(&room[..length]);
    Ok(())
}

fn show(bytes: &[u8]) {
    let mut stdout = std::io::stdout().lock();
    let _ = stdout
        .write_all(bytes)
        .and_then(|()| stdout.write_all(b"\n"));
}
