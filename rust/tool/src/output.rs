//! What is written.

use crate::problem::Problem;
use std::ffi::OsStr;
use std::io::{self, Write};

/// Writes to the file of this name; to standard output where there is none, or it is `-`.
pub fn write(file: Option<&OsStr>, bytes: &[u8]) -> Result<(), Problem> {
    match file {
        Some(file) if file != "-" => {
            std::fs::write(file, bytes).map_err(|error| Problem::InputOutput {
                name: file.display().to_string(),
                error,
            })
        }
        _ => to_standard_output(bytes),
    }
}

pub fn to_standard_output(bytes: &[u8]) -> Result<(), Problem> {
    let mut output = io::stdout().lock();
    let written = output.write_all(bytes).and_then(|()| output.flush());
    written.map_err(|error| Problem::InputOutput {
        name: "standard output".into(),
        error,
    })
}
