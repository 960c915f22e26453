//! What is read: table files, and the values and texts of literals.

use crate::problem::Problem;
use dervisclo::file::{FileRefusal, LONGEST, told_length};
use dervisclo::{Table, TableRefusal};
use std::ffi::{OsStr, OsString};
use std::fs::File;
use std::io::{self, Read};
use std::os::unix::ffi::OsStringExt;

/// A name for standard input, and its name in messages.
const DASH: &str = "-";
const STANDARD_INPUT: &str = "standard input";

/// What messages call the input.
pub fn name(file: &OsStr) -> String {
    if file == DASH {
        STANDARD_INPUT.into()
    } else {
        file.display().to_string()
    }
}

/// The table of a file. Of a file that is too long for any table to be accepted, no more is read than shows it.
pub fn table(file: &OsStr) -> Result<Table, Problem> {
    let name = name(file);
    let failed = |error| Problem::InputOutput {
        name: name.clone(),
        error,
    };
    let refused = |refusal: FileRefusal| Problem::refused(&name, refusal.number(), refusal);

    let (input, length) = opened(file).map_err(failed)?;
    let bytes = read_up_to(input, LONGEST + 1).map_err(failed)?;
    let read = bytes.len() as u64;
    if read <= LONGEST {
        return Table::from_file(&bytes).map_err(refused);
    }
    let told = told_length(&bytes).map_err(refused)?;
    let found = length.unwrap_or(read);
    let may_be_whole = told > LONGEST && length.is_none_or(|length| length == told);
    Err(if may_be_whole {
        Problem::refused(&name, TableRefusal::Size.number(), TableRefusal::Size)
    } else {
        let told = Some(told);
        refused(FileRefusal::Length { told, found })
    })
}

/// The input, and the length of a regular file.
fn opened(file: &OsStr) -> io::Result<(Box<dyn Read>, Option<u64>)> {
    if file == DASH {
        return Ok((Box::new(io::stdin()), None));
    }
    let file = File::open(file)?;
    let about = file.metadata()?;
    let length = about.is_file().then_some(about.len());
    Ok((Box::new(file), length))
}

fn read_up_to(input: impl Read, most: u64) -> io::Result<Vec<u8>> {
    let mut bytes = Vec::new();
    input.take(most).read_to_end(&mut bytes)?;
    Ok(bytes)
}

/// The argument's bytes, or standard input up to so many, and what messages call it.
pub fn argument(word: Option<OsString>, most: u64) -> Result<(String, Vec<u8>), Problem> {
    match word {
        Some(word) if word != DASH => Ok(("the argument".into(), word.into_vec())),
        _ => match read_up_to(io::stdin(), most) {
            Ok(bytes) => Ok((STANDARD_INPUT.into(), bytes)),
            Err(error) => Err(Problem::InputOutput {
                name: STANDARD_INPUT.into(),
                error,
            }),
        },
    }
}
