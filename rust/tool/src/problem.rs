//! Why the tool did not do what it was asked, as a message and an exit status.

use std::fmt::{self, Display};
use std::io::{self, ErrorKind, Write};

pub const USAGE: u8 = 64;
pub const INPUT_OUTPUT: u8 = 74;

pub enum Problem {
    /// The command line is not understood.
    Usage(String),
    /// A file or stream cannot be read or written.
    InputOutput { name: String, error: io::Error },
    /// A refusal of the library, or of the file.
    Refused {
        name: String,
        number: u32,
        words: String,
    },
}

impl Problem {
    pub fn refused(name: &str, number: u32, refusal: impl Display) -> Self {
        Self::Refused {
            name: name.into(),
            number,
            words: refusal.to_string(),
        }
    }

    pub fn status(&self) -> u8 {
        match self {
            Self::Usage(_) => USAGE,
            Self::InputOutput { .. } => INPUT_OUTPUT,
            Self::Refused { number, .. } => u8::try_from(*number).unwrap_or(u8::MAX),
        }
    }

    /// Writes the message to standard error. Whoever closed the pipe that we wrote to needs none.
    pub fn tell(&self) {
        match self {
            Self::InputOutput { error, .. } if error.kind() == ErrorKind::BrokenPipe => {}
            // there is nowhere else to complain to
            _ => drop(writeln!(io::stderr(), "dervisclo: {self}")),
        }
    }
}

impl Display for Problem {
    fn fmt(&self, f: &mut fmt::Formatter<'_>) -> fmt::Result {
        match self {
            Self::Usage(what) => write!(f, "{what}; `dervisclo --help` says what there is"),
            Self::InputOutput { name, error } => write!(f, "{name}: {error}"),
            Self::Refused { name, words, .. } => write!(f, "{name}: refused with {words}"),
        }
    }
}
