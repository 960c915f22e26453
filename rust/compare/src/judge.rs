//! Calls the library and holds each answer, and every byte near the output, against what is wanted.

use crate::call::{self, Answer, Empty, Print};
use crate::lent::Lent;
use crate::wanted::{self, Reading};
use oracle::plain_read::Form;
use oracle::run::Tally;
use std::fmt::Debug;

/// One check a call: number, length and form reported, text or value written, all other bytes unchanged.
pub struct Judge {
    pub tally: Tally,
    /// How empty slices are passed.
    pub empty: Empty,
    pub prints: usize,
    pub reads: usize,
    lent: Lent,
}

impl Default for Judge {
    fn default() -> Self {
        Self {
            tally: Tally::default(),
            empty: Empty::Dangling,
            prints: 0,
            reads: 0,
            lent: Lent::default(),
        }
    }
}

impl Judge {
    /// Prints to an output of `room` bytes. `wanted` is the text, or the number of a refusal other than 8.
    pub fn print(&mut self, print: &Print<'_>, room: usize, wanted: Result<&[u8], u32>) {
        let answer = call::print(print, self.empty, self.lent.lend(room));
        let (right, written) = match wanted {
            Err(number) => (refusal(number, 0), &[][..]),
            Ok(text) if text.len() > room => (refusal(8, text.len()), &[][..]),
            Ok(text) => (success(text.len(), 0), text),
        };
        let bytes_are_right = self.lent.holds(room, written);
        self.prints += 1;
        self.tally.check(answer == right && bytes_are_right, || {
            let given = describe(print);
            differs(answer, right, bytes_are_right, room, &given)
        });
    }

    /// Prints to outputs of several lengths.
    pub fn print_at(
        &mut self,
        print: &Print<'_>,
        rooms: impl IntoIterator<Item = usize>,
        wanted: Result<&[u8], u32>,
    ) {
        for room in rooms {
            self.print(print, room, wanted);
        }
    }

    /// Prints what document 01 is asked for here, to outputs of no byte, one too few, just enough and one more.
    pub fn print_as_wanted(&mut self, print: &Print<'_>) {
        let wanted = wanted::printed(print);
        let need = wanted.as_ref().map_or(40, Vec::len);
        self.print_at(print, few_rooms(need), wanted.as_deref().map_err(|&n| n));
    }

    /// Reads to an output of `room` bytes.
    pub fn read(&mut self, text: &[u8], room: usize, wanted: &Reading) {
        let answer = call::read(text, self.empty, self.lent.lend(room));
        let (right, written) = match wanted {
            Err(_) => (refusal(9, 0), &[][..]),
            Ok((_, value)) if value.len() > room => (refusal(8, value.len()), &[][..]),
            Ok((form, value)) => (success(value.len(), number(*form)), &value[..]),
        };
        let bytes_are_right = self.lent.holds(room, written);
        self.reads += 1;
        self.tally.check(answer == right && bytes_are_right, || {
            let given = format!("reading {}", show(text));
            differs(answer, right, bytes_are_right, room, &given)
        });
    }

    /// Reads to outputs of several lengths.
    pub fn read_at(
        &mut self,
        text: &[u8],
        rooms: impl IntoIterator<Item = usize>,
        wanted: &Reading,
    ) {
        for room in rooms {
            self.read(text, room, wanted);
        }
    }

    /// Reads what the plain reader reads, to outputs of no byte, one too few, just enough and one more.
    pub fn read_as_wanted(&mut self, text: &[u8]) {
        let wanted = wanted::read(text);
        let need = wanted.as_ref().map_or(40, |(_, value)| value.len());
        self.read_at(text, few_rooms(need), &wanted);
    }

    /// Reads a printed literal by the safe wrapper, with just the room that its value needs.
    pub fn read_back(&mut self, text: &[u8], form: Form, value: &[u8]) {
        let room = value.len();
        let answer = dervisclo::read_literal(text, self.lent.lend(room));
        let bytes_are_right = self.lent.holds(room, value);
        let right = Ok((safe_form(form), room));
        self.reads += 1;
        self.tally.check(answer == right && bytes_are_right, || {
            let given = format!("reading back {}", show(text));
            differs(answer, right, bytes_are_right, room, &given)
        });
    }

    /// The counts of a finished run.
    pub fn finish(&mut self) -> Tally {
        let whole = self.lent.is_whole();
        self.tally
            .check(whole, || "bytes far from the output changed".into());
        self.tally
    }
}

fn success(length: usize, form: u32) -> Answer {
    Answer {
        number: 0,
        length: length as u64,
        form,
    }
}

fn refusal(number: u32, length: usize) -> Answer {
    Answer {
        number,
        length: length as u64,
        form: 0,
    }
}

/// The form's number at the C interface.
fn number(form: Form) -> u32 {
    match form {
        Form::Quoted => 1,
        Form::Block => 2,
    }
}

pub fn safe_form(form: Form) -> dervisclo::Form {
    match form {
        Form::Quoted => dervisclo::Form::Quoted,
        Form::Block => dervisclo::Form::Block,
    }
}

/// No byte, one too few, just enough and one more.
pub fn few_rooms(need: usize) -> impl Iterator<Item = usize> {
    let shorter = [0, need.saturating_sub(1)];
    let shorter = shorter.into_iter().take(need.min(2));
    shorter.chain([need, need + 1])
}

fn differs(
    answer: impl Debug,
    right: impl Debug,
    bytes_are_right: bool,
    room: usize,
    given: &str,
) -> String {
    let bytes = if bytes_are_right { "right" } else { "wrong" };
    format!(
        "answer {answer:?}\n  wanted {right:?}\n  bytes of the output and around it {bytes}; \
         output of {room} bytes\n  {given}"
    )
}

pub fn describe(print: &Print<'_>) -> String {
    let Print {
        value,
        description,
        breaks,
        prefix,
        level,
    } = print;
    format!(
        "printing {}, description {description}, breaks {breaks}, prefix {}, level {level}",
        show(value),
        show(prefix)
    )
}

fn show(bytes: &[u8]) -> String {
    let start = bytes[..bytes.len().min(200)].escape_ascii();
    let more = if bytes.len() > 200 { ".." } else { "" };
    format!("{} bytes \"{start}{more}\"", bytes.len())
}
