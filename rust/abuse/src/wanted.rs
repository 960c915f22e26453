//! What the independent programs say of an input.

use crate::entries::Entry;
use crate::input::Input;
use compare::call::Checked;
use compare::wanted;
use oracle::plain_read::Form;
use oracle::{crate_printer, plain_print};

/// The room left out: what is to be written, or a refusal other than 8.
pub type Wanted = Result<Text, Checked>;

#[derive(Clone, Debug, Default, Eq, PartialEq)]
pub struct Text {
    pub bytes: Vec<u8>,
    /// 1 quoted, 2 block, and 0 where nothing is read.
    pub form: u32,
}

/// What a call reports; what the entry does not report is 0.
#[derive(Clone, Copy, Debug, Eq, PartialEq)]
pub struct Answer {
    pub number: u32,
    pub place: u64,
    pub length: u64,
    pub form: u32,
}

/// By the crate's printer where its sources are at hand.
pub fn wanted(input: &Input) -> Wanted {
    match input.entry {
        Entry::PrintLiteral => {
            let bytes = wanted::printed(&input.print()).map_err(refusal)?;
            Ok(Text { bytes, form: 0 })
        }
        Entry::ReadLiteral => match wanted::read(&input.bytes) {
            Ok((form, bytes)) => Ok(Text {
                bytes,
                form: if form == Form::Quoted { 1 } else { 2 },
            }),
            Err(_) => Err(refusal(9)),
        },
        Entry::CheckTable => accepted(wanted::checked(&input.words, &input.pool)),
        Entry::CheckDocument => accepted(wanted::checked_document(&input.document())),
        Entry::PrintDocument => {
            let bytes = wanted::document(&input.document())?;
            Ok(Text { bytes, form: 0 })
        }
    }
}

/// Does the plain printer print the same?
pub fn printers_agree(input: &Input, wanted: &Wanted) -> bool {
    let Ok(text) = wanted else {
        return true;
    };
    let settings = wanted::settings(input.breaks, &input.prefix, input.level);
    let plain = match input.entry {
        _ if !crate_printer::PRESENT => return true,
        Entry::PrintLiteral => {
            plain_print::print_literal(&input.bytes, input.description == 1, &settings)
        }
        Entry::PrintDocument => plain_print::print_document(&input.words, &input.pool, &settings),
        _ => return true,
    };
    text.bytes == plain
}

fn accepted(checked: Checked) -> Wanted {
    match checked {
        Checked::ACCEPTED => Ok(Text::default()),
        refusal => Err(refusal),
    }
}

fn refusal(number: u32) -> Checked {
    Checked { number, place: 0 }
}

/// What the call is to report, and what it is to write at the start of the output.
pub fn answer<'a>(input: &Input, wanted: &'a Wanted) -> (Answer, &'a [u8]) {
    let told = |number, place, length, form| Answer {
        number,
        place,
        length,
        form,
    };
    match wanted {
        Err(Checked { number, place }) => (told(*number, *place, 0, 0), &[]),
        Ok(Text { bytes, .. }) if bytes.len() > input.room => {
            (told(8, 0, bytes.len() as u64, 0), &[])
        }
        Ok(Text { bytes, form }) => (told(0, 0, bytes.len() as u64, *form), bytes),
    }
}
