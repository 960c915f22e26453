//! The safe functions of `dervisclo` on the same inputs.

use crate::entries::Entry;
use crate::input::Input;
use crate::wanted::{answer, Answer, Wanted};
use dervisclo::{DocumentRefusal, Form, Kind, Refusal, Style, TableRefusal};

/// Does the safe function answer and write as wanted? Yes where its types have no word for the input.
pub fn same(input: &Input, wanted: &Wanted) -> bool {
    if input.description > 1 || input.breaks > 1 {
        return true;
    }
    let (right, written) = answer(input, wanted);
    let mut out = vec![0xFF; input.room];
    let given = call(input, &mut out);
    let (start, rest) = out.split_at(written.len());
    given == right && start == written && rest.iter().all(|&byte| byte == 0xFF)
}

fn call(input: &Input, out: &mut [u8]) -> Answer {
    let style = Style {
        breaks: input.breaks == 1,
        prefix: &input.prefix,
        level: input.level,
    };
    let (words, pool) = (&input.words[..], &input.pool[..]);
    match input.entry {
        Entry::PrintLiteral => {
            let kind = match input.description {
                1 => Kind::Description,
                _ => Kind::String,
            };
            match dervisclo::print_literal(&input.bytes, kind, &style, out) {
                Ok(length) => success(length, 0),
                Err(refusal) => of_literal(refusal),
            }
        }
        Entry::ReadLiteral => match dervisclo::read_literal(&input.bytes, out) {
            Ok((Form::Quoted, length)) => success(length, 1),
            Ok((Form::Block, length)) => success(length, 2),
            Err(refusal) => of_literal(refusal),
        },
        Entry::CheckTable => of_table(dervisclo::check_table(words, pool)),
        Entry::CheckDocument => of_table(dervisclo::check_document(&style, words, pool)),
        Entry::PrintDocument => match dervisclo::print_document(words, pool, &style, out) {
            Ok(length) => success(length, 0),
            Err(DocumentRefusal::Table(refusal)) => of_table(Err(refusal)),
            Err(DocumentRefusal::Room { needed }) => refused(8, 0, needed),
        },
    }
}

fn success(length: usize, form: u32) -> Answer {
    Answer {
        form,
        ..refused(0, 0, length)
    }
}

fn refused(number: u32, place: usize, length: usize) -> Answer {
    Answer {
        number,
        place: place as u64,
        length: length as u64,
        form: 0,
    }
}

fn of_literal(refusal: Refusal) -> Answer {
    let needed = match refusal {
        Refusal::Room { needed } => needed,
        _ => 0,
    };
    refused(refusal.number(), 0, needed)
}

fn of_table(checked: Result<(), TableRefusal>) -> Answer {
    match checked {
        Ok(()) => success(0, 0),
        Err(refusal) => refused(refusal.number(), refusal.place(), 0),
    }
}
