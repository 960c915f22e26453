//! Calls the library and holds each answer, and every byte near the output, against what is wanted.

use crate::call::{self, Checked, Document, Empty, Printed};
use crate::judge::few_rooms;
use crate::lent::Lent;
use crate::wanted;
use oracle::generate::OwnTable;
use oracle::run::Tally;
use oracle::Settings;

/// Answers: 0, and document 01's numbers 1 to 8.
const NAMES: [&str; 9] = [
    "printed", "settings", "size", "node", "nesting", "depth", "children", "text", "room",
];

/// Lengths of the outputs for a document that is refused whatever the room.
const ROOMS: [usize; 3] = [0, 1, 100];

/// One check a call: number, place and length reported, text written, all other bytes unchanged.
pub struct Judge {
    pub tally: Tally,
    /// How empty slices are passed.
    pub empty: Empty,
    /// Tables under settings.
    pub documents: usize,
    pub prints: usize,
    /// How often each answer was wanted.
    counts: [usize; NAMES.len()],
    lent: Lent,
}

impl Default for Judge {
    fn default() -> Self {
        Self {
            tally: Tally::default(),
            empty: Empty::Dangling,
            documents: 0,
            prints: 0,
            counts: [0; NAMES.len()],
            lent: Lent::default(),
        }
    }
}

impl Judge {
    /// Prints to an output of `room` bytes. `wanted` is the text, or a refusal other than 8.
    pub fn print(&mut self, document: &Document<'_>, room: usize, wanted: Result<&[u8], Checked>) {
        match wanted {
            Err(Checked { number, place }) => {
                self.answers(document, room, printed(number, place, 0), &[])
            }
            Ok(text) if text.len() > room => self.needs(document, room, text.len()),
            Ok(text) => self.answers(document, room, printed(0, 0, text.len()), text),
        }
    }

    /// Asks for the refusal of an output that is shorter than this length.
    pub fn needs(&mut self, document: &Document<'_>, room: usize, length: usize) {
        self.answers(document, room, printed(8, 0, length), &[]);
    }

    fn answers(&mut self, document: &Document<'_>, room: usize, right: Printed, written: &[u8]) {
        let answer = call::print_document(document, self.empty, self.lent.lend(room));
        let bytes_are_right = self.lent.holds(room, written);
        self.prints += 1;
        self.counts[right.number as usize] += 1;
        self.tally.check(answer == right && bytes_are_right, || {
            let bytes = if bytes_are_right { "right" } else { "wrong" };
            format!(
                "answer {answer:?}\n  wanted {right:?}\n  bytes of the output and around it {bytes}; output of {room} \
                 bytes\n  {}",
                describe(document)
            )
        });
    }

    /// Prints to outputs of several lengths.
    pub fn print_at(
        &mut self,
        document: &Document<'_>,
        rooms: impl IntoIterator<Item = usize>,
        wanted: Result<&[u8], Checked>,
    ) {
        for room in rooms {
            self.print(document, room, wanted);
        }
    }

    /// Prints what document 01 is asked for here, to outputs of no byte, one too few, just enough and one more; checks
    /// the document too.
    pub fn as_wanted(&mut self, document: &Document<'_>) -> Result<Vec<u8>, Checked> {
        let wanted = wanted::document(document);
        match &wanted {
            Ok(text) => self.print_at(document, few_rooms(text.len()), Ok(text)),
            Err(refusal) => self.print_at(document, ROOMS, Err(*refusal)),
        }
        self.check(document, wanted.as_ref().err().copied());
        self.documents += 1;
        wanted
    }

    /// The check alone refuses just what printing refuses whatever the room.
    fn check(&mut self, document: &Document<'_>, refusal: Option<Checked>) {
        let answer = call::check_document(document, self.empty);
        let right = refusal.unwrap_or(Checked::ACCEPTED);
        self.tally.check(answer == right, || {
            format!(
                "check answers {answer:?}\n  wanted {right:?}\n  {}",
                describe(document)
            )
        });
    }

    /// The same for a generated table, which the plain checker is to accept.
    pub fn accepted(&mut self, table: &OwnTable, settings: &Settings) -> Vec<u8> {
        let wanted = self.as_wanted(&Document::new(table, settings));
        self.tally.check(wanted.is_ok(), || {
            format!("generated, and refused by the plain checker with {wanted:?}")
        });
        wanted.unwrap_or_default()
    }

    /// Looks at the bytes far from any output too.
    pub fn finish(&mut self) {
        let whole = self.lent.is_whole();
        self.tally
            .check(whole, || "bytes far from the output changed".into());
    }

    pub fn add(&mut self, other: &Judge) {
        self.tally.add(other.tally);
        self.documents += other.documents;
        self.prints += other.prints;
        for (count, other) in self.counts.iter_mut().zip(other.counts) {
            *count += other;
        }
    }

    pub fn print_counts(&self) {
        for (number, name) in NAMES.iter().enumerate() {
            println!("{number} {name}: {}", self.counts[number]);
        }
        println!("{} documents, {} prints", self.documents, self.prints);
    }
}

fn printed(number: u32, place: u64, length: usize) -> Printed {
    Printed {
        number,
        place,
        length: length as u64,
    }
}

pub fn describe(document: &Document<'_>) -> String {
    let Document {
        breaks,
        prefix,
        level,
        words,
        pool,
    } = document;
    let shown = &words[..words.len().min(150)];
    let text = pool[..pool.len().min(200)].escape_ascii();
    format!(
        "breaks {breaks}, prefix of {} bytes \"{}\", level {level}\n  {} words {shown:?}\n  pool of {} bytes \"{text}\"",
        prefix.len(),
        prefix[..prefix.len().min(20)].escape_ascii(),
        words.len(),
        pool.len()
    )
}
