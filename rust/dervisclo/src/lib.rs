//! GraphQL documents and string literals, printed in memory that the caller lends; literals read; node tables checked.
//!
//! The work is done by a proved library behind a C interface; this crate makes it safe to call. Documents and literals
//! are printed as the crate apollo-compiler 1.33.0 prints them, and a printed literal reads back as exactly the value
//! that it was printed from. A refusal changes no byte of the output, and a success none past what it wrote.
//!
//! ```
//! use dervisclo::{print_literal, read_literal, Form, Kind, Refusal, Style};
//!
//! let style = Style { level: 1, ..Style::default() };
//! let mut text = [0; 64];
//! let length = print_literal(b"a\nb", Kind::String, &style, &mut text)?;
//! assert_eq!(&text[..length], b"\"\"\"\n  a\n  b\n  \"\"\"");
//!
//! let mut value = [0; 64];
//! let (form, length) = read_literal(&text[..length], &mut value)?;
//! assert_eq!((form, &value[..length]), (Form::Block, &b"a\nb"[..]));
//!
//! // Seventeen bytes do not fit into four: nothing is written, and the refusal says what is needed.
//! let mut short = *b"same";
//! let refusal = print_literal(b"a\nb", Kind::String, &style, &mut short);
//! assert_eq!(refusal, Err(Refusal::Room { needed: 17 }));
//! assert_eq!(&short, b"same");
//! # Ok::<(), Refusal>(())
//! ```
//!
//! [`print_literal_to_vec`] and [`read_literal_to_vec`] measure first and then lend an output of just that length:
//!
//! ```
//! use dervisclo::{print_literal_to_vec, read_literal_to_vec, Form, Kind, Refusal, Style};
//!
//! let text = print_literal_to_vec(b"say \"hi\"", Kind::String, &Style::default())?;
//! assert_eq!(text, br#""say \"hi\"""#);
//! assert_eq!(read_literal_to_vec(&text)?, (Form::Quoted, b"say \"hi\"".to_vec()));
//! # Ok::<(), Refusal>(())
//! ```
//!
//! A document is given as a node table. [`Table::document`] makes one, and [`builder`] says how:
//!
//! ```
//! use dervisclo::{DocumentRefusal, Style, Table};
//!
//! let table = Table::document(|document| {
//!     document.enum_type("Role", |role| {
//!         role.description("Who may do what.");
//!         role.enum_values(["ADMIN", "MEMBER"]);
//!     });
//! });
//! let text = table.print(&Style::one_line())?;
//! assert_eq!(text, br#""Who may do what." enum Role { ADMIN MEMBER }"#);
//! # Ok::<(), DocumentRefusal>(())
//! ```
//!
//! [`print_document`] prints a table that is given as words and pool, into memory that is lent;
//! [`print_document_to_vec`] into a vector of its own:
//!
//! ```
//! use dervisclo::{print_document_to_vec, DocumentRefusal, Style};
//!
//! // The query `{ a }`: a Document, an Operation with no name, and a Field whose name is the pool's first byte.
//! let words = [0, 0, 0, 0, 3, 1, 0, 0, 0, 3, 29, 0, 0, 1, 3];
//! let text = print_document_to_vec(&words, b"a", &Style::default())?;
//! assert_eq!(text, b"{\n  a\n}\n");
//! # Ok::<(), DocumentRefusal>(())
//! ```
//!
//! [`check_table`] says whether document 01 accepts a node table, and if not, why and at which node. [`Table::to_file`]
//! and [`Table::from_file`] keep a table in a file.

#![warn(missing_docs)]

pub mod builder;
pub mod c;
mod check;
mod document;
pub mod file;
mod kinds;
pub mod refusals;
mod table;

pub use check::{TableRefusal, check_document, check_table};
pub use document::{DocumentRefusal, print_document, print_document_to_vec};
pub use kinds::{Location, NodeKind, OperationType};
pub use table::Table;

use std::error::Error;
use std::fmt;

// The library is built for x86-64, where a length is a u64.
const _: () = assert!(size_of::<usize>() == size_of::<u64>());

/// Where the value stands in a document. A description takes block form where it can.
///
/// ```
/// use dervisclo::{Kind, Style, print_literal_to_vec};
///
/// let print = |kind| print_literal_to_vec(b"abc", kind, &Style::default());
/// assert_eq!(print(Kind::Description), Ok(br#""""abc""""#.to_vec()));
/// assert_eq!(print(Kind::String), Ok(br#""abc""#.to_vec()));
/// ```
#[derive(Clone, Copy, Debug, Eq, PartialEq)]
pub enum Kind {
    /// The description of a definition.
    Description,
    /// Any other string value. It takes block form where it can and holds a line feed.
    String,
}

/// How a literal is written.
///
/// ```
/// use dervisclo::{Form, read_literal_to_vec};
///
/// let (form, value) = read_literal_to_vec(br#""""abc""""#)?;
/// assert_eq!((form, &value[..]), (Form::Block, &b"abc"[..]));
/// # Ok::<(), dervisclo::Refusal>(())
/// ```
#[derive(Clone, Copy, Debug, Eq, PartialEq)]
pub enum Form {
    /// `"abc"`, one quote at each end.
    Quoted,
    /// `"""abc"""`, three quotes at each end.
    Block,
}

/// How to print. The default is line breaks on, a prefix of two spaces and level 0.
///
/// ```
/// use dervisclo::{Style, Table};
///
/// let table = Table::document(|document| document.query("", |query| query.fields(["a"])));
/// let style = Style { prefix: b"\t", level: 1, ..Style::default() };
/// assert_eq!(table.print(&style), Ok(b"{\n\t\ta\n\t}\n".to_vec()));
/// ```
#[derive(Clone, Copy, Debug, Eq, PartialEq)]
pub struct Style<'a> {
    /// Line breaks on. Off, a document is one line and every literal is quoted; prefix and level are checked all the
    /// same.
    pub breaks: bool,
    /// Written once per level after each line feed: at most 16 bytes, each a space or a tab.
    pub prefix: &'a [u8],
    /// At most 64 for a document, and 128 for one literal.
    pub level: u64,
}

impl Default for Style<'_> {
    fn default() -> Self {
        Self {
            breaks: true,
            prefix: b"  ",
            level: 0,
        }
    }
}

impl Style<'_> {
    /// The default with line breaks off.
    ///
    /// ```
    /// use dervisclo::Style;
    ///
    /// assert_eq!(Style::one_line(), Style { breaks: false, ..Style::default() });
    /// ```
    pub fn one_line() -> Self {
        Self {
            breaks: false,
            ..Self::default()
        }
    }
}

/// Why no literal was printed or read. The lowest number that applies is given, and [`Refusal::Room`] only if no other is.
///
/// ```
/// use dervisclo::{Kind, Refusal, Style, print_literal};
///
/// let refusal = print_literal(b"\xff", Kind::String, &Style::default(), &mut []).unwrap_err();
/// assert_eq!(refusal, Refusal::Text);
/// assert!(refusal.to_string().starts_with("7 (text) at place 0: "));
/// ```
#[derive(Clone, Copy, Debug, Eq, PartialEq)]
pub enum Refusal {
    /// 1: the prefix is over 16 bytes or has a byte other than space and tab, or the level is over 128.
    Settings,
    /// 2: the value to be printed is over 65,536 bytes.
    Size,
    /// 7: the value to be printed is not UTF-8.
    Text,
    /// 8: the output is shorter than the text, or value, to be written.
    Room {
        /// The length that is needed, exactly.
        needed: usize,
    },
    /// 9: the text to be read is not UTF-8 or not exactly one StringValue of the GraphQL specification.
    Literal,
}

impl Refusal {
    /// Document 01's number of this refusal, as the C interface answers it.
    ///
    /// ```
    /// assert_eq!(dervisclo::Refusal::Room { needed: 17 }.number(), 8);
    /// ```
    pub fn number(self) -> u32 {
        match self {
            Self::Settings => 1,
            Self::Size => 2,
            Self::Text => 7,
            Self::Room { .. } => 8,
            Self::Literal => 9,
        }
    }

    /// 0: one literal has no nodes.
    ///
    /// ```
    /// assert_eq!(dervisclo::Refusal::Literal.place(), 0);
    /// ```
    pub fn place(self) -> usize {
        0
    }

    fn from_answer(number: u32, length: u64) -> Self {
        match number {
            1 => Self::Settings,
            2 => Self::Size,
            7 => Self::Text,
            8 => Self::Room {
                needed: length as usize,
            },
            9 => Self::Literal,
            _ => unreachable!("the library has no answer {number}"),
        }
    }
}

impl fmt::Display for Refusal {
    fn fmt(&self, f: &mut fmt::Formatter<'_>) -> fmt::Result {
        refusals::write(f, self.number(), refusals::NO_NODE)?;
        match self {
            Self::Room { needed } => write!(f, "; {needed} bytes are needed"),
            _ => Ok(()),
        }
    }
}

impl Error for Refusal {}

/// Prints `value` as one literal at the start of `out` and answers its length.
///
/// The value is any UTF-8 of up to 65,536 bytes. The first line is not indented: the caller has written what stands
/// before the literal. A refusal leaves `out` as it was; bytes past the length stay.
///
/// ```
/// use dervisclo::{Kind, Style, print_literal};
///
/// let mut out = [b'.'; 8];
/// assert_eq!(print_literal(b"abc", Kind::String, &Style::default(), &mut out), Ok(5));
/// assert_eq!(&out, br#""abc"..."#);
/// ```
pub fn print_literal(
    value: &[u8],
    kind: Kind,
    style: &Style<'_>,
    out: &mut [u8],
) -> Result<usize, Refusal> {
    let mut length = 0;
    // SAFETY: each pointer comes with the length of the slice behind it, and what is lent mutably overlaps nothing.
    let number = unsafe {
        c::dervisclo_print_literal(
            value.as_ptr(),
            value.len(),
            u32::from(kind == Kind::Description),
            u32::from(style.breaks),
            style.prefix.as_ptr(),
            style.prefix.len(),
            style.level,
            out.as_mut_ptr(),
            out.len(),
            &mut length,
        )
    };
    match number {
        0 => Ok(length as usize),
        _ => Err(Refusal::from_answer(number, length)),
    }
}

/// Reads the one literal that `text` is, writes its value at the start of `out`, and answers the literal's form and the
/// value's length.
///
/// The text may be of any length and have any content. It has nothing before or after the literal. A refusal leaves
/// `out` as it was; bytes past the length stay. A value is never longer than its literal.
///
/// ```
/// use dervisclo::{Form, Refusal, read_literal};
///
/// let mut out = [b'.'; 4];
/// assert_eq!(read_literal(br#""abc""#, &mut out), Ok((Form::Quoted, 3)));
/// assert_eq!(&out, b"abc.");
/// assert_eq!(read_literal(b"abc", &mut out), Err(Refusal::Literal));
/// ```
pub fn read_literal(text: &[u8], out: &mut [u8]) -> Result<(Form, usize), Refusal> {
    let mut length = 0;
    let mut form = 0;
    // SAFETY: each pointer comes with the length of the slice behind it, and what is lent mutably overlaps nothing.
    let number = unsafe {
        c::dervisclo_read_literal(
            text.as_ptr(),
            text.len(),
            out.as_mut_ptr(),
            out.len(),
            &mut length,
            &mut form,
        )
    };
    match (number, form) {
        (0, 1) => Ok((Form::Quoted, length as usize)),
        (0, 2) => Ok((Form::Block, length as usize)),
        (0, _) => unreachable!("the library has no form {form}"),
        _ => Err(Refusal::from_answer(number, length)),
    }
}

/// [`print_literal`] into a vector of just the length that is needed. Where so long a vector cannot be had,
/// [`Refusal::Room`] is the answer.
///
/// ```
/// use dervisclo::{print_literal_to_vec, Kind, Style};
///
/// let text = print_literal_to_vec(b"abc", Kind::Description, &Style::default());
/// assert_eq!(text, Ok(br#""""abc""""#.to_vec()));
/// ```
pub fn print_literal_to_vec(
    value: &[u8],
    kind: Kind,
    style: &Style<'_>,
) -> Result<Vec<u8>, Refusal> {
    let needed = match print_literal(value, kind, style, &mut []) {
        Err(Refusal::Room { needed }) => needed,
        answer => return answer.map(|_| Vec::new()),
    };
    let mut out = room(needed).ok_or(Refusal::Room { needed })?;
    print_literal(value, kind, style, &mut out).map(|_| out)
}

/// [`read_literal`] into a vector of just the length that is needed. Where so long a vector cannot be had,
/// [`Refusal::Room`] is the answer.
///
/// ```
/// use dervisclo::{read_literal_to_vec, Form};
///
/// let read = read_literal_to_vec(br#""\u0061bc""#);
/// assert_eq!(read, Ok((Form::Quoted, b"abc".to_vec())));
/// ```
pub fn read_literal_to_vec(text: &[u8]) -> Result<(Form, Vec<u8>), Refusal> {
    let needed = match read_literal(text, &mut []) {
        Err(Refusal::Room { needed }) => needed,
        answer => return answer.map(|(form, _)| (form, Vec::new())),
    };
    let mut out = room(needed).ok_or(Refusal::Room { needed })?;
    read_literal(text, &mut out).map(|(form, _)| (form, out))
}

/// An output of this length, if it can be had.
fn room(length: usize) -> Option<Vec<u8>> {
    let mut out = Vec::new();
    out.try_reserve_exact(length).ok()?;
    out.resize(length, 0);
    Some(out)
}
