//! The printing of a document.

use crate::{Style, TableRefusal, c, refusals, room};
use std::error::Error;
use std::fmt;

/// Why no document was printed. [`DocumentRefusal::Room`] is given only if no other refusal is.
///
/// ```
/// let refusal = dervisclo::DocumentRefusal::Room { needed: 12 };
/// assert!(refusal.to_string().ends_with("to be written; 12 bytes are needed"));
/// ```
#[derive(Clone, Copy, Debug, Eq, PartialEq)]
pub enum DocumentRefusal {
    /// 1 to 7: what [`check_document`](crate::check_document) says of this style and table.
    Table(TableRefusal),
    /// 8: the output is shorter than the text to be written.
    Room {
        /// The length that is needed, exactly.
        needed: usize,
    },
}

impl DocumentRefusal {
    /// Document 01's number of this refusal, as the C interface answers it.
    ///
    /// ```
    /// assert_eq!(dervisclo::DocumentRefusal::Room { needed: 12 }.number(), 8);
    /// ```
    pub fn number(self) -> u32 {
        match self {
            Self::Table(refusal) => refusal.number(),
            Self::Room { .. } => 8,
        }
    }

    /// The node that the refusal names, or 0 where it names none.
    ///
    /// ```
    /// use dervisclo::{DocumentRefusal, TableRefusal};
    ///
    /// let refusal = DocumentRefusal::Table(TableRefusal::Text { place: 2 });
    /// assert_eq!(refusal.place(), 2);
    /// ```
    pub fn place(self) -> usize {
        match self {
            Self::Table(refusal) => refusal.place(),
            Self::Room { .. } => 0,
        }
    }
}

impl From<TableRefusal> for DocumentRefusal {
    fn from(refusal: TableRefusal) -> Self {
        Self::Table(refusal)
    }
}

impl fmt::Display for DocumentRefusal {
    fn fmt(&self, f: &mut fmt::Formatter<'_>) -> fmt::Result {
        match self {
            Self::Table(refusal) => refusal.fmt(f),
            Self::Room { needed } => {
                refusals::write(f, 8, refusals::NO_NODE)?;
                write!(f, "; {needed} bytes are needed")
            }
        }
    }
}

impl Error for DocumentRefusal {}

/// Prints the document that a node table stands for at the start of `out` and answers the text's length.
///
/// Words and pool are as for [`check_table`](crate::check_table). The first line is not indented: the caller has written
/// what stands before it. A refusal leaves `out` as it was; bytes past the length stay. An empty output measures.
///
/// ```
/// use dervisclo::{print_document, DocumentRefusal, Style, TableRefusal};
///
/// let words = [0, 0, 0, 0, 3, 1, 0, 0, 0, 3, 29, 0, 0, 1, 3];
/// let style = Style { level: 1, ..Style::default() };
/// let mut out = [b'.'; 16];
/// assert_eq!(print_document(&words, b"a", &style, &mut out), Ok(12));
/// assert_eq!(&out, b"{\n    a\n  }\n....");
///
/// let measured = print_document(&words, b"a", &style, &mut []);
/// assert_eq!(measured, Err(DocumentRefusal::Room { needed: 12 }));
///
/// // No name begins with a digit.
/// let refusal = DocumentRefusal::Table(TableRefusal::Text { place: 2 });
/// assert_eq!(print_document(&words, b"1", &style, &mut out), Err(refusal));
/// ```
pub fn print_document(
    words: &[u32],
    pool: &[u8],
    style: &Style<'_>,
    out: &mut [u8],
) -> Result<usize, DocumentRefusal> {
    let mut place = 0;
    let mut length = 0;
    // SAFETY: each pointer comes with the length of the slice behind it, and what is lent mutably overlaps nothing.
    let number = unsafe {
        c::dervisclo_print_document(
            u32::from(style.breaks),
            style.prefix.as_ptr(),
            style.prefix.len(),
            style.level,
            words.as_ptr(),
            words.len(),
            pool.as_ptr(),
            pool.len(),
            out.as_mut_ptr(),
            out.len(),
            &mut place,
            &mut length,
        )
    };
    let needed = length as usize;
    match number {
        0 => Ok(needed),
        8 => Err(DocumentRefusal::Room { needed }),
        _ => Err(TableRefusal::from_answer(number, place as usize).into()),
    }
}

/// [`print_document`] into a vector of just the length that is needed. Where so long a vector cannot be had,
/// [`DocumentRefusal::Room`] is the answer.
///
/// A table's texts may name one range of the pool again and again, so a text can be far longer than its table.
///
/// ```
/// use dervisclo::{print_document_to_vec, Style};
///
/// let words = [0, 0, 0, 0, 3, 1, 0, 0, 0, 3, 29, 0, 0, 1, 3];
/// let text = print_document_to_vec(&words, b"a", &Style::default());
/// assert_eq!(text, Ok(b"{\n  a\n}\n".to_vec()));
/// ```
pub fn print_document_to_vec(
    words: &[u32],
    pool: &[u8],
    style: &Style<'_>,
) -> Result<Vec<u8>, DocumentRefusal> {
    let needed = match print_document(words, pool, style, &mut []) {
        Err(DocumentRefusal::Room { needed }) => needed,
        answer => return answer.map(|_| Vec::new()),
    };
    let mut out = room(needed).ok_or(DocumentRefusal::Room { needed })?;
    print_document(words, pool, style, &mut out).map(|_| out)
}
