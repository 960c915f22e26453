//! The check of a node table.

use crate::{Style, c, refusals};
use std::error::Error;
use std::fmt;

/// Why a table is not accepted. The lowest number that applies is given, and for 3 to 7 the smallest node with that
/// fault.
///
/// ```
/// let refusal = dervisclo::TableRefusal::Nesting { place: 4 };
/// let words = "4 (nesting) at node 4: a later node inside this subtree ends after it";
/// assert_eq!(refusal.to_string(), words);
/// ```
#[derive(Clone, Copy, Debug, Eq, PartialEq)]
pub enum TableRefusal {
    /// 1: a prefix over 16 bytes or with a byte other than space and tab, or a level over 64. [`check_table`], which is
    /// given no style, never answers it.
    Settings,
    /// 2: the words are not a multiple of five, there is no node or over 8,192, or the pool is over 65,536 bytes.
    Size,
    /// 3: unknown kind or variant; text outside the pool; length 0 with start not 0; text where none is allowed; end
    /// not above its own number or past the table; node 0 not a Document ending the table; kind 0 elsewhere.
    Node {
        /// The node.
        place: usize,
    },
    /// 4: a later node inside this subtree ends after it.
    Nesting {
        /// The subtree's first node.
        place: usize,
    },
    /// 5: this node is deeper than 64. A Document's depth is 0.
    Depth {
        /// The node.
        place: usize,
    },
    /// 6: the children are not as listed for the kind, or a Variable stands below a kind 3 to 17 or 21.
    Children {
        /// The parent, or the Variable.
        place: usize,
    },
    /// 7: the text is not a name, a number or UTF-8 as the kind asks.
    Text {
        /// The node.
        place: usize,
    },
}

impl TableRefusal {
    /// Document 01's number of this refusal, as the C interface answers it.
    ///
    /// ```
    /// assert_eq!(dervisclo::TableRefusal::Depth { place: 65 }.number(), 5);
    /// ```
    pub fn number(self) -> u32 {
        match self {
            Self::Settings => 1,
            Self::Size => 2,
            Self::Node { .. } => 3,
            Self::Nesting { .. } => 4,
            Self::Depth { .. } => 5,
            Self::Children { .. } => 6,
            Self::Text { .. } => 7,
        }
    }

    /// The node that the refusal names; 0 for [`TableRefusal::Settings`] and [`TableRefusal::Size`], which name none.
    ///
    /// ```
    /// assert_eq!(dervisclo::TableRefusal::Depth { place: 65 }.place(), 65);
    /// ```
    pub fn place(self) -> usize {
        match self {
            Self::Settings | Self::Size => 0,
            Self::Node { place }
            | Self::Nesting { place }
            | Self::Depth { place }
            | Self::Children { place }
            | Self::Text { place } => place,
        }
    }

    pub(crate) fn from_answer(number: u32, place: usize) -> Self {
        match number {
            1 => Self::Settings,
            2 => Self::Size,
            3 => Self::Node { place },
            4 => Self::Nesting { place },
            5 => Self::Depth { place },
            6 => Self::Children { place },
            7 => Self::Text { place },
            _ => unreachable!("the library has no answer {number}"),
        }
    }
}

impl fmt::Display for TableRefusal {
    fn fmt(&self, f: &mut fmt::Formatter<'_>) -> fmt::Result {
        match self {
            Self::Settings | Self::Size => refusals::write(f, self.number(), refusals::NO_NODE),
            _ => refusals::write(f, self.number(), format_args!("node {}", self.place())),
        }
    }
}

impl Error for TableRefusal {}

/// Does document 01 accept this node table?
///
/// The words are five a node, in preorder: kind, variant, text start, text length and end, which is the number of the
/// first node after the subtree. Texts lie in the pool; bytes that no node names never matter.
///
/// ```
/// use dervisclo::{check_table, TableRefusal};
///
/// // The query `{ a }`: a Document, an Operation with no name, and a Field whose name is the pool's first byte.
/// let mut words = [0, 0, 0, 0, 3, 1, 0, 0, 0, 3, 29, 0, 0, 1, 3];
/// assert_eq!(check_table(&words, b"a"), Ok(()));
///
/// // No name begins with a digit.
/// assert_eq!(check_table(&words, b"1"), Err(TableRefusal::Text { place: 2 }));
///
/// // The Operation ends before its Field, and has no selection.
/// words[9] = 2;
/// let refusal = check_table(&words, b"a").unwrap_err();
/// assert_eq!((refusal.number(), refusal.place()), (6, 0));
/// ```
pub fn check_table(words: &[u32], pool: &[u8]) -> Result<(), TableRefusal> {
    let mut place = 0;
    // SAFETY: each pointer comes with the length of the slice behind it, and what is lent mutably overlaps nothing.
    let number = unsafe {
        c::dervisclo_check_table(
            words.as_ptr(),
            words.len(),
            pool.as_ptr(),
            pool.len(),
            &mut place,
        )
    };
    told(number, place)
}

fn told(number: u32, place: u64) -> Result<(), TableRefusal> {
    match number {
        0 => Ok(()),
        _ => Err(TableRefusal::from_answer(number, place as usize)),
    }
}

/// Does document 01 accept this node table for printing in this style? The style is looked at first, and its level is at
/// most 64 here.
///
/// ```
/// use dervisclo::{check_document, Style, TableRefusal};
///
/// let words = [0, 0, 0, 0, 3, 1, 0, 0, 0, 3, 29, 0, 0, 1, 3];
/// let style = Style { level: 64, ..Style::default() };
/// assert_eq!(check_document(&style, &words, b"a"), Ok(()));
/// let style = Style { level: 65, ..Style::default() };
/// assert_eq!(check_document(&style, &words, b"-"), Err(TableRefusal::Settings));
/// ```
pub fn check_document(style: &Style, words: &[u32], pool: &[u8]) -> Result<(), TableRefusal> {
    let mut place = 0;
    // SAFETY: each pointer comes with the length of the slice behind it, and what is lent mutably overlaps nothing.
    let number = unsafe {
        c::dervisclo_check_document(
            u32::from(style.breaks),
            style.prefix.as_ptr(),
            style.prefix.len(),
            style.level,
            words.as_ptr(),
            words.len(),
            pool.as_ptr(),
            pool.len(),
            &mut place,
        )
    };
    told(number, place)
}
