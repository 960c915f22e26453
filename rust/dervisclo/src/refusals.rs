//! The words of the refusals: document 01's table, word for word, and the two refusals of a table file.

use std::fmt;

/// A refusal's row in the table.
///
/// ```
/// let row = dervisclo::refusals::row(5).unwrap();
/// assert_eq!((row.number, row.name), (5, "depth"));
/// assert_eq!(row.words, "Document is depth 0; this node is deeper than 64");
/// ```
#[derive(Clone, Copy, Debug, Eq, PartialEq)]
pub struct Row {
    /// The number that is answered.
    pub number: u32,
    /// What the refusal is about, in a word.
    pub name: &'static str,
    /// "Given exactly when".
    pub words: &'static str,
}

const fn given(number: u32, name: &'static str, words: &'static str) -> Row {
    Row {
        number,
        name,
        words,
    }
}

/// Every refusal that this crate gives, by number.
///
/// ```
/// let numbers = dervisclo::refusals::TABLE.map(|row| row.number);
/// assert_eq!(numbers, [1, 2, 3, 4, 5, 6, 7, 8, 9, 20, 21]);
/// ```
pub const TABLE: [Row; 11] = [
    given(
        1,
        "settings",
        "prefix over 16 bytes or with a byte other than space and tab; level over 64 (documents) or 128 (one \
         literal); at the C interface, a yes-or-no number not 0 or 1",
    ),
    given(
        2,
        "size",
        "words not a multiple of 5, no node, over 8,192 nodes, pool over 65,536 bytes; literal value over 65,536",
    ),
    given(
        3,
        "node",
        "unknown kind or variant; text outside the pool; length 0 with start not 0; text where none is allowed; end \
         not above its own number or past the table; node 0 not a Document ending the table; kind 0 elsewhere",
    ),
    given(
        4,
        "nesting",
        "a later node inside this subtree ends after it",
    ),
    given(
        5,
        "depth",
        "Document is depth 0; this node is deeper than 64",
    ),
    given(
        6,
        "children",
        "children not as listed (place: the parent); a Variable below a kind 3 to 17 or 21 (place: the Variable)",
    ),
    given(
        7,
        "text",
        "name (37 and 39 hold one too) not `[_A-Za-z][_0-9A-Za-z]*`; fragment name (2, 31) `on`; enum value (24, 37) \
         `true`, `false` or `null`; 40 or 41 not Spec's FloatValue or IntValue; 18, 38 or a literal's value not UTF-8",
    ),
    given(
        8,
        "room",
        "output shorter than the text, or value, to be written",
    ),
    given(
        9,
        "literal",
        "the input to be read is not UTF-8 or not exactly one Spec StringValue",
    ),
    given(20, "file", "the first eight bytes are not `DVTABLE1`"),
    given(
        21,
        "length",
        "the file ends before its lengths are told, or is not 16 + 4 * words + pool bytes long",
    ),
];

/// The row of a number, if there is one.
///
/// ```
/// use dervisclo::{refusals, Refusal};
///
/// let refusal = Refusal::Room { needed: 17 };
/// assert_eq!(refusals::row(refusal.number()).unwrap().name, "room");
/// assert_eq!(refusals::row(0), None);
/// ```
pub fn row(number: u32) -> Option<&'static Row> {
    TABLE.iter().find(|row| row.number == number)
}

/// The place of a refusal that names no node.
pub(crate) const NO_NODE: &str = "place 0";

/// `5 (depth) at node 65: Document is depth 0; this node is deeper than 64`
pub(crate) fn write(
    f: &mut fmt::Formatter<'_>,
    number: u32,
    place: impl fmt::Display,
) -> fmt::Result {
    match row(number) {
        Some(Row { name, words, .. }) => write!(f, "{number} ({name}) at {place}: {words}"),
        None => write!(f, "{number} at {place}"),
    }
}
