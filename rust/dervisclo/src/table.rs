//! A node table of one's own.

use crate::builder::Builder;
use crate::file::{self, FileRefusal};
use crate::{DocumentRefusal, Style, TableRefusal, check_table, print_document_to_vec};

/// Words of one node: kind, variant, text start, text length, end.
pub(crate) const WORDS: usize = 5;

/// Document 01's limits.
pub(crate) const MOST_NODES: usize = 8_192;
pub(crate) const MOST_POOL: usize = 65_536;

/// The words and the pool of a node table.
///
/// ```
/// use dervisclo::{Style, Table};
///
/// let table = Table::document(|document| {
///     document.object_type("User", |user| {
///         user.description("Who signs in.");
///         user.field_definition("id", |field| field.ty("ID!"));
///     });
/// });
/// let text = table.print(&Style::default())?;
/// assert_eq!(text, b"\"\"\"Who signs in.\"\"\"\ntype User {\n  id: ID!\n}\n");
/// # Ok::<(), dervisclo::DocumentRefusal>(())
/// ```
#[derive(Clone, Debug, Default, Eq, PartialEq)]
pub struct Table {
    /// Five words a node, in preorder: kind, variant, text start, text length, end.
    pub words: Vec<u32>,
    /// The bytes that the texts lie in.
    pub pool: Vec<u8>,
}

impl Table {
    /// A document with the definitions that `below` adds.
    ///
    /// Starts, lengths and ends are counted here. Whether each node has the children and the text that its kind asks
    /// for is for [`Table::check`] to say. A table that outgrows document 01's limits is kept whole and refused with 2,
    /// [`TableRefusal::Size`]; a count past 32 bits, which only such a table can have, stays at the greatest `u32`.
    ///
    /// ```
    /// use dervisclo::Table;
    ///
    /// let table = Table::document(|document| document.query("", |query| query.fields(["a"])));
    /// assert_eq!(table.words, [0, 0, 0, 0, 3, 1, 0, 0, 0, 3, 29, 0, 0, 1, 3]);
    /// assert_eq!(table.pool, b"a");
    /// ```
    pub fn document(below: impl FnOnce(&mut Builder)) -> Self {
        Builder::document(below)
    }

    /// How many nodes there are.
    ///
    /// ```
    /// assert_eq!(dervisclo::Table::document(|_| ()).nodes(), 1);
    /// ```
    pub fn nodes(&self) -> usize {
        self.words.len() / WORDS
    }

    /// [`check_table`] of this table.
    ///
    /// ```
    /// use dervisclo::{Table, TableRefusal};
    ///
    /// // An operation selects something.
    /// let table = Table::document(|document| document.query("Nothing", |_| ()));
    /// assert_eq!(table.check(), Err(TableRefusal::Children { place: 1 }));
    /// ```
    pub fn check(&self) -> Result<(), TableRefusal> {
        check_table(&self.words, &self.pool)
    }

    /// [`print_document_to_vec`] of this table.
    ///
    /// ```
    /// use dervisclo::{Style, Table};
    ///
    /// let table = Table::document(|document| document.scalar_type("Date", |_| ()));
    /// assert_eq!(table.print(&Style::default()), Ok(b"scalar Date\n".to_vec()));
    /// ```
    pub fn print(&self, style: &Style<'_>) -> Result<Vec<u8>, DocumentRefusal> {
        print_document_to_vec(&self.words, &self.pool, style)
    }

    /// The bytes of a table file, as `docs/TABLE-FILE.md` has it. Any table can be kept in one, accepted or not; one of
    /// over 2^32 - 1 words or pool bytes is refused with 2, [`TableRefusal::Size`].
    ///
    /// ```
    /// use dervisclo::Table;
    ///
    /// let table = Table::document(|document| document.scalar_type("Date", |_| ()));
    /// let file = table.to_file()?;
    /// assert!(file.starts_with(b"DVTABLE1") && file.ends_with(b"Date"));
    /// # Ok::<(), dervisclo::TableRefusal>(())
    /// ```
    pub fn to_file(&self) -> Result<Vec<u8>, TableRefusal> {
        file::write(self)
    }

    /// The table that the bytes of a table file hold. It is not checked yet.
    ///
    /// ```
    /// use dervisclo::{file::FileRefusal, Table};
    ///
    /// let table = Table::document(|document| document.scalar_type("Date", |_| ()));
    /// let file = table.to_file()?;
    /// assert_eq!(Table::from_file(&file), Ok(table));
    /// assert_eq!(Table::from_file(b"scalar Date"), Err(FileRefusal::Magic));
    /// # Ok::<(), dervisclo::TableRefusal>(())
    /// ```
    pub fn from_file(file: &[u8]) -> Result<Self, FileRefusal> {
        file::read(file)
    }
}
