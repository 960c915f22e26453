//! Node tables made without counting words.
//!
//! [`Table::document`](crate::Table::document) lends a [`Builder`] to a closure, and every method of the builder that
//! takes a closure lends it on for the children of the node that it adds. Nodes are added in the order of the calls,
//! which is the order in which they are printed: a description first, a type before its default value, directives
//! behind what they mark. [`NodeKind`] lists the children of each kind; where a table strays from that,
//! [`Table::check`](crate::Table::check) names the node.
//!
//! ```
//! use dervisclo::{Style, Table};
//!
//! let table = Table::document(|document| {
//!     document.query("Orders", |query| {
//!         query.variable_definition("first", |variable| {
//!             variable.ty("Int!");
//!             variable.int(10);
//!         });
//!         query.field("orders", |orders| {
//!             orders.argument("first", |value| value.variable("first"));
//!             orders.fields(["id", "total"]);
//!         });
//!     });
//! });
//! let text = "query Orders($first: Int! = 10) { orders(first: $first) { id total } }";
//! assert_eq!(table.print(&Style::one_line())?, text.as_bytes());
//! # Ok::<(), dervisclo::DocumentRefusal>(())
//! ```

mod definitions;
mod parts;
mod selections;
mod values;

use crate::table::WORDS;
use crate::{NodeKind, Table};
use std::collections::HashMap;

/// Adds the children of one node. Equal texts lie in the pool once.
///
/// ```
/// use dervisclo::builder::Builder;
/// use dervisclo::Table;
///
/// fn described(node: &mut Builder, about: &str) {
///     if !about.is_empty() {
///         node.description(about);
///     }
/// }
///
/// let table = Table::document(|document| {
///     document.scalar_type("Date", |date| described(date, "A day."));
///     document.scalar_type("Time", |time| described(time, ""));
/// });
/// assert_eq!((table.nodes(), table.check()), (4, Ok(())));
/// ```
#[derive(Debug)]
pub struct Builder {
    table: Table,
    placed: HashMap<Vec<u8>, u32>,
}

/// A count as a word. One past 32 bits belongs to a table that is refused for its size, whatever stands here.
fn word(count: usize) -> u32 {
    u32::try_from(count).unwrap_or(u32::MAX)
}

impl Builder {
    pub(crate) fn document(below: impl FnOnce(&mut Self)) -> Table {
        let mut builder = Self {
            table: Table::default(),
            placed: HashMap::new(),
        };
        builder.node(NodeKind::Document, 0, "", below);
        builder.table
    }

    /// A node of any kind, with any variant and text, and below it what `below` adds.
    ///
    /// Everything else that a builder adds is made of this. Nothing is asked of the text, not even that it is UTF-8.
    ///
    /// ```
    /// use dervisclo::{NodeKind, Style, Table};
    ///
    /// let table = Table::document(|document| {
    ///     document.node(NodeKind::DirectiveDefinition, 1, "tag", |tag| {
    ///         tag.node(NodeKind::Location, 10, "", |_| ());
    ///     });
    /// });
    /// let text = b"directive @tag repeatable on OBJECT";
    /// assert_eq!(table.print(&Style::one_line()), Ok(text.to_vec()));
    /// ```
    pub fn node(
        &mut self,
        kind: NodeKind,
        variant: u32,
        text: impl AsRef<[u8]>,
        below: impl FnOnce(&mut Self),
    ) {
        let first = self.open(kind, variant, text.as_ref());
        below(self);
        self.close(first);
    }

    /// A node with no variant and no children.
    fn leaf(&mut self, kind: NodeKind, text: &str) {
        self.node(kind, 0, text, |_| ());
    }

    /// A leaf for each of the texts.
    fn leaves<'a>(&mut self, kind: NodeKind, texts: impl IntoIterator<Item = &'a str>) {
        for text in texts {
            self.leaf(kind, text);
        }
    }

    /// Adds a node and answers where its words begin. It ends once it is closed.
    fn open(&mut self, kind: NodeKind, variant: u32, text: &[u8]) -> usize {
        let first = self.table.words.len();
        let start = self.place(text);
        self.table
            .words
            .extend([kind.number(), variant, start, word(text.len()), 0]);
        first
    }

    /// Ends the node whose words begin here.
    fn close(&mut self, first: usize) {
        let end = word(self.table.nodes());
        if let Some(word) = self.table.words.get_mut(first + WORDS - 1) {
            *word = end;
        }
    }

    /// Where the text lies in the pool; 0 if it is empty.
    fn place(&mut self, text: &[u8]) -> u32 {
        if text.is_empty() {
            return 0;
        }
        if let Some(&start) = self.placed.get(text) {
            return start;
        }
        let start = word(self.table.pool.len());
        self.table.pool.extend_from_slice(text);
        self.placed.insert(text.to_vec(), start);
        start
    }
}
