//! What stands in an operation or fragment: variables, fields, spreads.

use super::Builder;
use crate::NodeKind;

impl Builder {
    /// A variable of an operation, its name without the `$`. A type, a value by default, directives.
    ///
    /// ```
    /// # use dervisclo::{Style, Table};
    /// let table = Table::document(|document| {
    ///     document.query("Q", |query| {
    ///         query.variable_definition("id", |id| id.ty("ID!"));
    ///         query.fields(["a"]);
    ///     });
    /// });
    /// assert_eq!(table.print(&Style::one_line()).unwrap(), b"query Q($id: ID!) { a }");
    /// ```
    pub fn variable_definition(&mut self, name: &str, below: impl FnOnce(&mut Self)) {
        self.node(NodeKind::VariableDefinition, 0, name, below);
    }

    /// A field that is selected. An alias, arguments, directives, selections.
    ///
    /// ```
    /// # use dervisclo::{Style, Table};
    /// let table = Table::document(|document| {
    ///     document.query("", |query| query.field("user", |user| user.fields(["id", "name"])));
    /// });
    /// assert_eq!(table.print(&Style::one_line()).unwrap(), b"{ user { id name } }");
    /// ```
    pub fn field(&mut self, name: &str, below: impl FnOnce(&mut Self)) {
        self.node(NodeKind::Field, 0, name, below);
    }

    /// Fields with names alone.
    ///
    /// ```
    /// # use dervisclo::{Style, Table};
    /// let table = Table::document(|document| document.query("", |query| query.fields(["a", "b"])));
    /// assert_eq!(table.print(&Style::one_line()).unwrap(), b"{ a b }");
    /// ```
    pub fn fields<'a>(&mut self, names: impl IntoIterator<Item = &'a str>) {
        self.leaves(NodeKind::Field, names);
    }

    /// The name that a selected field gets in the answer. It goes before all else.
    ///
    /// ```
    /// # use dervisclo::{Style, Table};
    /// let table = Table::document(|document| {
    ///     document.query("", |query| query.field("name", |name| name.alias("called")));
    /// });
    /// assert_eq!(table.print(&Style::one_line()).unwrap(), b"{ called: name }");
    /// ```
    pub fn alias(&mut self, name: &str) {
        self.leaf(NodeKind::Alias, name);
    }

    /// The selections of a fragment. Directives.
    ///
    /// ```
    /// # use dervisclo::{Style, Table};
    /// let table = Table::document(|document| {
    ///     document.query("", |query| query.fragment_spread("Parts", |_| ()));
    /// });
    /// assert_eq!(table.print(&Style::one_line()).unwrap(), b"{ ...Parts }");
    /// ```
    pub fn fragment_spread(&mut self, name: &str, below: impl FnOnce(&mut Self)) {
        self.node(NodeKind::FragmentSpread, 0, name, below);
    }

    /// Selections on a type; an empty name for any. Directives, selections.
    ///
    /// ```
    /// # use dervisclo::{Style, Table};
    /// let table = Table::document(|document| {
    ///     document.query("", |query| query.inline_fragment("User", |user| user.fields(["id"])));
    /// });
    /// assert_eq!(table.print(&Style::one_line()).unwrap(), b"{ ... on User { id } }");
    /// ```
    pub fn inline_fragment(&mut self, on: &str, below: impl FnOnce(&mut Self)) {
        self.node(NodeKind::InlineFragment, 0, on, below);
    }
}
