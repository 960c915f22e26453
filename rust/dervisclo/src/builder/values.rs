//! Values: of arguments, of object fields, in lists, by default.

use super::Builder;
use crate::NodeKind;
use std::fmt::Display;

impl Builder {
    /// `null`
    ///
    /// ```
    /// # use dervisclo::{Style, Table};
    /// let table = Table::document(|document| {
    ///     document.scalar_type("S", |s| s.directive("d", |d| d.argument("a", |a| a.null())));
    /// });
    /// assert_eq!(table.print(&Style::one_line()).unwrap(), b"scalar S @d(a: null)");
    /// ```
    pub fn null(&mut self) {
        self.leaf(NodeKind::Null, "");
    }

    /// `true` or `false`
    ///
    /// ```
    /// # use dervisclo::{Style, Table};
    /// let table = Table::document(|document| {
    ///     document.scalar_type("S", |s| s.directive("d", |d| d.argument("a", |a| a.boolean(true))));
    /// });
    /// assert_eq!(table.print(&Style::one_line()).unwrap(), b"scalar S @d(a: true)");
    /// ```
    pub fn boolean(&mut self, value: bool) {
        self.node(NodeKind::Boolean, u32::from(value), "", |_| ());
    }

    /// A value of an enum.
    ///
    /// ```
    /// # use dervisclo::{Style, Table};
    /// let table = Table::document(|document| {
    ///     document.scalar_type("S", |s| s.directive("d", |d| d.argument("a", |a| a.enum_value("RED"))));
    /// });
    /// assert_eq!(table.print(&Style::one_line()).unwrap(), b"scalar S @d(a: RED)");
    /// ```
    pub fn enum_value(&mut self, name: &str) {
        self.leaf(NodeKind::EnumValue, name);
    }

    /// A string with this value. It is escaped when it is printed.
    ///
    /// ```
    /// # use dervisclo::{Style, Table};
    /// let table = Table::document(|document| {
    ///     document.scalar_type("S", |s| s.directive("d", |d| d.argument("a", |a| a.string("\n"))));
    /// });
    /// assert_eq!(table.print(&Style::one_line()).unwrap(), br#"scalar S @d(a: "\n")"#);
    /// ```
    pub fn string(&mut self, value: &str) {
        self.leaf(NodeKind::String, value);
    }

    /// A variable, its name without the `$`. It may stand in operations and fragments only.
    ///
    /// ```
    /// # use dervisclo::{Style, Table};
    /// let table = Table::document(|document| {
    ///     document.query("", |query| {
    ///         query.field("user", |user| user.argument("id", |id| id.variable("id")));
    ///     });
    /// });
    /// assert_eq!(table.print(&Style::one_line()).unwrap(), b"{ user(id: $id) }");
    /// ```
    pub fn variable(&mut self, name: &str) {
        self.leaf(NodeKind::Variable, name);
    }

    /// A float, in the text that is to be printed: `1.0`, `6.02e23`. What is no FloatValue is refused with 7.
    ///
    /// ```
    /// # use dervisclo::{Style, Table};
    /// let table = Table::document(|document| {
    ///     document.scalar_type("S", |s| s.directive("d", |d| d.argument("a", |a| a.float("1.50"))));
    /// });
    /// assert_eq!(table.print(&Style::one_line()).unwrap(), b"scalar S @d(a: 1.50)");
    /// ```
    pub fn float(&mut self, text: &str) {
        self.leaf(NodeKind::Float, text);
    }

    /// An int: any integer, or its text. What is no IntValue is refused with 7.
    ///
    /// ```
    /// # use dervisclo::{Style, Table};
    /// let table = Table::document(|document| {
    ///     document.scalar_type("S", |s| s.directive("d", |d| d.argument("a", |a| a.int(-12))));
    /// });
    /// assert_eq!(table.print(&Style::one_line()).unwrap(), b"scalar S @d(a: -12)");
    /// ```
    pub fn int(&mut self, value: impl Display) {
        self.leaf(NodeKind::Int, &value.to_string());
    }

    /// A list. Values.
    ///
    /// ```
    /// # use dervisclo::{Style, Table};
    /// let table = Table::document(|document| {
    ///     document.scalar_type("S", |s| s.directive("d", |d| d.argument("a", |a| a.list(|list| {
    ///         list.int(1);
    ///         list.int(2);
    ///     }))));
    /// });
    /// assert_eq!(table.print(&Style::one_line()).unwrap(), b"scalar S @d(a: [1, 2])");
    /// ```
    pub fn list(&mut self, items: impl FnOnce(&mut Self)) {
        self.node(NodeKind::List, 0, "", items);
    }

    /// An object. Object fields.
    ///
    /// ```
    /// # use dervisclo::{Style, Table};
    /// let table = Table::document(|document| {
    ///     document.scalar_type("S", |s| s.directive("d", |d| d.argument("a", |a| a.object(|object| {
    ///         object.object_field("b", |b| b.int(1));
    ///         object.object_field("c", |c| c.null());
    ///     }))));
    /// });
    /// assert_eq!(table.print(&Style::one_line()).unwrap(), b"scalar S @d(a: {b: 1, c: null})");
    /// ```
    pub fn object(&mut self, fields: impl FnOnce(&mut Self)) {
        self.node(NodeKind::ObjectValue, 0, "", fields);
    }

    /// A field of an object. A value.
    ///
    /// ```
    /// # use dervisclo::{Style, Table};
    /// let table = Table::document(|document| {
    ///     document.scalar_type("S", |s| s.directive("d", |d| {
    ///         d.argument("a", |a| a.object(|object| object.object_field("b", |b| b.int(1))));
    ///     }));
    /// });
    /// assert_eq!(table.print(&Style::one_line()).unwrap(), b"scalar S @d(a: {b: 1})");
    /// ```
    pub fn object_field(&mut self, name: &str, value: impl FnOnce(&mut Self)) {
        self.node(NodeKind::ObjectField, 0, name, value);
    }
}
