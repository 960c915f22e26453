//! What stands in a definition: descriptions, directives, fields, values of enums, types.

use super::{Builder, word};
use crate::table::WORDS;
use crate::{Location, NodeKind, OperationType};

impl Builder {
    /// What a definition, a field or a value is for. It goes before all else.
    ///
    /// ```
    /// # use dervisclo::{Style, Table};
    /// let table = Table::document(|document| {
    ///     document.scalar_type("Date", |date| date.description("A day."));
    /// });
    /// assert_eq!(table.print(&Style::one_line()).unwrap(), b"\"A day.\" scalar Date");
    /// ```
    pub fn description(&mut self, text: &str) {
        self.leaf(NodeKind::Description, text);
    }

    /// A directive, its name without the `@`. Arguments.
    ///
    /// ```
    /// # use dervisclo::{Style, Table};
    /// let table = Table::document(|document| {
    ///     document.scalar_type("Date", |date| {
    ///         date.directive("iso", |iso| iso.argument("number", |number| number.int(8601)));
    ///     });
    /// });
    /// assert_eq!(table.print(&Style::one_line()).unwrap(), b"scalar Date @iso(number: 8601)");
    /// ```
    pub fn directive(&mut self, name: &str, below: impl FnOnce(&mut Self)) {
        self.node(NodeKind::Directive, 0, name, below);
    }

    /// An argument of a directive or of a field that is selected. A value.
    ///
    /// ```
    /// # use dervisclo::{Style, Table};
    /// let table = Table::document(|document| {
    ///     document.query("", |query| {
    ///         query.field("user", |user| user.argument("id", |id| id.string("u1")));
    ///     });
    /// });
    /// assert_eq!(table.print(&Style::one_line()).unwrap(), br#"{ user(id: "u1") }"#);
    /// ```
    pub fn argument(&mut self, name: &str, value: impl FnOnce(&mut Self)) {
        self.node(NodeKind::Argument, 0, name, value);
    }

    /// An argument of a field or directive definition, or a field of an input object. A description, a type, a value by
    /// default, directives.
    ///
    /// ```
    /// # use dervisclo::{Style, Table};
    /// let table = Table::document(|document| {
    ///     document.input_object_type("Page", |page| {
    ///         page.input_value("size", |size| {
    ///             size.ty("Int!");
    ///             size.int(20);
    ///         });
    ///     });
    /// });
    /// assert_eq!(table.print(&Style::one_line()).unwrap(), b"input Page { size: Int! = 20 }");
    /// ```
    pub fn input_value(&mut self, name: &str, below: impl FnOnce(&mut Self)) {
        self.node(NodeKind::InputValueDefinition, 0, name, below);
    }

    /// A field of an object type or interface. A description, input values, a type, directives.
    ///
    /// ```
    /// # use dervisclo::{Style, Table};
    /// let table = Table::document(|document| {
    ///     document.object_type("Query", |query| {
    ///         query.field_definition("user", |user| {
    ///             user.input_value("id", |id| id.ty("ID!"));
    ///             user.ty("User");
    ///         });
    ///     });
    /// });
    /// assert_eq!(table.print(&Style::one_line()).unwrap(), b"type Query { user(id: ID!): User }");
    /// ```
    pub fn field_definition(&mut self, name: &str, below: impl FnOnce(&mut Self)) {
        self.node(NodeKind::FieldDefinition, 0, name, below);
    }

    /// A value of an enum. A description, directives.
    ///
    /// ```
    /// # use dervisclo::{Style, Table};
    /// let table = Table::document(|document| {
    ///     document.enum_type("Role", |role| {
    ///         role.enum_value_definition("ADMIN", |admin| admin.directive("hidden", |_| ()));
    ///     });
    /// });
    /// assert_eq!(table.print(&Style::one_line()).unwrap(), b"enum Role { ADMIN @hidden }");
    /// ```
    pub fn enum_value_definition(&mut self, name: &str, below: impl FnOnce(&mut Self)) {
        self.node(NodeKind::EnumValueDefinition, 0, name, below);
    }

    /// Values of an enum with names alone.
    ///
    /// ```
    /// # use dervisclo::{Style, Table};
    /// let table = Table::document(|document| {
    ///     document.enum_type("Role", |role| role.enum_values(["ADMIN", "MEMBER"]));
    /// });
    /// assert_eq!(table.print(&Style::one_line()).unwrap(), b"enum Role { ADMIN MEMBER }");
    /// ```
    pub fn enum_values<'a>(&mut self, names: impl IntoIterator<Item = &'a str>) {
        self.leaves(NodeKind::EnumValueDefinition, names);
    }

    /// The type that a schema's operations of one type start from.
    ///
    /// ```
    /// # use dervisclo::{OperationType, Style, Table};
    /// let table = Table::document(|document| {
    ///     document.schema(|schema| schema.root_operation(OperationType::Mutation, "Changes"));
    /// });
    /// assert_eq!(table.print(&Style::one_line()).unwrap(), b"schema { mutation: Changes }");
    /// ```
    pub fn root_operation(&mut self, ty: OperationType, name: &str) {
        self.node(NodeKind::RootOperation, ty as u32, name, |_| ());
    }

    /// Interfaces that a type implements.
    ///
    /// ```
    /// # use dervisclo::{Style, Table};
    /// let table = Table::document(|document| {
    ///     document.object_type("User", |user| user.interfaces(["Node", "Named"]));
    /// });
    /// assert_eq!(table.print(&Style::one_line()).unwrap(), b"type User implements Node & Named");
    /// ```
    pub fn interfaces<'a>(&mut self, names: impl IntoIterator<Item = &'a str>) {
        self.leaves(NodeKind::InterfaceName, names);
    }

    /// The types of a union.
    ///
    /// ```
    /// # use dervisclo::{Style, Table};
    /// let table = Table::document(|document| {
    ///     document.union_type("Found", |found| found.union_members(["User", "Order"]));
    /// });
    /// assert_eq!(table.print(&Style::one_line()).unwrap(), b"union Found = User | Order");
    /// ```
    pub fn union_members<'a>(&mut self, names: impl IntoIterator<Item = &'a str>) {
        self.leaves(NodeKind::UnionMember, names);
    }

    /// Where a directive may stand.
    ///
    /// ```
    /// # use dervisclo::{Location, Style, Table};
    /// let table = Table::document(|document| {
    ///     document.directive_definition("live", |live| {
    ///         live.locations([Location::Query, Location::InlineFragment]);
    ///     });
    /// });
    /// let text = b"directive @live on QUERY | INLINE_FRAGMENT";
    /// assert_eq!(table.print(&Style::one_line()).unwrap(), text);
    /// ```
    pub fn locations(&mut self, locations: impl IntoIterator<Item = Location>) {
        for location in locations {
            self.node(NodeKind::Location, location as u32, "", |_| ());
        }
    }

    /// A type in GraphQL's notation, without spaces. What is no such notation becomes the name of a type, which the
    /// check refuses with 7.
    ///
    /// ```
    /// # use dervisclo::{Style, Table, TableRefusal};
    /// let field = |ty| Table::document(|document| {
    ///     document.object_type("O", |o| o.field_definition("f", |f| f.ty(ty)));
    /// });
    /// let text = field("[[Int!]]!").print(&Style::one_line());
    /// assert_eq!(text.unwrap(), b"type O { f: [[Int!]]! }");
    /// assert_eq!(field("[Int").check(), Err(TableRefusal::Text { place: 3 }));
    /// ```
    pub fn ty(&mut self, notation: &str) {
        let first = self.table.words.len();
        let mut rest = notation;
        loop {
            let (inner, variant) = match rest.strip_suffix('!') {
                Some(inner) => (inner, 1),
                None => (rest, 0),
            };
            let item = inner
                .strip_prefix('[')
                .and_then(|item| item.strip_suffix(']'));
            let Some(item) = item else {
                self.open(NodeKind::NamedType, variant, inner.as_bytes());
                break;
            };
            self.open(NodeKind::ListType, variant, b"");
            rest = item;
        }
        let end = word(self.table.nodes());
        for node in self.table.words[first..].chunks_exact_mut(WORDS) {
            node[WORDS - 1] = end;
        }
    }

    /// A named type: `Int`.
    ///
    /// ```
    /// # use dervisclo::{Style, Table};
    /// let table = Table::document(|document| {
    ///     document.object_type("O", |o| o.field_definition("f", |f| f.named_type("Int")));
    /// });
    /// assert_eq!(table.print(&Style::one_line()).unwrap(), b"type O { f: Int }");
    /// ```
    pub fn named_type(&mut self, name: &str) {
        self.leaf(NodeKind::NamedType, name);
    }

    /// A named type that is not null: `Int!`.
    ///
    /// ```
    /// # use dervisclo::{Style, Table};
    /// let table = Table::document(|document| {
    ///     document.object_type("O", |o| o.field_definition("f", |f| f.non_null_type("Int")));
    /// });
    /// assert_eq!(table.print(&Style::one_line()).unwrap(), b"type O { f: Int! }");
    /// ```
    pub fn non_null_type(&mut self, name: &str) {
        self.node(NodeKind::NamedType, 1, name, |_| ());
    }

    /// A list of one type: `[Int]`.
    ///
    /// ```
    /// # use dervisclo::{Style, Table};
    /// let table = Table::document(|document| {
    ///     document.object_type("O", |o| {
    ///         o.field_definition("f", |f| f.list_type(|item| item.named_type("Int")));
    ///     });
    /// });
    /// assert_eq!(table.print(&Style::one_line()).unwrap(), b"type O { f: [Int] }");
    /// ```
    pub fn list_type(&mut self, item: impl FnOnce(&mut Self)) {
        self.node(NodeKind::ListType, 0, "", item);
    }

    /// A list of one type that is not null: `[Int]!`.
    ///
    /// ```
    /// # use dervisclo::{Style, Table};
    /// let table = Table::document(|document| {
    ///     document.object_type("O", |o| {
    ///         o.field_definition("f", |f| f.non_null_list_type(|item| item.non_null_type("Int")));
    ///     });
    /// });
    /// assert_eq!(table.print(&Style::one_line()).unwrap(), b"type O { f: [Int!]! }");
    /// ```
    pub fn non_null_list_type(&mut self, item: impl FnOnce(&mut Self)) {
        self.node(NodeKind::ListType, 1, "", item);
    }
}
