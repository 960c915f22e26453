//! What stands in a document: operations, fragments, definitions and extensions.

use super::Builder;
use crate::{NodeKind, OperationType};

impl Builder {
    /// A query; an empty name for none. Variable definitions, directives, selections.
    ///
    /// ```
    /// # use dervisclo::{Style, Table};
    /// let table = Table::document(|document| {
    ///     document.query("", |query| query.fields(["a"]));
    ///     document.query("Q", |query| query.fields(["b"]));
    /// });
    /// assert_eq!(table.print(&Style::one_line()).unwrap(), b"{ a } query Q { b }");
    /// ```
    pub fn query(&mut self, name: &str, below: impl FnOnce(&mut Self)) {
        self.operation(OperationType::Query, name, below);
    }

    /// A mutation, as a query.
    ///
    /// ```
    /// # use dervisclo::{Style, Table};
    /// let table = Table::document(|document| {
    ///     document.mutation("Sell", |mutation| mutation.fields(["sell"]));
    /// });
    /// assert_eq!(table.print(&Style::one_line()).unwrap(), b"mutation Sell { sell }");
    /// ```
    pub fn mutation(&mut self, name: &str, below: impl FnOnce(&mut Self)) {
        self.operation(OperationType::Mutation, name, below);
    }

    /// A subscription, as a query.
    ///
    /// ```
    /// # use dervisclo::{Style, Table};
    /// let table = Table::document(|document| {
    ///     document.subscription("", |subscription| subscription.fields(["sold"]));
    /// });
    /// assert_eq!(table.print(&Style::one_line()).unwrap(), b"subscription { sold }");
    /// ```
    pub fn subscription(&mut self, name: &str, below: impl FnOnce(&mut Self)) {
        self.operation(OperationType::Subscription, name, below);
    }

    /// An operation of this type, as a query.
    ///
    /// ```
    /// # use dervisclo::{OperationType, Style, Table};
    /// let table = Table::document(|document| {
    ///     document.operation(OperationType::Mutation, "", |mutation| mutation.fields(["sell"]));
    /// });
    /// assert_eq!(table.print(&Style::one_line()).unwrap(), b"mutation { sell }");
    /// ```
    pub fn operation(&mut self, ty: OperationType, name: &str, below: impl FnOnce(&mut Self)) {
        self.node(NodeKind::Operation, ty as u32, name, below);
    }

    /// A fragment on a type. Directives, selections.
    ///
    /// ```
    /// # use dervisclo::{Style, Table};
    /// let table = Table::document(|document| {
    ///     document.fragment("Parts", "Order", |order| order.fields(["id"]));
    /// });
    /// assert_eq!(table.print(&Style::one_line()).unwrap(), b"fragment Parts on Order { id }");
    /// ```
    pub fn fragment(&mut self, name: &str, on: &str, below: impl FnOnce(&mut Self)) {
        self.node(NodeKind::Fragment, 0, name, |fragment| {
            fragment.leaf(NodeKind::NamedType, on);
            below(fragment);
        });
    }

    /// The definition of a directive that stands once in a place. A description, input values, locations.
    ///
    /// ```
    /// # use dervisclo::{Location, Style, Table};
    /// let table = Table::document(|document| {
    ///     document.directive_definition("cost", |cost| {
    ///         cost.input_value("weight", |weight| weight.ty("Int"));
    ///         cost.locations([Location::Object, Location::FieldDefinition]);
    ///     });
    /// });
    /// let text = b"directive @cost(weight: Int) on OBJECT | FIELD_DEFINITION";
    /// assert_eq!(table.print(&Style::one_line()).unwrap(), text);
    /// ```
    pub fn directive_definition(&mut self, name: &str, below: impl FnOnce(&mut Self)) {
        self.node(NodeKind::DirectiveDefinition, 0, name, below);
    }

    /// The definition of a directive that may be repeated in a place.
    ///
    /// ```
    /// # use dervisclo::{Location, Style, Table};
    /// let table = Table::document(|document| {
    ///     document.repeatable_directive_definition("tag", |tag| tag.locations([Location::Enum]));
    /// });
    /// assert_eq!(table.print(&Style::one_line()).unwrap(), b"directive @tag repeatable on ENUM");
    /// ```
    pub fn repeatable_directive_definition(&mut self, name: &str, below: impl FnOnce(&mut Self)) {
        self.node(NodeKind::DirectiveDefinition, 1, name, below);
    }

    /// A schema. A description, directives, root operations.
    ///
    /// ```
    /// # use dervisclo::{OperationType, Style, Table};
    /// let table = Table::document(|document| {
    ///     document.schema(|schema| schema.root_operation(OperationType::Query, "Root"));
    /// });
    /// assert_eq!(table.print(&Style::one_line()).unwrap(), b"schema { query: Root }");
    /// ```
    pub fn schema(&mut self, below: impl FnOnce(&mut Self)) {
        self.node(NodeKind::Schema, 0, "", below);
    }

    /// A scalar type. A description, directives.
    ///
    /// ```
    /// # use dervisclo::{Style, Table};
    /// let table = Table::document(|document| document.scalar_type("Date", |_| ()));
    /// assert_eq!(table.print(&Style::one_line()).unwrap(), b"scalar Date");
    /// ```
    pub fn scalar_type(&mut self, name: &str, below: impl FnOnce(&mut Self)) {
        self.node(NodeKind::Scalar, 0, name, below);
    }

    /// An object type. A description, interfaces, directives, field definitions.
    ///
    /// ```
    /// # use dervisclo::{Style, Table};
    /// let table = Table::document(|document| {
    ///     document.object_type("User", |user| {
    ///         user.interfaces(["Node", "Named"]);
    ///         user.field_definition("id", |id| id.ty("ID!"));
    ///     });
    /// });
    /// let text = b"type User implements Node & Named { id: ID! }";
    /// assert_eq!(table.print(&Style::one_line()).unwrap(), text);
    /// ```
    pub fn object_type(&mut self, name: &str, below: impl FnOnce(&mut Self)) {
        self.node(NodeKind::Object, 0, name, below);
    }

    /// An interface, as an object type.
    ///
    /// ```
    /// # use dervisclo::{Style, Table};
    /// let table = Table::document(|document| {
    ///     document.interface_type("Node", |node| node.field_definition("id", |id| id.ty("ID!")));
    /// });
    /// assert_eq!(table.print(&Style::one_line()).unwrap(), b"interface Node { id: ID! }");
    /// ```
    pub fn interface_type(&mut self, name: &str, below: impl FnOnce(&mut Self)) {
        self.node(NodeKind::Interface, 0, name, below);
    }

    /// A union. A description, directives, union members.
    ///
    /// ```
    /// # use dervisclo::{Style, Table};
    /// let table = Table::document(|document| {
    ///     document.union_type("Found", |found| found.union_members(["User", "Order"]));
    /// });
    /// assert_eq!(table.print(&Style::one_line()).unwrap(), b"union Found = User | Order");
    /// ```
    pub fn union_type(&mut self, name: &str, below: impl FnOnce(&mut Self)) {
        self.node(NodeKind::Union, 0, name, below);
    }

    /// An enum. A description, directives, enum value definitions.
    ///
    /// ```
    /// # use dervisclo::{Style, Table};
    /// let table = Table::document(|document| {
    ///     document.enum_type("Role", |role| role.enum_values(["ADMIN", "MEMBER"]));
    /// });
    /// assert_eq!(table.print(&Style::one_line()).unwrap(), b"enum Role { ADMIN MEMBER }");
    /// ```
    pub fn enum_type(&mut self, name: &str, below: impl FnOnce(&mut Self)) {
        self.node(NodeKind::Enum, 0, name, below);
    }

    /// An input object. A description, directives, input values.
    ///
    /// ```
    /// # use dervisclo::{Style, Table};
    /// let table = Table::document(|document| {
    ///     document.input_object_type("Filter", |filter| {
    ///         filter.input_value("first", |first| first.ty("Int"));
    ///     });
    /// });
    /// assert_eq!(table.print(&Style::one_line()).unwrap(), b"input Filter { first: Int }");
    /// ```
    pub fn input_object_type(&mut self, name: &str, below: impl FnOnce(&mut Self)) {
        self.node(NodeKind::InputObject, 0, name, below);
    }

    /// More of a schema. Directives, root operations; not nothing.
    ///
    /// ```
    /// # use dervisclo::{Style, Table};
    /// let table = Table::document(|document| {
    ///     document.extend_schema(|schema| schema.directive("link", |_| ()));
    /// });
    /// assert_eq!(table.print(&Style::one_line()).unwrap(), b"extend schema @link");
    /// ```
    pub fn extend_schema(&mut self, below: impl FnOnce(&mut Self)) {
        self.node(NodeKind::SchemaExtension, 0, "", below);
    }

    /// More of a scalar. Directives; not nothing.
    ///
    /// ```
    /// # use dervisclo::{Style, Table};
    /// let table = Table::document(|document| {
    ///     document.extend_scalar("Date", |date| date.directive("iso", |_| ()));
    /// });
    /// assert_eq!(table.print(&Style::one_line()).unwrap(), b"extend scalar Date @iso");
    /// ```
    pub fn extend_scalar(&mut self, name: &str, below: impl FnOnce(&mut Self)) {
        self.node(NodeKind::ScalarExtension, 0, name, below);
    }

    /// More of an object type. Interfaces, directives, field definitions; not nothing.
    ///
    /// ```
    /// # use dervisclo::{Style, Table};
    /// let table = Table::document(|document| {
    ///     document.extend_object("User", |user| user.field_definition("age", |age| age.ty("Int")));
    /// });
    /// assert_eq!(table.print(&Style::one_line()).unwrap(), b"extend type User { age: Int }");
    /// ```
    pub fn extend_object(&mut self, name: &str, below: impl FnOnce(&mut Self)) {
        self.node(NodeKind::ObjectExtension, 0, name, below);
    }

    /// More of an interface, as of an object type.
    ///
    /// ```
    /// # use dervisclo::{Style, Table};
    /// let table = Table::document(|document| {
    ///     document.extend_interface("Named", |named| named.interfaces(["Node"]));
    /// });
    /// let text = b"extend interface Named implements Node";
    /// assert_eq!(table.print(&Style::one_line()).unwrap(), text);
    /// ```
    pub fn extend_interface(&mut self, name: &str, below: impl FnOnce(&mut Self)) {
        self.node(NodeKind::InterfaceExtension, 0, name, below);
    }

    /// More of a union. Directives, union members; not nothing.
    ///
    /// ```
    /// # use dervisclo::{Style, Table};
    /// let table = Table::document(|document| {
    ///     document.extend_union("Found", |found| found.union_members(["Shop"]));
    /// });
    /// assert_eq!(table.print(&Style::one_line()).unwrap(), b"extend union Found = Shop");
    /// ```
    pub fn extend_union(&mut self, name: &str, below: impl FnOnce(&mut Self)) {
        self.node(NodeKind::UnionExtension, 0, name, below);
    }

    /// More of an enum. Directives, enum value definitions; not nothing.
    ///
    /// ```
    /// # use dervisclo::{Style, Table};
    /// let table = Table::document(|document| {
    ///     document.extend_enum("Role", |role| role.enum_values(["GUEST"]));
    /// });
    /// assert_eq!(table.print(&Style::one_line()).unwrap(), b"extend enum Role { GUEST }");
    /// ```
    pub fn extend_enum(&mut self, name: &str, below: impl FnOnce(&mut Self)) {
        self.node(NodeKind::EnumExtension, 0, name, below);
    }

    /// More of an input object. Directives, input values; not nothing.
    ///
    /// ```
    /// # use dervisclo::{Style, Table};
    /// let table = Table::document(|document| {
    ///     document.extend_input_object("Filter", |filter| {
    ///         filter.input_value("after", |after| after.ty("ID"));
    ///     });
    /// });
    /// assert_eq!(table.print(&Style::one_line()).unwrap(), b"extend input Filter { after: ID }");
    /// ```
    pub fn extend_input_object(&mut self, name: &str, below: impl FnOnce(&mut Self)) {
        self.node(NodeKind::InputObjectExtension, 0, name, below);
    }
}
