//! A shop's registry: its schema, in parts as its services have them, and requests that clients have registered.

mod inputs;
mod requests;
mod roots;
mod services;
mod types;

use dervisclo::Table;
use dervisclo::builder::Builder;

/// The whole of it.
pub fn registry() -> Table {
    Table::document(|document| {
        roots::roots(document);
        types::types(document);
        inputs::inputs(document);
        services::services(document);
        requests::requests(document);
    })
}

/// A field with a type and nothing more.
fn plain(node: &mut Builder, name: &str, ty: &str) {
    node.field_definition(name, |field| field.ty(ty));
}

/// A field with a description.
fn told(node: &mut Builder, name: &str, about: &str, ty: &str) {
    node.field_definition(name, |field| {
        field.description(about);
        field.ty(ty);
    });
}

/// An argument or input field with a type and nothing more.
fn input(node: &mut Builder, name: &str, ty: &str) {
    node.input_value(name, |input| input.ty(ty));
}

/// `@deprecated(reason: ..)`
fn deprecated(node: &mut Builder, reason: &str) {
    node.directive("deprecated", |directive| {
        directive.argument("reason", |value| value.string(reason));
    });
}

/// `@key(fields: ..)`
fn key(node: &mut Builder, fields: &str) {
    node.directive("key", |directive| {
        directive.argument("fields", |value| value.string(fields));
    });
}
