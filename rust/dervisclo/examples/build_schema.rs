//! Builds a small schema and prints it, then one with a mistake, whose refusal names the node:
//!
//!     cargo run --offline -p dervisclo --example build_schema

use dervisclo::builder::Builder;
use dervisclo::{DocumentRefusal, OperationType, Style, Table};
use std::io::Write;
use std::process::ExitCode;

fn main() -> ExitCode {
    let schema = Table::document(|document| {
        document.schema(|schema| schema.root_operation(OperationType::Query, "Query"));
        document.object_type("Query", |query| {
            query.field_definition("user", |user| {
                user.input_value("id", |id| id.ty("ID!"));
                user.ty("User");
            });
        });
        document.object_type("User", user);
    });
    let mistake = Table::document(|document| document.scalar_type("2D", |_| ()));
    match show(&schema).and_then(|()| show(&mistake)) {
        Err(refusal) if refusal.place() == 1 => {
            println!("and `scalar 2D` is refused with {refusal}");
            ExitCode::SUCCESS
        }
        answer => {
            eprintln!("{answer:?}");
            ExitCode::FAILURE
        }
    }
}

fn user(user: &mut Builder) {
    user.description("Who signs in.\n\nA \"guest\" has no name.");
    user.field_definition("id", |id| id.ty("ID!"));
    user.field_definition("name", |name| name.ty("String"));
    user.field_definition("roles", |roles| {
        roles.input_value("first", |first| {
            first.ty("Int");
            first.int(10);
        });
        roles.ty("[String!]!");
        roles.directive("deprecated", |deprecated| {
            deprecated.argument("reason", |reason| reason.string("Use `groups`."));
        });
    });
}

fn show(table: &Table) -> Result<(), DocumentRefusal> {
    let text = table.print(&Style::default())?;
    println!("{} nodes, {} bytes:", table.nodes(), text.len());
    let _ = std::io::stdout().write_all(&text);
    Ok(())
}
