//! Prints a query and a small schema from tables made by hand, each with line breaks and without:
//!
//!     cargo run --offline -p dervisclo --example one_document

use dervisclo::{DocumentRefusal, Style, print_document_to_vec};
use std::process::ExitCode;

/// Kind, variant, text start, text length, and the number of the first node after the subtree.
type Node = [u32; 5];

/// The query of a.
const QUERY: [Node; 3] = [
    [0, 0, 0, 0, 3],  // Document
    [1, 0, 0, 0, 3],  // Operation: a query with no name
    [29, 0, 0, 1, 3], // Field `a`
];
const QUERY_POOL: &[u8] = b"a";

/// A type with a description and two fields, one with an argument, and an enum.
const SCHEMA: [Node; 16] = [
    [0, 0, 0, 0, 16],    // Document
    [6, 0, 0, 4, 12],    // Object `User`
    [18, 0, 4, 13, 3],   // Description
    [23, 0, 17, 2, 5],   // FieldDefinition `id`
    [33, 1, 19, 2, 5],   // NamedType `ID!`
    [23, 0, 21, 5, 12],  // FieldDefinition `roles`
    [22, 0, 26, 5, 9],   // InputValueDefinition `first`
    [33, 0, 31, 3, 8],   // NamedType `Int`
    [41, 0, 34, 2, 9],   // Int `10`
    [34, 1, 0, 0, 11],   // ListType `[..]!`
    [33, 1, 36, 4, 11],  // NamedType `Role!`
    [19, 0, 40, 10, 12], // Directive `@deprecated`
    [9, 0, 36, 4, 16],   // Enum `Role`
    [24, 0, 50, 5, 14],  // EnumValueDefinition `ADMIN`
    [24, 0, 55, 6, 16],  // EnumValueDefinition `MEMBER`
    [18, 0, 61, 21, 16], // Description
];
const SCHEMA_POOL: &[u8] =
    b"UserWho signs in.idIDrolesfirstInt10RoledeprecatedADMINMEMBEREveryone,\nby default.";

fn main() -> ExitCode {
    let printed = show(&QUERY, QUERY_POOL).and_then(|()| show(&SCHEMA, SCHEMA_POOL));
    match printed {
        Ok(()) => ExitCode::SUCCESS,
        Err(refusal) => {
            eprintln!("refused with {refusal}");
            ExitCode::FAILURE
        }
    }
}

fn show(nodes: &[Node], pool: &[u8]) -> Result<(), DocumentRefusal> {
    for breaks in [true, false] {
        let style = Style {
            breaks,
            ..Style::default()
        };
        let text = print_document_to_vec(nodes.as_flattened(), pool, &style)?;
        println!("{} bytes:", text.len());
        println!("{}", String::from_utf8_lossy(&text).trim_end());
    }
    Ok(())
}
