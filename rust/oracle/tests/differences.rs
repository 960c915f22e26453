//! The smallest inputs on which the crate's Display and document 01 differ. Document 01 decides.

use oracle::{crate_printer, display_document, print_document, Settings};

const QUERY_OF_A: [u32; 15] = [0, 0, 0, 0, 3, 1, 0, 0, 0, 3, 29, 0, 0, 1, 3];
const SCALAR_S: [u32; 10] = [0, 0, 0, 0, 2, 5, 0, 0, 1, 2];
const EMPTY: [u32; 5] = [0, 0, 0, 0, 1];

fn differs(words: &[u32], pool: &[u8], settings: Settings, document_01: &str, displayed: &str) {
    if crate_printer::PRESENT {
        assert_eq!(print_document(words, pool, &settings), document_01);
        assert_eq!(display_document(words, pool, &settings), displayed);
    }
}

#[test]
fn the_first_line_is_indented() {
    let level_1 = Settings::on("  ", 1);
    differs(&SCALAR_S, b"S", level_1, "scalar S\n", "  scalar S\n");
}

#[test]
fn the_indent_loses_the_shorthand() {
    differs(
        &QUERY_OF_A,
        b"a",
        Settings::on("  ", 1),
        "{\n    a\n  }\n",
        "  query {\n    a\n  }\n",
    );
}

#[test]
fn an_empty_prefix_loses_it_too() {
    let bare = Settings::on("", 1);
    differs(&QUERY_OF_A, b"a", bare, "{\na\n}\n", "query {\na\n}\n");
}

#[test]
fn an_empty_document_is_indented() {
    differs(&EMPTY, b"", Settings::on("  ", 1), "", "  ");
}

#[test]
fn a_string_value_is_indented() {
    if crate_printer::PRESENT {
        let level_1 = Settings::on("  ", 1);
        assert_eq!(crate_printer::print_literal("a", false, &level_1), "\"a\"");
        assert_eq!(crate_printer::display_string("a", &level_1), "  \"a\"");
    }
}
