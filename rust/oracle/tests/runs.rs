//! The program's runs at a small size, and the rows that document 01 calls tempting and wrong.

use oracle::run::{compare, known, literals};
use oracle::{crate_printer, plain_print, Settings};

fn literal(value: &str, is_description: bool, settings: &Settings) -> String {
    let plain = plain_print::print_literal(value.as_bytes(), is_description, settings);
    let plain = String::from_utf8(plain).unwrap();
    if crate_printer::PRESENT {
        let by_crate = crate_printer::print_literal(value, is_description, settings);
        assert_eq!(by_crate, plain);
    }
    plain
}

#[test]
fn runs_have_no_failure() {
    assert_eq!(known::run().failed, 0);
    assert_eq!(compare::run(2, 300).failed, 0);
    assert_eq!(literals::run(2, 500).failed, 0);
}

#[test]
fn tempting_and_wrong() {
    let default = Settings::default();
    let wide = "é".repeat(36);
    assert_eq!(
        literal(&wide, true, &default),
        format!("\"\"\"\n{wide}\n\"\"\"")
    );
    assert_eq!(literal("  a\n  b", true, &default), r#""  a\n  b""#);
    assert_eq!(literal("  a", true, &default), "\"  a\"");
    assert_eq!(literal("a\tb", false, &default), "\"a\tb\"");
    let level_1 = Settings::on("  ", 1);
    assert_eq!(
        literal("a\n\n \nb", true, &level_1),
        "\"\"\"\n  a\n\n   \n  b\n  \"\"\""
    );
}

#[test]
fn traps_where_both_agree() {
    let default = Settings::default();
    assert_eq!(literal("\u{1}", true, &default), "\"\"\"\u{1}\"\"\"");
    assert_eq!(literal("a  ", true, &default), "\"\"\"a  \"\"\"");
    assert_eq!(
        literal("\"\"\"\"\"\"\"", false, &default),
        r#""\"\"\"\"\"\"\"""#
    );
    assert_eq!(
        literal("a\n\"\"\"\"\"\"\"b", false, &default),
        "\"\"\"\na\n\\\"\"\"\\\"\"\"\"b\n\"\"\""
    );
}
