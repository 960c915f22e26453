//! The plain reader on literals whose value, or refusal, the Spec fixes.

use oracle::plain_read::{read_literal, Form, NotOneLiteral};

fn quoted(source: &str, value: &str) {
    assert_eq!(
        read_literal(source.as_bytes()),
        Ok((Form::Quoted, value.as_bytes().to_vec())),
        "{source:?}"
    );
}

fn block(source: &str, value: &str) {
    assert_eq!(
        read_literal(source.as_bytes()),
        Ok((Form::Block, value.as_bytes().to_vec())),
        "{source:?}"
    );
}

fn refused(source: impl AsRef<[u8]>) {
    let source = source.as_ref();
    assert_eq!(read_literal(source), Err(NotOneLiteral), "{source:?}");
}

#[test]
fn quoted_values() {
    quoted(r#""""#, "");
    quoted(r#""abc""#, "abc");
    quoted(r#""\"\\\/\b\f\n\r\t""#, "\"\\/\u{8}\u{c}\n\r\t");
    quoted(r#""\u0041\u00e9\u00E9\uFFFF""#, "Aéé\u{ffff}");
    quoted("\"\t\0\u{1}é😀\"", "\t\0\u{1}é😀");
}

#[test]
fn quoted_refusals() {
    for source in [
        "",
        "a",
        "\"",
        "\"a",
        "a\"",
        "\"a\"\"",
        " \"a\"",
        "\"a\" ",
        "\"a\nb\"",
        "\"a\rb\"",
        r#""\""#,
        r#""\x""#,
        r#""\u""#,
        r#""\u12""#,
        r#""\u12g4""#,
        r#""\uD800""#,
        r#""\uDFFF""#,
        r#""\uD83D\uDE00""#,
        r#""\u{41}""#,
        "\u{feff}\"a\"",
    ] {
        refused(source);
    }
    refused(b"\"\xff\"");
    refused(b"\"\xc0\x80\"");
    refused(b"\"\xed\xa0\x80\"");
}

#[test]
fn block_values() {
    block(r#""""""""#, "");
    block(r#""""abc""""#, "abc");
    block("\"\"\"  abc\"\"\"", "  abc");
    block("\"\"\"\n  a\n    b\n  \"\"\"", "a\n  b");
    block("\"\"\"a\n  b\r\n\r  c\"\"\"", "a\nb\n\nc");
    block("\"\"\" \n\t\n a\n\n \n\"\"\"", "a");
    block("\"\"\"\n  a\n     \n  b\"\"\"", "a\n   \nb");
    block("\"\"\"\n  a\n \n  b\"\"\"", "a\n\nb");
    block(r#""""\"""""""#, "\"\"\"");
    block(r#""""\n\u0041\\ ""a""""#, r#"\n\u0041\\ ""a"#);
    block("\"\"\"\n\\\"\"\"\n\"\"\"", "\"\"\"");
}

#[test]
fn block_refusals() {
    for quotes in [3, 4, 5, 7, 8, 9, 12] {
        refused("\"".repeat(quotes));
    }
    refused(r#""""abc"""""#);
    refused(r#""""abc\""""#);
    refused(r#""""abc""" "#);
    refused(b"\"\"\"\xff\"\"\"");
}
