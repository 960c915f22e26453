//! `print-literal` and `read-literal`.

use crate::common::{file, run, run_on, writes};
use std::ffi::OsStr;
use std::fs;

const BLOCK: &str = "\"\"\"\n  a\n  b\n  \"\"\"";

#[test]
fn printed_from_an_argument_or_from_standard_input() {
    for (value, flags, text) in [
        ("abc", &[][..], r#""abc""#),
        ("abc", &["--description"], r#""""abc""""#),
        ("abc", &["--description", "--breaks=off"], r#""abc""#),
        ("a\nb", &["--level", "1"], BLOCK),
        (
            "a\nb",
            &["--level=1", "--prefix=\\t"],
            "\"\"\"\n\ta\n\tb\n\t\"\"\"",
        ),
        ("a\nb", &["--breaks", "off"], r#""a\nb""#),
        ("abc\n", &["--description"], r#""abc\n""#),
        ("  abc", &["--description"], r#""  abc""#),
        ("é", &[], "\"é\""),
        ("", &["--level=128"], r#""""#),
    ] {
        let words = [&["print-literal"][..], flags, &[value]].concat();
        writes(&words, b"", text);
        let words = [&["print-literal"][..], flags].concat();
        writes(&words, value.as_bytes(), text);
        let words = [&["print-literal", "-"][..], flags].concat();
        writes(&words, value.as_bytes(), text);
    }
}

#[test]
fn a_value_may_look_like_a_flag() {
    let words = ["print-literal", "--", "--description"];
    writes(&words, b"", r#""--description""#);
}

#[test]
fn the_longest_value_is_printed() {
    let value = "x".repeat(65_536);
    let words = ["print-literal"];
    writes(&words, value.as_bytes(), &format!("\"{value}\""));
}

fn reads(text: &str, value: &str, form: &str) {
    for read in [
        run(&["read-literal", text]),
        run_on(&["read-literal"], text.as_bytes()),
        run_on(&["read-literal", "-"], text.as_bytes()),
    ] {
        assert_eq!(read.status, Some(0));
        assert_eq!(read.text(), value);
        assert_eq!(read.errors, format!("form: {form}\n"));
    }
}

#[test]
fn read_from_an_argument_or_from_standard_input() {
    reads(r#""abc""#, "abc", "quoted");
    reads(r#""\u0061\n""#, "a\n", "quoted");
    reads(r#""""#, "", "quoted");
    reads(r#""""abc""""#, "abc", "block");
    reads("\"\"\"\"\"\"", "", "block");
    reads(BLOCK, "a\nb", "block");
}

#[test]
fn what_is_printed_reads_back() {
    for value in ["abc", "say \"hi\"", "a\n\n  b\\", "\u{1}\t\r", "\"\"\"x\ny"] {
        for flags in [
            &[][..],
            &["--description"],
            &["--breaks=off", "--description"],
        ] {
            let words = [&["print-literal", value][..], flags].concat();
            let printed = run(&words);
            let read = run_on(&["read-literal"], &printed.output);
            assert_eq!(read.text(), value);
        }
    }
}

#[test]
fn output_goes_to_a_file() {
    let out = file("literal.txt", b"");
    writes(&["print-literal", "abc", "--output", &out], b"", "");
    assert_eq!(fs::read(&out).unwrap(), br#""abc""#);
    let out = file("value.txt", b"");
    let read = run(&["read-literal", r#""abc""#, "--output", &out]);
    assert_eq!((read.status, read.text()), (Some(0), ""));
    assert_eq!(read.errors, "form: quoted\n");
    assert_eq!(fs::read(&out).unwrap(), b"abc");
    let refused = run(&["read-literal", "abc", "--output", &out]);
    assert_eq!(refused.status, Some(9));
    assert_eq!(fs::read(&out).unwrap(), b"abc");
}

#[test]
fn an_empty_argument_is_a_value() {
    let words = [OsStr::new("print-literal"), OsStr::new("")];
    writes(&words, b"not this", r#""""#);
}
