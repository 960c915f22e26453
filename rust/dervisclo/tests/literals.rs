//! The safe functions: what they answer, and what they leave in the output.

use dervisclo::{
    Form, Kind, Refusal, Style, print_literal, print_literal_to_vec, read_literal,
    read_literal_to_vec,
};

const LONGEST: usize = 65_536;

fn level(level: u64) -> Style<'static> {
    Style {
        level,
        ..Style::default()
    }
}

fn prefix(prefix: &[u8]) -> Style<'_> {
    Style {
        prefix,
        ..Style::default()
    }
}

fn no_breaks() -> Style<'static> {
    Style {
        breaks: false,
        ..Style::default()
    }
}

/// Printed with this text, in this form, and read back.
fn prints(value: &str, kind: Kind, style: Style<'_>, text: &str, form: Form) {
    let printed = print_literal_to_vec(value.as_bytes(), kind, &style).unwrap();
    assert_eq!(String::from_utf8_lossy(&printed), text);
    let read = read_literal_to_vec(&printed);
    assert_eq!(read, Ok((form, value.as_bytes().to_vec())));
}

#[test]
fn forms() {
    let default = Style::default();
    prints("", Kind::Description, default, r#""""#, Form::Quoted);
    prints("abc", Kind::String, default, r#""abc""#, Form::Quoted);
    prints(
        "abc",
        Kind::Description,
        default,
        r#""""abc""""#,
        Form::Block,
    );
    prints(
        "abc",
        Kind::Description,
        no_breaks(),
        r#""abc""#,
        Form::Quoted,
    );
    prints(
        "a\n\nb",
        Kind::String,
        level(1),
        "\"\"\"\n  a\n\n  b\n  \"\"\"",
        Form::Block,
    );
    let tab = Style {
        level: 2,
        ..prefix(b"\t")
    };
    prints(
        "a\nb",
        Kind::Description,
        tab,
        "\"\"\"\n\t\ta\n\t\tb\n\t\t\"\"\"",
        Form::Block,
    );
    prints("a\nb", Kind::String, no_breaks(), r#""a\nb""#, Form::Quoted);
}

#[test]
fn default_style() {
    let style = Style {
        breaks: true,
        prefix: b"  ",
        level: 0,
    };
    assert_eq!(Style::default(), style);
}

#[test]
fn printing_refuses() {
    let long = vec![b'a'; LONGEST + 1];
    let rows: [(&[u8], Style<'_>, Refusal); 10] = [
        (b"a", prefix(&[b' '; 17]), Refusal::Settings),
        (b"a", prefix(b" x"), Refusal::Settings),
        (b"a", prefix(b"\n"), Refusal::Settings),
        (b"a", level(129), Refusal::Settings),
        (b"a", level(u64::MAX), Refusal::Settings),
        (&long, level(129), Refusal::Settings),
        (&long, Style::default(), Refusal::Size),
        (b"\xff", level(129), Refusal::Settings),
        (b"\xff", Style::default(), Refusal::Text),
        (b"a", level(128), Refusal::Room { needed: 3 }),
    ];
    for (value, style, refusal) in rows {
        let mut out = *b"..";
        let answer = print_literal(value, Kind::String, &style, &mut out);
        assert_eq!(answer, Err(refusal), "{style:?}");
        assert_eq!(&out, b"..");
        if !matches!(refusal, Refusal::Room { .. }) {
            let answer = print_literal_to_vec(value, Kind::String, &style);
            assert_eq!(answer, Err(refusal));
        }
    }
}

#[test]
fn limits_are_kept_within() {
    let style = Style {
        breaks: true,
        prefix: &[b'\t'; 16],
        level: 128,
    };
    let value = [&b"a\n"[..], &vec![b'b'; LONGEST - 2]].concat();
    let text = print_literal_to_vec(&value, Kind::String, &style).unwrap();
    assert_eq!(text.len(), 6 + 3 + 3 * 16 * 128 + LONGEST - 1);
    assert_eq!(read_literal_to_vec(&text), Ok((Form::Block, value)));
}

#[test]
fn reading_refuses() {
    for text in [
        &b""[..],
        b"abc",
        b"\"abc",
        b"\"a\" ",
        b"\"\xff\"",
        b"\"\"\"\"\"",
    ] {
        let mut out = *b"....";
        assert_eq!(read_literal(text, &mut out), Err(Refusal::Literal));
        assert_eq!(&out, b"....");
        assert_eq!(read_literal_to_vec(text), Err(Refusal::Literal));
    }
    let mut out = *b"..";
    let answer = read_literal(b"\"abc\"", &mut out);
    assert_eq!(answer, Err(Refusal::Room { needed: 3 }));
    assert_eq!(&out, b"..");
}

#[test]
fn bytes_past_the_length_stay() {
    let mut out = *b"........";
    let answer = print_literal(b"ab", Kind::String, &Style::default(), &mut out);
    assert_eq!(answer, Ok(4));
    assert_eq!(&out, b"\"ab\"....");
    let mut out = *b"........";
    let answer = read_literal(b"\"a\\u0062\"", &mut out);
    assert_eq!(answer, Ok((Form::Quoted, 2)));
    assert_eq!(&out, b"ab......");
}

#[test]
fn empty_value_needs_no_room() {
    assert_eq!(read_literal(b"\"\"", &mut []), Ok((Form::Quoted, 0)));
    assert_eq!(read_literal_to_vec(&[b'"'; 6]), Ok((Form::Block, vec![])));
}

#[test]
fn refusals_have_numbers_and_words() {
    let rows = [
        (Refusal::Settings, 1, "1 (settings) at place 0: prefix"),
        (Refusal::Size, 2, "2 (size) at place 0: words"),
        (Refusal::Text, 7, "7 (text) at place 0: name"),
        (
            Refusal::Room { needed: 17 },
            8,
            "8 (room) at place 0: output",
        ),
        (Refusal::Literal, 9, "9 (literal) at place 0: the input"),
    ];
    for (refusal, number, words) in rows {
        assert_eq!((refusal.number(), refusal.place()), (number, 0));
        let error: &dyn std::error::Error = &refusal;
        assert!(error.to_string().starts_with(words), "{error}");
    }
    assert!(Refusal::Room { needed: 17 }.to_string().contains("17"));
}
