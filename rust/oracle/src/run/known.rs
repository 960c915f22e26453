//! Document 01's known outputs.

use super::Tally;
use crate::crate_printer;
use crate::generate::OwnTable;
use crate::plain_check;
use crate::plain_print;
use crate::plain_read::{read_literal, Form, NotOneLiteral};
use crate::settings::Settings;
use crate::table::kind;

pub struct KnownLiteral {
    pub is_description: bool,
    pub value: String,
    pub settings: Settings,
    pub text: String,
    pub bytes: usize,
}

pub struct KnownDocument {
    pub table: OwnTable,
    pub settings: Settings,
    pub text: String,
    pub bytes: usize,
}

fn description(value: &str, text: &str, bytes: usize) -> KnownLiteral {
    KnownLiteral {
        is_description: true,
        value: value.into(),
        settings: Settings::default(),
        text: text.into(),
        bytes,
    }
}

fn string(value: &str, settings: Settings, text: &str, bytes: usize) -> KnownLiteral {
    KnownLiteral {
        is_description: false,
        settings,
        ..description(value, text, bytes)
    }
}

/// The rows on literals, in the document's order.
pub fn literals() -> Vec<KnownLiteral> {
    let default = Settings::default;
    let level_1 = || Settings::on("  ", 1);
    let (seventy, more) = ("x".repeat(70), "x".repeat(71));
    vec![
        description("", r#""""#, 2),
        description("abc", r#""""abc""""#, 9),
        string("abc", default(), r#""abc""#, 5),
        string("a\nb", level_1(), "\"\"\"\n  a\n  b\n  \"\"\"", 17),
        string("a\nb", Settings::off(), r#""a\nb""#, 6),
        string("a\n\nb", level_1(), "\"\"\"\n  a\n\n  b\n  \"\"\"", 18),
        description("  abc", r#""  abc""#, 7),
        string("\u{1}", default(), r#""\u0001""#, 8),
        description("say \"hi\"", "\"\"\"\nsay \"hi\"\n\"\"\"", 16),
        description("\"\"\"x", r#""""\"""x""""#, 11),
        description("a\r", r#""a\r""#, 5),
        description(&seventy, &format!("\"\"\"{seventy}\"\"\""), 76),
        description(&more, &format!("\"\"\"\n{more}\n\"\"\""), 79),
    ]
}

/// The rows on documents, in the document's order.
pub fn documents() -> Vec<KnownDocument> {
    let query_of_a = || OwnTable {
        words: vec![0, 0, 0, 0, 3, 1, 0, 0, 0, 3, 29, 0, 0, 1, 3],
        pool: b"a".to_vec(),
    };
    let two_queries = OwnTable {
        words: [
            [kind::DOCUMENT, 0, 0, 0, 5],
            [kind::OPERATION, 0, 0, 0, 3],
            [kind::FIELD, 0, 0, 1, 3],
            [kind::OPERATION, 0, 0, 0, 5],
            [kind::FIELD, 0, 1, 1, 5],
        ]
        .concat(),
        pool: b"ab".to_vec(),
    };
    // Pool `IaInt12`
    let input = OwnTable {
        words: [
            [kind::DOCUMENT, 0, 0, 0, 8],
            [kind::INPUT_OBJECT, 0, 0, 1, 8],
            [kind::INPUT_VALUE_DEFINITION, 0, 1, 1, 8],
            [kind::LIST_TYPE, 0, 0, 0, 5],
            [kind::NAMED_TYPE, 0, 2, 3, 5],
            [kind::LIST, 0, 0, 0, 8],
            [kind::INT, 0, 5, 1, 7],
            [kind::INT, 0, 6, 1, 8],
        ]
        .concat(),
        pool: b"IaInt12".to_vec(),
    };
    let known = |table, settings, text: &str, bytes| KnownDocument {
        table,
        settings,
        text: text.into(),
        bytes,
    };
    vec![
        known(query_of_a(), Settings::default(), "{\n  a\n}\n", 8),
        known(query_of_a(), Settings::on("  ", 1), "{\n    a\n  }\n", 12),
        known(two_queries, Settings::off(), "{ a } query { b }", 17),
        known(
            input,
            Settings::default(),
            "input I {\n  a: [Int] = [\n    1,\n    2,\n  ]\n}\n",
            45,
        ),
    ]
}

pub fn run() -> Tally {
    let mut tally = Tally::default();
    let literals = literals();
    for row in &literals {
        check_literal(&mut tally, row);
    }
    let documents = documents();
    for row in &documents {
        check_document(&mut tally, row);
    }
    check_reading(&mut tally);
    println!(
        "known: {} literals, {} documents, 3 readings: {tally}",
        literals.len(),
        documents.len()
    );
    tally
}

fn check_literal(tally: &mut Tally, row: &KnownLiteral) {
    let case = || format!("{:?} under {:?}", row.value, row.settings);
    tally.check(row.text.len() == row.bytes, || {
        format!("byte count of {}", case())
    });
    let plain = plain_print::print_literal(row.value.as_bytes(), row.is_description, &row.settings);
    tally.same("plain printer", &plain, row.text.as_bytes(), case);
    let read = read_literal(row.text.as_bytes()).map(|(_, value)| value);
    tally.check(read.as_deref() == Ok(row.value.as_bytes()), || {
        format!("reading back {}", case())
    });
    if crate_printer::PRESENT {
        let by_crate = crate_printer::print_literal(&row.value, row.is_description, &row.settings);
        tally.same("crate", by_crate.as_bytes(), row.text.as_bytes(), case);
    }
}

fn check_document(tally: &mut Tally, row: &KnownDocument) {
    let OwnTable { words, pool } = &row.table;
    let case = || format!("{:?} under {:?}", row.table, row.settings);
    tally.check(row.text.len() == row.bytes, || {
        format!("byte count of {}", case())
    });
    tally.check(plain_check::is_valid(words, pool).is_ok(), || {
        format!("plain check of {}", case())
    });
    let plain = plain_print::print_document(words, pool, &row.settings);
    tally.same("plain printer", &plain, row.text.as_bytes(), case);
    if crate_printer::PRESENT {
        let by_crate = crate_printer::print_document(words, pool, &row.settings);
        tally.same("crate", by_crate.as_bytes(), row.text.as_bytes(), case);
    }
}

/// Six quotes are the empty value; five and seven are refused.
fn check_reading(tally: &mut Tally) {
    let rows = [
        (6, Ok((Form::Block, Vec::new()))),
        (5, Err(NotOneLiteral)),
        (7, Err(NotOneLiteral)),
    ];
    for (quotes, wanted) in rows {
        let read = read_literal(&vec![b'"'; quotes]);
        tally.check(read == wanted, || format!("{quotes} quotes read: {read:?}"));
    }
}
