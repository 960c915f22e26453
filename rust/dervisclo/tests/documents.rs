//! The printing of a document: document 01's known outputs, the room, and what a refusal leaves.

use dervisclo::{DocumentRefusal, Style, TableRefusal, print_document, print_document_to_vec};

/// The query of a.
const QUERY: [u32; 15] = [0, 0, 0, 0, 3, 1, 0, 0, 0, 3, 29, 0, 0, 1, 3];

fn level(level: u64) -> Style<'static> {
    Style {
        level,
        ..Style::default()
    }
}

fn no_breaks() -> Style<'static> {
    Style {
        breaks: false,
        ..Style::default()
    }
}

/// Prints this text into every output of up to two bytes more, and nothing into a shorter one.
fn prints(nodes: &[[u32; 5]], pool: &[u8], style: Style<'_>, text: &str) {
    let words = nodes.as_flattened();
    let needed = text.len();
    assert_eq!(
        print_document_to_vec(words, pool, &style),
        Ok(text.as_bytes().to_vec())
    );
    for room in 0..needed + 3 {
        let mut out = vec![b'.'; room];
        let answer = print_document(words, pool, &style, &mut out);
        if room < needed {
            assert_eq!(answer, Err(DocumentRefusal::Room { needed }));
            assert_eq!(out, vec![b'.'; room]);
        } else {
            assert_eq!(answer, Ok(needed));
            assert_eq!(&out[..needed], text.as_bytes());
            assert_eq!(out[needed..], vec![b'.'; room - needed]);
        }
    }
}

#[test]
fn known_outputs() {
    let query = [[0, 0, 0, 0, 3], [1, 0, 0, 0, 3], [29, 0, 0, 1, 3]];
    assert_eq!(query.as_flattened(), QUERY);
    prints(&query, b"a", Style::default(), "{\n  a\n}\n");
    prints(&query, b"a", level(1), "{\n    a\n  }\n");
    let two = [
        [0, 0, 0, 0, 5],
        [1, 0, 0, 0, 3],
        [29, 0, 0, 1, 3],
        [1, 0, 0, 0, 5],
        [29, 0, 1, 1, 5],
    ];
    prints(&two, b"ab", no_breaks(), "{ a } query { b }");
    let input = [
        [0, 0, 0, 0, 8],
        [10, 0, 0, 1, 8],
        [22, 0, 1, 1, 8],
        [34, 0, 0, 0, 5],
        [33, 0, 2, 3, 5],
        [42, 0, 0, 0, 8],
        [41, 0, 5, 1, 7],
        [41, 0, 6, 1, 8],
    ];
    let text = "input I {\n  a: [Int] = [\n    1,\n    2,\n  ]\n}\n";
    prints(&input, b"IaInt12", Style::default(), text);
    let text = "input I { a: [Int] = [1, 2] }";
    prints(&input, b"IaInt12", no_breaks(), text);
}

#[test]
fn an_empty_document_has_no_text() {
    prints(&[[0, 0, 0, 0, 1]], b"", Style::default(), "");
    prints(&[[0, 0, 0, 0, 1]], b"", level(64), "");
    prints(&[[0, 0, 0, 0, 1]], b"", no_breaks(), "");
}

/// A scalar with a description, at level 2 with a tab.
#[test]
fn the_first_line_is_not_indented() {
    let scalar = [[0, 0, 0, 0, 3], [5, 0, 0, 1, 3], [18, 0, 0, 3, 3]];
    let tab = Style {
        prefix: b"\t",
        ..level(2)
    };
    let text = "\"\"\"\n\t\tS\n\t\tx\n\t\t\"\"\"\n\t\tscalar S\n";
    prints(&scalar, b"S\nx", tab, text);
    prints(&scalar, b"S\nx", no_breaks(), "\"S\\nx\" scalar S");
}

#[test]
fn refused() {
    use TableRefusal::*;
    let style = Style::default();
    let sixteen_and_one = Style {
        prefix: &[b' '; 17],
        ..style
    };
    let letter = Style {
        prefix: b" x",
        ..style
    };
    let mut one_word_more = QUERY.to_vec();
    one_word_more.push(0);
    let mut unknown = QUERY;
    unknown[10] = 45;
    let mut alias = QUERY;
    alias[10] = 30;
    let rows: [(&[u32], &[u8], Style<'_>, TableRefusal); 9] = [
        (&QUERY, b"a", level(65), Settings),
        (&QUERY, b"a", sixteen_and_one, Settings),
        (&QUERY, b"-", letter, Settings),
        (&[], b"", level(u64::MAX), Settings),
        (&one_word_more, b"a", style, Size),
        (&unknown, b"a", style, Node { place: 2 }),
        (&alias, b"a", style, Children { place: 1 }),
        (&QUERY, b"-", level(64), Text { place: 2 }),
        (&QUERY, b"", no_breaks(), Node { place: 2 }),
    ];
    for (words, pool, style, refusal) in rows {
        let refusal = DocumentRefusal::Table(refusal);
        let mut out = *b"................";
        assert_eq!(
            print_document(words, pool, &style, &mut out),
            Err(refusal),
            "{style:?}"
        );
        assert_eq!(&out, b"................");
        assert_eq!(
            print_document(words, pool, &style, &mut []),
            Err(refusal),
            "{style:?}"
        );
        assert_eq!(print_document_to_vec(words, pool, &style), Err(refusal));
    }
}

#[test]
fn a_switch_is_0_or_1() {
    for breaks in 0..4 {
        let mut out = *b"........";
        let (mut place, mut length) = (9, 9);
        // SAFETY: each pointer comes with the length of the slice behind it.
        let number = unsafe {
            dervisclo::c::dervisclo_print_document(
                breaks,
                std::ptr::null(),
                0,
                0,
                QUERY.as_ptr(),
                QUERY.len(),
                b"a".as_ptr(),
                1,
                out.as_mut_ptr(),
                out.len(),
                &mut place,
                &mut length,
            )
        };
        let (text, wanted) = match breaks {
            0 => (b"{ a }...", (0, 0, 5)),
            1 => (b"{\na\n}\n..", (0, 0, 6)),
            _ => (b"........", (1, 0, 0)),
        };
        assert_eq!((number, place, length), wanted);
        assert_eq!(&out, text);
    }
}

#[test]
fn refusals_have_numbers_places_and_words() {
    let room = print_document(&QUERY, b"a", &Style::default(), &mut []).unwrap_err();
    assert_eq!((room.number(), room.place()), (8, 0));
    let error: &dyn std::error::Error = &room;
    let words = "8 (room) at place 0: output shorter than the text, or value, to be written; 8 bytes are needed";
    assert_eq!(error.to_string(), words);
    let text = print_document(&QUERY, b"-", &Style::default(), &mut []).unwrap_err();
    assert_eq!((text.number(), text.place()), (7, 2));
    assert!(text.to_string().starts_with("7 (text) at node 2: name"));
}
