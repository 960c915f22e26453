//! The check of a node table: each refusal, and the node that it names.

use dervisclo::{Style, TableRefusal, check_document, check_table};

/// The query of a.
const QUERY: [u32; 15] = [0, 0, 0, 0, 3, 1, 0, 0, 0, 3, 29, 0, 0, 1, 3];

/// The query of a with one word changed.
fn changed(at: usize, word: u32) -> [u32; 15] {
    let mut words = QUERY;
    words[at] = word;
    words
}

/// A query of fields within one another, so many nodes in all.
fn nested(nodes: u32) -> Vec<u32> {
    let node = |number| match number {
        0 => [0, 0, 0, 0, nodes],
        1 => [1, 0, 0, 0, nodes],
        _ => [29, 0, 0, 1, nodes],
    };
    (0..nodes).flat_map(node).collect()
}

#[test]
fn accepted() {
    assert_eq!(check_table(&QUERY, b"a"), Ok(()));
    assert_eq!(check_table(&QUERY, b"a\xff"), Ok(()));
    assert_eq!(check_table(&[0, 0, 0, 0, 1], b""), Ok(()));
    assert_eq!(check_table(&nested(65), b"a"), Ok(()));
}

#[test]
fn refused() {
    use TableRefusal::*;
    assert_eq!(check_table(&[], b""), Err(Size));
    assert_eq!(check_table(&QUERY[..14], b"a"), Err(Size));
    assert_eq!(check_table(&QUERY, &[b'a'; 65_537]), Err(Size));
    assert_eq!(check_table(&QUERY, b""), Err(Node { place: 2 }));
    assert_eq!(check_table(&changed(0, 1), b"a"), Err(Node { place: 0 }));
    let crossed = [
        [0, 0, 0, 0, 4],
        [1, 0, 0, 0, 3],
        [29, 0, 0, 1, 4],
        [29, 0, 0, 1, 4],
    ];
    assert_eq!(
        check_table(crossed.as_flattened(), b"a"),
        Err(Nesting { place: 1 })
    );
    assert_eq!(check_table(&nested(66), b"a"), Err(Depth { place: 65 }));
    assert_eq!(
        check_table(&changed(10, 30), b"a"),
        Err(Children { place: 1 })
    );
    assert_eq!(check_table(&QUERY, b"-"), Err(Text { place: 2 }));
}

#[test]
fn refusals_have_numbers_places_and_words() {
    let refusal = check_table(&nested(67), b"a").unwrap_err();
    assert_eq!((refusal.number(), refusal.place()), (5, 65));
    assert_eq!(
        refusal.to_string(),
        "5 (depth) at node 65: Document is depth 0; this node is deeper than 64"
    );
    let refusal = check_table(&[], b"a").unwrap_err();
    assert_eq!((refusal.number(), refusal.place()), (2, 0));
    let words = refusal.to_string();
    assert!(words.starts_with("2 (size) at place 0: words"), "{words}");
}

#[test]
fn settings_go_before_the_table() {
    use TableRefusal::*;
    let style = |prefix, level| Style {
        breaks: true,
        prefix,
        level,
    };
    let sixteen = [b' '; 16];
    assert_eq!(check_document(&style(&sixteen, 64), &QUERY, b"a"), Ok(()));
    assert_eq!(
        check_document(&style(b"\t", 0), &QUERY, b"-"),
        Err(Text { place: 2 })
    );
    for (prefix, level) in [
        (&[b' '; 17][..], 0),
        (b" x", 0),
        (b"  ", 65),
        (b"", u64::MAX),
    ] {
        for breaks in [true, false] {
            let style = Style {
                breaks,
                prefix,
                level,
            };
            assert_eq!(check_document(&style, &QUERY, b"a"), Err(Settings));
            assert_eq!(check_document(&style, &[], b""), Err(Settings));
        }
    }
    let refusal = check_document(&style(b"", 65), &QUERY, b"a").unwrap_err();
    assert_eq!((refusal.number(), refusal.place()), (1, 0));
}

#[test]
fn a_switch_is_0_or_1() {
    for breaks in 0..4 {
        let mut place = 9;
        // SAFETY: each pointer comes with the length of the slice behind it.
        let number = unsafe {
            dervisclo::c::dervisclo_check_document(
                breaks,
                std::ptr::null(),
                0,
                0,
                QUERY.as_ptr(),
                QUERY.len(),
                b"a".as_ptr(),
                1,
                &mut place,
            )
        };
        assert_eq!((number, place), (u32::from(breaks > 1), 0));
    }
}
