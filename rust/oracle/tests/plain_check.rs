//! The plain check on tables damaged on purpose: each gets the number and the place that document 01 says.

use oracle::generate;
use oracle::plain_check::{is_float, is_int, is_name, is_valid, Refusal};
use oracle::rng::Rng;

fn refused(words: &[[u32; 5]], pool: &[u8], number: u32, place: usize) {
    let answer = is_valid(&words.concat(), pool);
    assert_eq!(answer, Err(Refusal { number, place }), "{words:?}");
}

fn accepted(words: &[[u32; 5]], pool: &[u8]) {
    assert_eq!(is_valid(&words.concat(), pool), Ok(()), "{words:?}");
}

const QUERY: [[u32; 5]; 3] = [[0, 0, 0, 0, 3], [1, 0, 0, 0, 3], [29, 0, 0, 1, 3]];

fn query_with(node: usize, word: usize, value: u32) -> [[u32; 5]; 3] {
    let mut words = QUERY;
    words[node][word] = value;
    words
}

#[test]
fn the_query_of_a_is_accepted() {
    accepted(&QUERY, b"a");
    accepted(&[[0, 0, 0, 0, 1]], b"");
}

#[test]
fn sizes() {
    let size = Err(Refusal {
        number: 2,
        place: 0,
    });
    assert_eq!(is_valid(&[], b""), size);
    assert_eq!(is_valid(&[0, 0, 0, 0], b""), size);
    assert_eq!(is_valid(&[0, 0, 0, 0, 1, 0], b""), size);
    assert_eq!(is_valid(&[0, 0, 0, 0, 1], &[b'a'; 65_537]), size);
    assert_eq!(is_valid(&[0, 0, 0, 0, 1], &[b'a'; 65_536]), Ok(()));
    let mut words = vec![0, 0, 0, 0, 8_193];
    for node in 1..8_193 {
        words.extend([5, 0, 0, 1, node + 1]);
    }
    assert_eq!(is_valid(&words, b"a"), size);
    words.truncate(8_192 * 5);
    words[4] = 8_192;
    assert_eq!(is_valid(&words, b"a"), Ok(()));
}

#[test]
fn nodes() {
    refused(&query_with(2, 0, 45), b"a", 3, 2);
    refused(&query_with(1, 1, 3), b"a", 3, 1);
    refused(&query_with(2, 1, 1), b"a", 3, 2);
    refused(&query_with(2, 2, 1), b"a", 3, 2);
    refused(&query_with(2, 2, u32::MAX), b"a", 3, 2);
    refused(&query_with(2, 3, u32::MAX), b"a", 3, 2);
    refused(&query_with(1, 2, 1), b"a", 3, 1);
    refused(&query_with(0, 3, 1), b"a", 3, 0);
    refused(&query_with(2, 4, 2), b"a", 3, 2);
    refused(&query_with(2, 4, 4), b"a", 3, 2);
    refused(&query_with(0, 4, 2), b"a", 3, 0);
    refused(&query_with(0, 0, 1), b"a", 3, 0);
    refused(&query_with(1, 0, 0), b"a", 3, 1);
}

#[test]
fn nesting_names_the_outer_node() {
    let ends = [21, 10, 5, 20];
    let mut words: Vec<[u32; 5]> = ends.iter().map(|&end| [29, 0, 0, 1, end]).collect();
    words[0] = [0, 0, 0, 0, 21];
    words.extend((4..21).map(|node| [29, 0, 0, 1, node + 1]));
    refused(&words, b"a", 4, 1);
}

#[test]
fn depth() {
    // A document, an operation and fields, each below the one before.
    let chain = |nodes: u32| -> Vec<[u32; 5]> {
        let mut words = vec![[29, 0, 0, 1, nodes]; nodes as usize];
        words[0] = [0, 0, 0, 0, nodes];
        words[1] = [1, 0, 0, 0, nodes];
        words
    };
    accepted(&chain(65), b"a");
    refused(&chain(66), b"a", 5, 65);
    refused(&chain(80), b"a", 5, 65);
}

#[test]
fn children() {
    // An operation and an inline fragment want a selection, an extension any child, a fragment a plain name.
    refused(&[[0, 0, 0, 0, 2], [1, 0, 0, 0, 2]], b"a", 6, 1);
    refused(
        &[[0, 0, 0, 0, 3], [1, 0, 0, 0, 3], [32, 0, 0, 0, 3]],
        b"a",
        6,
        2,
    );
    refused(&[[0, 0, 0, 0, 2], [12, 0, 0, 1, 2]], b"a", 6, 1);
    let fragment = |variant| {
        [
            [0, 0, 0, 0, 4],
            [2, 0, 0, 1, 4],
            [33, variant, 0, 1, 3],
            [29, 0, 0, 1, 4],
        ]
    };
    accepted(&fragment(0), b"a");
    refused(&fragment(1), b"a", 6, 1);
    // Definitions do not nest, and a directive comes before the fields.
    refused(
        &[[0, 0, 0, 0, 3], [5, 0, 0, 1, 3], [5, 0, 0, 1, 3]],
        b"a",
        6,
        1,
    );
    let wrong_order = [
        [0, 0, 0, 0, 5],
        [6, 0, 0, 1, 5],
        [23, 0, 0, 1, 4],
        [33, 0, 0, 1, 4],
        [19, 0, 0, 1, 5],
    ];
    refused(&wrong_order, b"a", 6, 1);
}

#[test]
fn variables_in_constant_places() {
    let directive_on = |kind| {
        [
            [0, 0, 0, 0, 5],
            [kind, 0, 0, 1, 5],
            [19, 0, 0, 1, 5],
            [20, 0, 0, 1, 5],
            [39, 0, 0, 1, 5],
        ]
    };
    for kind in [5, 6, 7, 8, 9, 10, 12, 13, 14, 15, 16, 17] {
        refused(&directive_on(kind), b"a", 6, 4);
    }
    // Allowed on an operation; not as a variable's default.
    let mut on_operation = directive_on(1).to_vec();
    on_operation[0][4] = 6;
    on_operation[1][4] = 6;
    on_operation.push([29, 0, 0, 1, 6]);
    accepted(&on_operation, b"a");
    let default = [
        [0, 0, 0, 0, 6],
        [1, 0, 0, 0, 6],
        [21, 0, 0, 1, 5],
        [33, 0, 0, 1, 4],
        [39, 0, 0, 1, 5],
        [29, 0, 0, 1, 6],
    ];
    refused(&default, b"a", 6, 4);
}

#[test]
fn texts() {
    refused(&QUERY, b"1", 7, 2);
    refused(&query_with(2, 3, 0), b"a", 7, 2);
    let spread = [[0, 0, 0, 0, 3], [1, 0, 0, 0, 3], [31, 0, 0, 2, 3]];
    refused(&spread, b"on", 7, 2);
    accepted(&spread, b"oN");
    for word in [&b"true"[..], b"false", b"null"] {
        let length = word.len() as u32;
        let value = [[0, 0, 0, 0, 3], [9, 0, 0, length, 3], [24, 0, 0, length, 3]];
        refused(&value, word, 7, 2);
    }
    let described = |length| {
        [
            [0, 0, 0, 0, 3],
            [5, 0, 0, 1, 3],
            [18, 0, u32::from(length > 0), length, 3],
        ]
    };
    accepted(&described(0), b"a\xff");
    refused(&described(1), b"a\xff", 7, 2);
    refused(&described(3), b"a\xed\xa0\x80", 7, 2);
    accepted(&described(4), b"a\xf0\x9f\x98\x80");
}

#[test]
fn the_lowest_number_wins() {
    // Node 2 has a bad name and node 1 no fault; then node 1 also gets a bad variant.
    refused(&query_with(1, 1, 9), b"1", 3, 1);
    // Bad children at node 1, bad text at node 2.
    refused(
        &[[0, 0, 0, 0, 3], [5, 0, 0, 1, 3], [29, 0, 1, 1, 3]],
        b"a1",
        6,
        1,
    );
}

#[test]
fn numbers_and_names() {
    for text in ["0", "-0", "1", "-10", "9000000000000000000000"] {
        assert!(
            is_int(text.as_bytes()) && !is_float(text.as_bytes()),
            "{text}"
        );
    }
    for text in ["1.5", "-0.0", "1e10", "1.5E-3", "0e+0", "-12.340e5"] {
        assert!(
            is_float(text.as_bytes()) && !is_int(text.as_bytes()),
            "{text}"
        );
    }
    for text in [
        "", "-", "00", "01", "+1", "1.", ".5", "1e", "1e+", "1.e1", "1.5.5", "1e1e1", "1a", "--1",
        "1.5a",
    ] {
        assert!(
            !is_float(text.as_bytes()) && !is_int(text.as_bytes()),
            "{text}"
        );
    }
    assert!(is_name(b"_") && is_name(b"a1") && is_name(b"__typename"));
    assert!(!is_name(b"") && !is_name(b"1a") && !is_name(b"a-b") && !is_name("é".as_bytes()));
}

#[test]
fn generated_tables_have_the_asked_size_and_are_accepted() {
    let mut rng = Rng::new(7);
    for nodes in [1, 2, 3, 10, 100, 1_000, 8_192] {
        let table = generate::table(&mut rng, nodes);
        assert_eq!(table.nodes(), nodes);
        assert_eq!(is_valid(&table.words, &table.pool), Ok(()));
    }
}

#[test]
fn damaged_tables_meet_every_refusal() {
    let mut rng = Rng::new(7);
    let mut seen = [0; 8];
    for _ in 0..5_000 {
        let nodes = rng.between(1, 12);
        let mut table = generate::table(&mut rng, nodes);
        generate::damage(&mut rng, &mut table);
        match is_valid(&table.words, &table.pool) {
            Ok(()) => seen[0] += 1,
            Err(refusal) => seen[refusal.number as usize] += 1,
        }
    }
    // Nothing is deeper than 64 here.
    for number in [0, 2, 3, 4, 6, 7] {
        assert!(seen[number] > 0, "{number}: {seen:?}");
    }
}
