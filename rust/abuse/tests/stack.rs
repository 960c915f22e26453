//! The stack is measured to the byte, and the deepest inputs are what they say.

use abuse::deep;
use abuse::entries::Entry;
use abuse::measure::Measure;
use abuse::stack::{limit, Stack};
use oracle::plain_check::is_valid;
use oracle::table::{Table, MOST_DEPTH};
use std::hint::black_box;

#[inline(never)]
fn uses(bytes: usize) -> u32 {
    let mut array = [0_u8; 1_000];
    black_box(&mut array).fill(bytes as u8);
    match bytes.checked_sub(1_000) {
        Some(left) => uses(left) + black_box(1),
        None => 0,
    }
}

#[test]
fn used_stack_is_seen() {
    let mut stack = Stack::default();
    assert_eq!(stack.used(Entry::CheckTable), 0);
    let calls = stack.run(Entry::CheckTable, || uses(100_000));
    assert_eq!(calls, 100);
    let used = stack.used(Entry::CheckTable);
    assert!((101_000..130_000).contains(&used), "{used}");
    // less changes nothing, and the other entries have stacks of their own
    stack.run(Entry::CheckTable, || uses(3_000));
    assert_eq!(stack.used(Entry::CheckTable), used);
    stack.run(Entry::PrintDocument, || uses(3_000));
    let other = stack.used(Entry::PrintDocument);
    assert!((4_000..9_000).contains(&other), "{other}");
}

#[test]
fn nested_tables_are_accepted_and_deep() {
    let tables = deep::nested();
    let mut deepest = 0;
    for table in &tables {
        assert_eq!(is_valid(&table.words, &table.pool), Ok(()));
        let depth = depth(table.view());
        assert!(depth + 2 >= MOST_DEPTH, "{depth}");
        deepest += usize::from(depth == MOST_DEPTH);
    }
    assert!(2 * deepest > tables.len(), "{deepest}");
}

fn depth(table: Table<'_>) -> usize {
    let above = |node| (0..node).filter(|&other| table.end(other) > node).count();
    (0..table.nodes()).map(above).max().unwrap()
}

#[test]
fn nested_tables_keep_to_the_limits() {
    let mut measure = Measure::default();
    for table in deep::nested() {
        for input in deep::of_table(&table) {
            measure.with_rooms(input);
        }
    }
    assert_eq!(measure.tally.failed, 0);
    for entry in [
        Entry::CheckTable,
        Entry::CheckDocument,
        Entry::PrintDocument,
    ] {
        let used = measure.used(entry);
        assert!(used > 1_000 && used <= limit(entry), "{entry:?}: {used}");
    }
}
