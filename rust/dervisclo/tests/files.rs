//! Table files: kept and read again, every way to damage one that the header shows, and the stored sample.

#[path = "../examples/sample_registry/registry/mod.rs"]
mod registry;

use dervisclo::builder::Builder;
use dervisclo::file::{FileRefusal, told_length};
use dervisclo::{NodeKind, Table};
use std::path::Path;

fn query_of_a() -> Table {
    Table::document(|document| document.query("", |query| query.fields(["a"])))
}

/// The bytes of the lines `00000010  03 00 ..  |..|` of a text.
fn dumped(text: &str) -> Vec<u8> {
    let bytes = |line: &str| -> Option<Vec<u8>> {
        let (dump, _) = line.trim().split_once('|')?;
        let (offset, bytes) = dump.split_once("  ")?;
        u32::from_str_radix(offset, 16).ok()?;
        let bytes = bytes.split_whitespace();
        bytes
            .map(|byte| u8::from_str_radix(byte, 16).ok())
            .collect()
    };
    text.lines().filter_map(bytes).flatten().collect()
}

#[test]
fn the_query_of_a_is_as_documented() {
    let path = Path::new(env!("CARGO_MANIFEST_DIR")).join("../../docs/TABLE-FILE.md");
    let dump = dumped(&std::fs::read_to_string(path).unwrap());
    assert_eq!(dump.len(), 77);
    assert_eq!(query_of_a().to_file(), Ok(dump.clone()));
    assert_eq!(Table::from_file(&dump), Ok(query_of_a()));
}

#[test]
fn cut_anywhere_it_is_refused() {
    let file = query_of_a().to_file().unwrap();
    let whole = file.len() as u64;
    for length in 0..file.len() {
        let found = length as u64;
        let refusal = match length {
            0..8 => FileRefusal::Magic,
            8..16 => FileRefusal::Length { told: None, found },
            _ => FileRefusal::Length {
                told: Some(whole),
                found,
            },
        };
        assert_eq!(Table::from_file(&file[..length]), Err(refusal), "{length}");
    }
}

#[test]
fn too_long_it_is_refused() {
    let mut file = query_of_a().to_file().unwrap();
    let told = Some(file.len() as u64);
    for more in 1..40 {
        file.push(b'a');
        let found = file.len() as u64;
        let refusal = FileRefusal::Length { told, found };
        assert_eq!(Table::from_file(&file), Err(refusal), "{more}");
    }
}

#[test]
fn any_other_header_is_refused() {
    let file = query_of_a().to_file().unwrap();
    for at in 0..16 {
        for change in 1..=255 {
            let mut file = file.clone();
            file[at] ^= change;
            let refusal = Table::from_file(&file).unwrap_err();
            let number = if at < 8 { 20 } else { 21 };
            assert_eq!((refusal.number(), refusal.place()), (number, 0));
            if let FileRefusal::Length { told, found } = refusal {
                assert_eq!(told, Some(told_length(&file).unwrap()));
                assert_eq!(found, file.len() as u64);
            }
        }
    }
}

#[test]
fn refusals_have_words() {
    let rows = [
        (
            FileRefusal::Magic,
            "20 (file) at byte 0: the first eight bytes are not `DVTABLE1`",
        ),
        (
            FileRefusal::Length {
                told: Some(77),
                found: 76,
            },
            "21 (length) at byte 0: the file ends before its lengths are told, or is not 16 + 4 * words + pool bytes \
             long; 77 bytes are told, 76 are found",
        ),
        (
            FileRefusal::Length {
                told: None,
                found: 9,
            },
            "21 (length) at byte 0: the file ends before its lengths are told, or is not 16 + 4 * words + pool bytes \
             long; the lengths end at byte 16, 9 are found",
        ),
    ];
    for (refusal, words) in rows {
        let error: &dyn std::error::Error = &refusal;
        assert_eq!(error.to_string(), words);
    }
}

/// Numbers that look like chance (Knuth's linear congruence).
struct Chance(u64);

impl Chance {
    fn below(&mut self, end: u64) -> u64 {
        self.0 = self.0.wrapping_mul(6_364_136_223_846_793_005);
        self.0 = self.0.wrapping_add(1_442_695_040_888_963_407);
        (self.0 >> 33) % end
    }

    fn text(&mut self) -> Vec<u8> {
        (0..self.below(12)).map(|_| self.below(256) as u8).collect()
    }

    /// Nodes of any kind, variant and text.
    fn nodes(&mut self, node: &mut Builder, depth: u64) {
        for _ in 0..self.below(5) {
            let kind = NodeKind::ALL[self.below(45) as usize];
            let (variant, text) = (self.below(20) as u32, self.text());
            node.node(kind, variant, text, |child| {
                if depth > 0 {
                    self.nodes(child, depth - 1);
                }
            });
        }
    }
}

/// Node, and its text, from the table's words.
fn walk(table: &Table, at: usize) -> (&[u32], &[u8]) {
    let node = &table.words[5 * at..][..5];
    (node, &table.pool[node[2] as usize..][..node[3] as usize])
}

#[test]
fn built_tables_come_back_from_their_files() {
    let mut chance = Chance(1);
    let mut nodes = 0;
    for depth in 0..2_000 {
        let table = Table::document(|document| chance.nodes(document, depth % 6));
        let file = table.to_file().unwrap();
        assert_eq!(file.len(), 16 + 4 * table.words.len() + table.pool.len());
        assert_eq!(Table::from_file(&file), Ok(table.clone()));
        // The words are sound: ends lie within, an empty text starts at 0.
        for at in 0..table.nodes() {
            let (node, text) = walk(&table, at);
            assert!(node[4] as usize > at && node[4] as usize <= table.nodes());
            assert!(!text.is_empty() || node[2] == 0);
        }
        nodes += table.nodes();
    }
    assert!(nodes > 20_000, "{nodes}");
}

#[test]
fn any_words_and_pool_come_back() {
    let mut chance = Chance(2);
    for count in 0..200 {
        let table = Table {
            words: (0..count).map(|_| chance.below(1 << 31) as u32).collect(),
            pool: chance.text(),
        };
        let file = table.to_file().unwrap();
        assert_eq!(Table::from_file(&file), Ok(table));
    }
}

#[test]
fn the_stored_sample_is_what_the_example_writes() {
    let path = Path::new(env!("CARGO_MANIFEST_DIR")).join("../../samples/registry.dvt");
    let table = registry::registry();
    assert_eq!(table.check(), Ok(()));
    assert!((300..=600).contains(&table.nodes()), "{}", table.nodes());
    assert!(std::fs::read(path).unwrap() == table.to_file().unwrap());
}
