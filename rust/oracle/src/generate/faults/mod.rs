//! Small tables damaged in one way each, and tables that stop just short of a fault.

mod shapes;
mod texts;
mod words;

use super::pack::pack;
use super::trees::Tree;
use super::{tree, OwnTable};
use crate::plain_check::{children_of_kind, has_no_text, is_valid};
use crate::rng::Rng;
use crate::table::{kind, Table, KIND_NAMES, WORDS};
use std::collections::BTreeSet;

/// Most nodes of a tree that is to be damaged, and most characters of one of its texts.
const SMALL: usize = 22;
const SMALL_TEXT: usize = 6;

/// Trees to choose from.
const TREES: usize = 4_000;

/// The damage is done, or there was no place for it.
type Done = Option<()>;

enum Way {
    Table(fn(&mut Rng, &mut OwnTable) -> Done),
    Tree(fn(&mut Rng, &mut Tree) -> Done),
    /// A table of its own.
    Whole(fn(&mut Rng) -> OwnTable),
}

/// The refusal that a way is to bring about, 0 for none, and how many tables it gives.
const WAYS: [(u32, usize, Way); 43] = [
    (0, 6, Way::Table(nothing_done)),
    (0, 4, Way::Whole(shapes::just_as_deep)),
    (0, 5, Way::Table(texts::name_nearly_reserved)),
    (0, 3, Way::Table(texts::good_utf8)),
    (0, 4, Way::Table(texts::good_number)),
    (0, 3, Way::Table(texts::unnamed_byte)),
    (0, 3, Way::Table(texts::value_to_variable)),
    (0, 3, Way::Table(words::other_variant)),
    (0, 1, Way::Table(words::one_word)),
    (2, 2, Way::Table(words::no_words)),
    (2, 10, Way::Table(words::words_cut)),
    (2, 10, Way::Table(words::words_added)),
    (2, 4, Way::Table(words::word_left_out)),
    (3, 5, Way::Table(words::unknown_kind)),
    (3, 3, Way::Table(words::unknown_variant)),
    (3, 8, Way::Table(words::text_outside)),
    (3, 3, Way::Table(words::pool_cut)),
    (3, 4, Way::Table(words::start_without_text)),
    (3, 4, Way::Table(words::end_too_low)),
    (3, 4, Way::Table(words::end_too_high)),
    (3, 2, Way::Table(words::no_document)),
    (3, 1, Way::Table(words::document_ends_early)),
    (3, 2, Way::Table(words::second_document)),
    (3, 1, Way::Table(words::node_left_out)),
    (3, 2, Way::Table(words::one_word)),
    (3, 2, Way::Table(two_ways)),
    (4, 10, Way::Table(words::inner_end_raised)),
    (4, 10, Way::Table(words::outer_end_lowered)),
    (4, 5, Way::Table(words::ends_swapped)),
    (4, 2, Way::Table(words::one_word)),
    (4, 2, Way::Table(two_ways)),
    (5, 23, Way::Whole(shapes::too_deep)),
    (5, 2, Way::Whole(too_deep_and_wrong)),
    (6, 4, Way::Tree(shapes::heads_swapped)),
    (6, 4, Way::Tree(shapes::kind_changed)),
    (6, 4, Way::Tree(shapes::child_moved)),
    (6, 3, Way::Table(texts::value_to_variable)),
    (6, 2, Way::Table(two_ways)),
    (7, 10, Way::Table(texts::wrong_utf8)),
    (7, 6, Way::Table(texts::wrong_int)),
    (7, 8, Way::Table(texts::wrong_float)),
    (7, 6, Way::Table(texts::text_moved)),
    (7, 2, Way::Table(two_ways)),
];

type IsFor = fn(u32) -> bool;

/// Ways that are done to each of some kinds: the node that is refused is of that kind.
const TO_EACH_KIND: [(u32, IsFor, Way); 6] = [
    (3, |_| true, Way::Table(words::next_variant)),
    (3, has_no_text, Way::Table(words::unwanted_text)),
    (6, shapes::is_extension, Way::Tree(shapes::bare_extension)),
    (6, is_childless, Way::Tree(shapes::leaf_put_in)),
    (7, texts::has_name, Way::Table(texts::wrong_name)),
    (7, texts::must_have_name, Way::Table(texts::empty_name)),
];

fn is_childless(kind: u32) -> bool {
    children_of_kind(kind).is_empty()
}

/// Tables in the order of their refusals, no two the same.
pub fn tables(rng: &mut Rng) -> Vec<OwnTable> {
    let trees = small_trees(rng);
    let mut found = Found::default();
    for (number, count, way) in &WAYS {
        let mut left = *count;
        while left > 0 {
            let tree = rng.pick(&trees);
            let table = way.done_to(rng, tree);
            let is_new = table.is_some_and(|table| found.take(table, *number, None));
            left -= usize::from(is_new);
        }
    }
    for (number, is_for, way) in &TO_EACH_KIND {
        for kind in (0..KIND_NAMES.len() as u32).filter(|&kind| is_for(kind)) {
            found.first(&trees, *number, kind, |tree| way.done_to(rng, tree));
        }
    }
    each_slot(rng, &trees, &mut found);
    each_constant_place(rng, &trees, &mut found);
    each_reserved_name(rng, &trees, &mut found);
    found.tables.sort_by_key(|&(number, _)| number);
    found.tables.into_iter().map(|(_, table)| table).collect()
}

fn each_slot(rng: &mut Rng, trees: &[Tree], found: &mut Found) {
    for fault in shapes::slot_faults() {
        found.first(trees, 6, fault.kind, |tree| {
            Some(pack(rng, &fault.done_to(tree)?))
        });
    }
}

fn each_constant_place(rng: &mut Rng, trees: &[Tree], found: &mut Found) {
    let definitions = kind::DIRECTIVE_DEFINITION..=kind::INPUT_OBJECT_EXTENSION;
    for constant in definitions.chain([kind::VARIABLE_DEFINITION]) {
        found.first(trees, 6, kind::VARIABLE, |tree| {
            let mut table = pack(rng, tree);
            texts::value_below_to_variable(rng, &mut table, constant)?;
            Some(table)
        });
    }
}

fn each_reserved_name(rng: &mut Rng, trees: &[Tree], found: &mut Found) {
    for (kind, name) in texts::RESERVED {
        found.first(trees, 7, kind, |tree| {
            let mut table = pack(rng, tree);
            texts::reserved_name(rng, &mut table, kind, name)?;
            Some(table)
        });
    }
}

/// The smallest come first.
fn small_trees(rng: &mut Rng) -> Vec<Tree> {
    let mut trees: Vec<Tree> = (0..TREES)
        .map(|_| {
            let nodes = rng.between(2, SMALL);
            let mut tree = tree(rng, nodes);
            shorten(&mut tree);
            tree
        })
        .collect();
    trees.sort_by_key(Tree::size);
    trees
}

/// The start of a name is a name, and that of a string a string. Numbers stay.
fn shorten(tree: &mut Tree) {
    if !matches!(tree.kind, kind::FLOAT | kind::INT) {
        tree.text = tree.text.chars().take(SMALL_TEXT).collect();
    }
    tree.children.iter_mut().for_each(shorten);
}

impl Way {
    fn done_to(&self, rng: &mut Rng, tree: &Tree) -> Option<OwnTable> {
        match self {
            Way::Table(damage) => {
                let mut table = pack(rng, tree);
                damage(rng, &mut table)?;
                Some(table)
            }
            Way::Tree(damage) => {
                let mut tree = tree.clone();
                damage(rng, &mut tree)?;
                Some(pack(rng, &tree))
            }
            Way::Whole(make) => Some(make(rng)),
        }
    }
}

#[derive(Default)]
struct Found {
    tables: Vec<(u32, OwnTable)>,
    seen: BTreeSet<(Vec<u32>, Vec<u8>)>,
}

impl Found {
    /// Takes a table that is new and gets this number, at a node of this kind if one is asked for.
    fn take(&mut self, table: OwnTable, number: u32, kind: Option<u32>) -> bool {
        let (given, place) = match is_valid(&table.words, &table.pool) {
            Ok(()) => (0, 0),
            Err(refusal) => (refusal.number, refusal.place),
        };
        let is_asked_for =
            given == number && kind.is_none_or(|kind| table.view().kind(place) == kind);
        let is_new = is_asked_for && self.seen.insert((table.words.clone(), table.pool.clone()));
        if is_new {
            self.tables.push((number, table));
        }
        is_new
    }

    /// Takes the first that will do. The trees are tried in order, and again while the damage falls elsewhere.
    fn first(
        &mut self,
        trees: &[Tree],
        number: u32,
        kind: u32,
        done_to: impl FnMut(&Tree) -> Option<OwnTable>,
    ) {
        let is_found = trees
            .iter()
            .cycle()
            .take(50 * trees.len())
            .filter_map(done_to)
            .any(|table| self.take(table, number, Some(kind)));
        assert!(is_found, "refusal {number} at a node of kind {kind}");
    }
}

/// One of the nodes that are wanted.
fn pick_node(
    rng: &mut Rng,
    table: &OwnTable,
    wanted: impl Fn(Table<'_>, usize) -> bool,
) -> Option<usize> {
    let found: Vec<usize> = (0..table.nodes())
        .filter(|&node| wanted(table.view(), node))
        .collect();
    (!found.is_empty()).then(|| *rng.pick(&found))
}

fn set(table: &mut OwnTable, node: usize, word: usize, value: u32) -> Done {
    table.words[node * WORDS + word] = value;
    Some(())
}

fn set_kind(table: &mut OwnTable, node: usize, kind: u32) -> Done {
    set(table, node, 0, kind)
}

fn set_variant(table: &mut OwnTable, node: usize, variant: u32) -> Done {
    set(table, node, 1, variant)
}

fn set_start(table: &mut OwnTable, node: usize, start: u32) -> Done {
    set(table, node, 2, start)
}

fn set_length(table: &mut OwnTable, node: usize, length: u32) -> Done {
    set(table, node, 3, length)
}

fn set_end(table: &mut OwnTable, node: usize, end: usize) -> Done {
    set(table, node, 4, end as u32)
}

/// Gives a node this text, at the pool's end.
fn set_text(table: &mut OwnTable, node: usize, text: &[u8]) -> Done {
    let start = if text.is_empty() { 0 } else { table.pool.len() };
    table.pool.extend_from_slice(text);
    set_start(table, node, start as u32)?;
    set_length(table, node, text.len() as u32)
}

fn nothing_done(_: &mut Rng, _: &mut OwnTable) -> Done {
    Some(())
}

/// Two faults, of one number or of two.
fn two_ways(rng: &mut Rng, table: &mut OwnTable) -> Done {
    let ways = [
        texts::value_to_variable,
        texts::wrong_name,
        texts::wrong_utf8,
        words::end_too_low,
        words::inner_end_raised,
        words::next_variant,
        words::text_outside,
    ];
    let (first, second) = (rng.pick(&ways), rng.pick(&ways));
    first(rng, table)?;
    let once = table.clone();
    second(rng, table)?;
    let is_fault = is_valid(&once.words, &once.pool).is_err();
    (is_fault && *table != once).then_some(())
}

fn too_deep_and_wrong(rng: &mut Rng) -> OwnTable {
    let mut table = shapes::too_deep(rng);
    texts::wrong_name(rng, &mut table);
    table
}
