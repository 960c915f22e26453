//! Words changed as they stand: refusals 2, 3 and 4.

use super::{pick_node, set_end, set_kind, set_length, set_start, set_text, set_variant, Done};
use crate::generate::{damage_word, OwnTable};
use crate::plain_check::{has_no_text, last_variant};
use crate::rng::Rng;
use crate::table::{kind, WORDS};

// ---- 2

pub fn no_words(rng: &mut Rng, table: &mut OwnTable) -> Done {
    table.words.clear();
    if rng.percent(50) {
        table.pool.clear();
    }
    Some(())
}

pub fn words_cut(rng: &mut Rng, table: &mut OwnTable) -> Done {
    let length = rng.below(table.words.len());
    table.words.truncate(length);
    Some(())
}

pub fn words_added(rng: &mut Rng, table: &mut OwnTable) -> Done {
    for _ in 0..rng.between(1, 4) {
        table.words.push(rng.below(30) as u32);
    }
    Some(())
}

pub fn word_left_out(rng: &mut Rng, table: &mut OwnTable) -> Done {
    let at = rng.below(table.words.len());
    table.words.remove(at);
    Some(())
}

// ---- 3

pub fn unknown_kind(rng: &mut Rng, table: &mut OwnTable) -> Done {
    let node = rng.below(table.nodes());
    let old = table.view().kind(node);
    let kind = *rng.pick(&[45, 46, 64, old + 0x100, old + 0x1_0000, u32::MAX]);
    set_kind(table, node, kind)
}

/// The first that the kind does not have.
pub fn next_variant(rng: &mut Rng, table: &mut OwnTable) -> Done {
    let node = rng.below(table.nodes());
    let last = last_variant(table.view().kind(node));
    set_variant(table, node, last + 1)
}

/// By far.
pub fn unknown_variant(rng: &mut Rng, table: &mut OwnTable) -> Done {
    let node = rng.below(table.nodes());
    let old = table.view().variant(node);
    let variant = *rng.pick(&[old + 0x100, old + 0x1_0000, u32::MAX]);
    set_variant(table, node, variant)
}

/// By one byte, by far, or so far that the sum passes 32 bits.
pub fn text_outside(rng: &mut Rng, table: &mut OwnTable) -> Done {
    let node = pick_node(rng, table, |view, node| {
        let length = view.text_length(node);
        length > 0 && view.text_start(node) + length <= view.pool.len()
    })?;
    let size = table.pool.len() as u32;
    let start = table.view().text_start(node) as u32;
    let length = table.view().text_length(node) as u32;
    match rng.below(7) {
        0 => set_start(table, node, size - length + 1),
        1 => set_start(table, node, size),
        2 => set_start(table, node, u32::MAX),
        3 => set_start(table, node, 0_u32.wrapping_sub(length)),
        4 => set_length(table, node, size - start + 1),
        5 => set_length(table, node, u32::MAX),
        _ => set_length(table, node, 0_u32.wrapping_sub(start).wrapping_add(1)),
    }
}

pub fn pool_cut(rng: &mut Rng, table: &mut OwnTable) -> Done {
    let node = pick_node(rng, table, |view, node| view.text_length(node) > 0)?;
    let end = table.view().text_start(node) + table.view().text_length(node);
    table.pool.truncate(end - 1);
    Some(())
}

pub fn start_without_text(rng: &mut Rng, table: &mut OwnTable) -> Done {
    let node = pick_node(rng, table, |view, node| view.text_length(node) == 0)?;
    let start = rng.between(1, table.pool.len() + 1);
    set_start(table, node, start as u32)
}

pub fn unwanted_text(rng: &mut Rng, table: &mut OwnTable) -> Done {
    let node = pick_node(rng, table, |view, node| has_no_text(view.kind(node)))?;
    set_text(table, node, b"a")
}

pub fn end_too_low(rng: &mut Rng, table: &mut OwnTable) -> Done {
    let node = rng.below(table.nodes());
    let end = *rng.pick(&[node, node, node.saturating_sub(1), 0]);
    set_end(table, node, end)
}

pub fn end_too_high(rng: &mut Rng, table: &mut OwnTable) -> Done {
    let node = rng.below(table.nodes());
    let nodes = table.nodes();
    let end = *rng.pick(&[nodes + 1, nodes + 1, nodes + 2, u32::MAX as usize]);
    set_end(table, node, end)
}

pub fn no_document(rng: &mut Rng, table: &mut OwnTable) -> Done {
    let kind = rng.between(1, 44) as u32;
    set_kind(table, 0, kind)
}

pub fn document_ends_early(rng: &mut Rng, table: &mut OwnTable) -> Done {
    let end = rng.between(1, table.nodes() - 1);
    set_end(table, 0, end)
}

pub fn second_document(rng: &mut Rng, table: &mut OwnTable) -> Done {
    let node = pick_node(rng, table, |view, node| {
        node != 0 && has_no_text(view.kind(node))
    })?;
    set_kind(table, node, kind::DOCUMENT)
}

/// The ends stay as they are.
pub fn node_left_out(rng: &mut Rng, table: &mut OwnTable) -> Done {
    let node = rng.below(table.nodes());
    table.words.drain(node * WORDS..(node + 1) * WORDS);
    Some(())
}

// ---- 4

pub fn inner_end_raised(rng: &mut Rng, table: &mut OwnTable) -> Done {
    let nodes = table.nodes();
    let outer = pick_node(rng, table, |view, node| {
        (node + 2..nodes).contains(&view.end(node))
    })?;
    let end = table.view().end(outer);
    let inner = rng.between(outer + 1, end - 1);
    let raised = rng.between(end + 1, nodes);
    set_end(table, inner, raised)
}

pub fn outer_end_lowered(rng: &mut Rng, table: &mut OwnTable) -> Done {
    let outer = pick_node(rng, table, |view, node| {
        node != 0 && view.end(node) > node + 1
    })?;
    let lowered = rng.between(outer + 1, table.view().end(outer) - 1);
    set_end(table, outer, lowered)
}

pub fn ends_swapped(rng: &mut Rng, table: &mut OwnTable) -> Done {
    let (left, right) = (rng.below(table.nodes()), rng.below(table.nodes()));
    table.words.swap(left * WORDS + 4, right * WORDS + 4);
    Some(())
}

// ---- any number

pub fn one_word(rng: &mut Rng, table: &mut OwnTable) -> Done {
    let old = table.words.clone();
    damage_word(rng, table);
    (table.words != old).then_some(())
}

// ---- none

pub fn other_variant(rng: &mut Rng, table: &mut OwnTable) -> Done {
    let node = pick_node(rng, table, |view, node| last_variant(view.kind(node)) > 0)?;
    let last = last_variant(table.view().kind(node));
    let variant = rng.between(0, last as usize) as u32;
    set_variant(table, node, variant)
}
