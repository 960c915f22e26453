//! Trees of another shape: refusals 5 and 6.

use super::Done;
use crate::generate::pack::pack;
use crate::generate::trees::Tree;
use crate::generate::{document, OwnTable};
use crate::plain_check::{children_of_kind, has_no_text, Class, Times};
use crate::rng::Rng;
use crate::table::{kind, KIND_NAMES, MOST_DEPTH};
use std::ops::Range;

// ---- 5

pub fn too_deep(rng: &mut Rng) -> OwnTable {
    let depth = MOST_DEPTH + rng.between(1, 3);
    chain(rng, depth)
}

pub fn just_as_deep(rng: &mut Rng) -> OwnTable {
    chain(rng, MOST_DEPTH)
}

/// Most nodes of a chain.
const LONG: usize = 70;

/// A document whose deepest node has this depth: selections, types or values within one another.
fn chain(rng: &mut Rng, depth: usize) -> OwnTable {
    let definition = match rng.below(5) {
        0 => {
            let selection = deep_selection(rng, depth - 2);
            named(kind::OPERATION, "", vec![selection])
        }
        1 => {
            let ty = deep_type(rng, depth - 3);
            let field = named(kind::INPUT_VALUE_DEFINITION, "b", vec![ty]);
            named(kind::INPUT_OBJECT, "I", vec![field])
        }
        2 => {
            let value = deep_value(rng, depth - 4);
            let argument = named(kind::ARGUMENT, "b", vec![value]);
            let directive = named(kind::DIRECTIVE, "c", vec![argument]);
            named(kind::SCALAR, "S", vec![directive])
        }
        3 => {
            let ty = deep_type(rng, depth - 3);
            let variable = named(kind::VARIABLE_DEFINITION, "v", vec![ty]);
            let field = named(kind::FIELD, "a", Vec::new());
            named(kind::OPERATION, "Q", vec![variable, field])
        }
        _ => {
            let value = deep_value(rng, depth - 4);
            let argument = named(kind::ARGUMENT, "b", vec![value]);
            let field = named(kind::FIELD, "a", vec![argument]);
            named(kind::OPERATION, "", vec![field])
        }
    };
    let spare = LONG - 1 - definition.size();
    let before = rng.between(0, spare.min(3));
    let mut definitions: Vec<Tree> = (0..before)
        .map(|_| named(kind::SCALAR, "S", Vec::new()))
        .collect();
    definitions.push(definition);
    pack(rng, &document(definitions))
}

fn named(kind: u32, name: &str, children: Vec<Tree>) -> Tree {
    Tree {
        kind,
        variant: 0,
        text: name.into(),
        children,
    }
}

fn deep_selection(rng: &mut Rng, below: usize) -> Tree {
    if below == 0 {
        return named(kind::FIELD, "a", Vec::new());
    }
    let inner = deep_selection(rng, below - 1);
    let (kind, name) = *rng.pick(&[
        (kind::FIELD, "a"),
        (kind::FIELD, "b1"),
        (kind::INLINE_FRAGMENT, ""),
        (kind::INLINE_FRAGMENT, "T"),
    ]);
    named(kind, name, vec![inner])
}

fn deep_type(rng: &mut Rng, below: usize) -> Tree {
    let variant = rng.below(2) as u32;
    let ty = if below == 0 {
        named(kind::NAMED_TYPE, "T", Vec::new())
    } else {
        let inner = deep_type(rng, below - 1);
        named(kind::LIST_TYPE, "", vec![inner])
    };
    Tree { variant, ..ty }
}

fn deep_value(rng: &mut Rng, below: usize) -> Tree {
    if below == 0 {
        let (kind, text) = *rng.pick(&[(kind::INT, "1"), (kind::NULL, ""), (kind::LIST, "")]);
        return named(kind, text, Vec::new());
    }
    if below > 1 && rng.percent(50) {
        let inner = deep_value(rng, below - 2);
        let field = named(kind::OBJECT_FIELD, "f", vec![inner]);
        return named(kind::OBJECT_VALUE, "", vec![field]);
    }
    let inner = deep_value(rng, below - 1);
    named(kind::LIST, "", vec![inner])
}

// ---- 6

/// The node of this number.
fn node_of(tree: &mut Tree, number: usize) -> &mut Tree {
    let mut left = number;
    let mut tree = tree;
    while left > 0 {
        left -= 1;
        let mut child = 0;
        while left >= tree.children[child].size() {
            left -= tree.children[child].size();
            child += 1;
        }
        tree = &mut tree.children[child];
    }
    tree
}

/// A node that has at least so many children.
fn pick_parent<'a>(rng: &mut Rng, tree: &'a mut Tree, children: usize) -> Option<&'a mut Tree> {
    let number = rng.below(tree.size());
    let parent = node_of(tree, number);
    (parent.children.len() >= children).then_some(parent)
}

/// Kind, variant and text of two nodes; their children stay.
pub fn heads_swapped(rng: &mut Rng, tree: &mut Tree) -> Done {
    let (left, right) = (rng.below(tree.size()), rng.below(tree.size()));
    if left == 0 || right == 0 {
        return None;
    }
    let head = |tree: &Tree| (tree.kind, tree.variant, tree.text.clone());
    let put = |tree: &mut Tree, head| (tree.kind, tree.variant, tree.text) = head;
    let left_head = head(node_of(tree, left));
    let right_head = head(node_of(tree, right));
    put(node_of(tree, left), right_head);
    put(node_of(tree, right), left_head);
    Some(())
}

/// To one that allows for the node's variant, and takes text if the old one does.
pub fn kind_changed(rng: &mut Rng, tree: &mut Tree) -> Done {
    let number = rng.below(tree.size());
    let node = node_of(tree, number);
    let kind = rng.between(1, 44) as u32;
    if number == 0 || has_no_text(kind) != has_no_text(node.kind) {
        return None;
    }
    node.kind = kind;
    Some(())
}

pub fn child_moved(rng: &mut Rng, tree: &mut Tree) -> Done {
    let parent = pick_parent(rng, tree, 1)?;
    let at = rng.below(parent.children.len());
    let child = parent.children.remove(at);
    put_in(rng, tree, child)
}

pub fn leaf_put_in(rng: &mut Rng, tree: &mut Tree) -> Done {
    let kind = rng.between(1, 44) as u32;
    put_in(rng, tree, leaf(kind))
}

/// A node of this kind with a text that it may have and no children, be they wanted or not.
fn leaf(kind: u32) -> Tree {
    let text = match kind {
        _ if has_no_text(kind) => "",
        kind::INT => "1",
        kind::FLOAT => "1.5",
        _ => "a",
    };
    named(kind, text, Vec::new())
}

fn put_in(rng: &mut Rng, tree: &mut Tree, child: Tree) -> Done {
    let parent = pick_parent(rng, tree, 0)?;
    let at = rng.between(0, parent.children.len());
    parent.children.insert(at, child);
    Some(())
}

pub fn is_extension(kind: u32) -> bool {
    (kind::SCHEMA_EXTENSION..=kind::INPUT_OBJECT_EXTENSION).contains(&kind)
}

pub fn bare_extension(rng: &mut Rng, tree: &mut Tree) -> Done {
    let parent = pick_parent(rng, tree, 1)?;
    if !is_extension(parent.kind) {
        return None;
    }
    parent.children.clear();
    Some(())
}

/// A slot of a kind's children that is not filled as document 01 lists it.
pub struct SlotFault {
    pub kind: u32,
    slot: usize,
    what: What,
}

#[derive(Clone, Copy)]
enum What {
    Absent,
    Twice,
    /// A child of it stands after one of the next slot.
    AfterNext,
    /// Its child is of a kind or variant just beside what the slot takes.
    Beside(u32, u32),
}

/// Each slot that must be filled, absent; each that takes one child, with two; each two in a row, out of order; and
/// for each class of children the nodes beside it.
pub fn slot_faults() -> Vec<SlotFault> {
    let mut faults = Vec::new();
    for kind in 0..KIND_NAMES.len() as u32 {
        let slots = children_of_kind(kind);
        for (slot, &(_, times)) in slots.iter().enumerate() {
            let fault = |what| SlotFault { kind, slot, what };
            if matches!(times, Times::One | Times::Many) {
                faults.push(fault(What::Absent));
            }
            if matches!(times, Times::One | Times::Optional) {
                faults.push(fault(What::Twice));
            }
            if slot + 1 < slots.len() {
                faults.push(fault(What::AfterNext));
            }
        }
    }
    for (kind, slot, beside, variant) in [
        (kind::DOCUMENT, 0, kind::DESCRIPTION, 0),
        (kind::FRAGMENT, 0, kind::NAMED_TYPE, 1),
        (kind::FRAGMENT, 0, kind::LIST_TYPE, 0),
        (kind::OPERATION, 2, kind::LOCATION, 0),
        (kind::OPERATION, 2, kind::ALIAS, 0),
        (kind::OPERATION, 2, kind::NAMED_TYPE, 0),
        (kind::LIST_TYPE, 0, kind::INLINE_FRAGMENT, 0),
        (kind::LIST_TYPE, 0, kind::NULL, 0),
        (kind::ARGUMENT, 0, kind::LIST_TYPE, 0),
        (kind::ARGUMENT, 0, kind::OBJECT_FIELD, 0),
    ] {
        let what = What::Beside(beside, variant);
        faults.push(SlotFault { kind, slot, what });
    }
    faults
}

impl SlotFault {
    /// The tree with the fault at its first node that has a place for it.
    pub fn done_to(&self, tree: &Tree) -> Option<Tree> {
        let mut tree = tree.clone();
        (0..tree.size()).find_map(|number| self.done_at(node_of(&mut tree, number)))?;
        Some(tree)
    }

    fn done_at(&self, node: &mut Tree) -> Done {
        if node.kind != self.kind {
            return None;
        }
        let slots = children_of_kind(self.kind);
        let own = children_in(node, slots[self.slot].0);
        if own.is_empty() {
            return None;
        }
        match self.what {
            What::Absent if own.len() == 1 => {
                node.children.remove(own.start);
            }
            What::Twice => {
                let child = node.children[own.start].clone();
                node.children.insert(own.start, child);
            }
            What::AfterNext if !children_in(node, slots[self.slot + 1].0).is_empty() => {
                node.children.swap(own.end - 1, own.end);
            }
            What::Beside(kind, variant) => {
                node.children[own.start] = Tree {
                    variant,
                    ..leaf(kind)
                };
            }
            _ => return None,
        }
        Some(())
    }
}

/// The children of this class, which stand in a row.
fn children_in(node: &Tree, class: Class) -> Range<usize> {
    let is_in = |child: &Tree| class.takes(child.kind, child.variant);
    let start = node.children.iter().position(is_in);
    let start = start.unwrap_or(node.children.len());
    let run = node.children[start..].iter();
    start..start + run.take_while(|child| is_in(child)).count()
}
