//! Which kinds, variants and parts a set of tables has shown.

use crate::plain_check::{children_of_kind, last_variant, Times};
use crate::table::{Table, KIND_NAMES, WORDS};
use std::collections::BTreeSet;

pub struct Coverage {
    pub kinds: [usize; 45],
    pub deepest: [usize; 45],
    pub most_nodes: usize,
    variants: BTreeSet<(u32, u32)>,
    /// Kind, slot, and 0, 1 or 2 (two or more) children in it.
    counts: BTreeSet<(u32, usize, usize)>,
    /// Kinds 1 and 32 with a name, and without.
    named: BTreeSet<(u32, bool)>,
}

impl Default for Coverage {
    fn default() -> Self {
        Self {
            kinds: [0; 45],
            deepest: [0; 45],
            most_nodes: 0,
            variants: BTreeSet::new(),
            counts: BTreeSet::new(),
            named: BTreeSet::new(),
        }
    }
}

impl Coverage {
    /// Counts the nodes of an accepted table.
    pub fn add(&mut self, words: &[u32], pool: &[u8]) {
        let table = Table { words, pool };
        self.most_nodes = self.most_nodes.max(words.len() / WORDS);
        self.node(table, 0, 0);
    }

    fn node(&mut self, table: Table, node: usize, depth: usize) {
        let kind = table.kind(node);
        let at = kind as usize;
        self.kinds[at] += 1;
        self.deepest[at] = self.deepest[at].max(depth);
        self.variants.insert((kind, table.variant(node)));
        if matches!(kind, 1 | 32) {
            self.named.insert((kind, table.text_length(node) != 0));
        }
        for (slot, (class, _)) in children_of_kind(kind).iter().enumerate() {
            let count = table
                .children(node)
                .filter(|&child| class.takes(table.kind(child), table.variant(child)))
                .count();
            self.counts.insert((kind, slot, count.min(2)));
        }
        for child in table.children(node) {
            self.node(table, child, depth + 1);
        }
    }

    /// What has not been seen, of all kinds, variants, and parts present and absent.
    pub fn missing(&self) -> Vec<String> {
        let mut missing = Vec::new();
        for kind in 0..45 {
            let name = KIND_NAMES[kind as usize];
            for variant in 0..=last_variant(kind) {
                if !self.variants.contains(&(kind, variant)) {
                    missing.push(format!("{name} of variant {variant}"));
                }
            }
            for (slot, &(class, times)) in children_of_kind(kind).iter().enumerate() {
                let counts: &[usize] = match times {
                    Times::One => &[1],
                    Times::Optional => &[0, 1],
                    Times::Any => &[0, 1, 2],
                    Times::Many => &[1, 2],
                };
                for &count in counts {
                    // A scalar's extension has nothing but directives.
                    let impossible = kind == 12 && count == 0;
                    if !impossible && !self.counts.contains(&(kind, slot, count)) {
                        missing.push(format!("{name} with {count} of {class:?}"));
                    }
                }
            }
        }
        for key @ (kind, named) in [(1, false), (1, true), (32, false), (32, true)] {
            if !self.named.contains(&key) {
                missing.push(format!("kind {kind}, named: {named}"));
            }
        }
        missing
    }

    pub fn print_kinds(&self) {
        for (kind, name) in KIND_NAMES.iter().enumerate() {
            println!(
                "  kind {kind:2} {name:<21} {:8} nodes, deepest at {:2}",
                self.kinds[kind], self.deepest[kind]
            );
        }
    }
}
