//! Documents such as a registry holds, of just so many nodes: a schema, and requests. Equal texts lie in the pool once.

mod requests;
mod schema;

pub use requests::requests;
pub use schema::schema;

use oracle::generate::OwnTable;
use oracle::rng::Rng;
use oracle::table::{kind, WORDS};
use std::collections::HashMap;

const SUBJECTS: [&str; 24] = [
    "Account", "Address", "Article", "Cart", "Catalog", "Comment", "Coupon", "Customer", "Event",
    "Invoice", "Member", "Message", "Offer", "Order", "Payment", "Price", "Product", "Project",
    "Report", "Review", "Session", "Shipment", "Team", "Ticket",
];

const FIELDS: [&str; 48] = [
    "id",
    "name",
    "title",
    "createdAt",
    "updatedAt",
    "deletedAt",
    "status",
    "total",
    "currency",
    "price",
    "quantity",
    "weight",
    "items",
    "owner",
    "members",
    "parent",
    "children",
    "email",
    "phone",
    "address",
    "city",
    "country",
    "zipCode",
    "locale",
    "timeZone",
    "url",
    "image",
    "description",
    "summary",
    "tags",
    "labels",
    "rating",
    "reviews",
    "score",
    "count",
    "position",
    "version",
    "checksum",
    "source",
    "target",
    "kind",
    "reason",
    "comment",
    "history",
    "events",
    "permissions",
    "settings",
    "isActive",
];

/// Adds nodes in preorder.
struct Maker {
    rng: Rng,
    words: Vec<u32>,
    pool: Vec<u8>,
    placed: HashMap<String, usize>,
}

impl Maker {
    /// A document with these definitions.
    fn document(seed: u64, definitions: impl FnOnce(&mut Self)) -> OwnTable {
        let mut maker = Self {
            rng: Rng::new(seed),
            words: Vec::new(),
            pool: Vec::new(),
            placed: HashMap::new(),
        };
        maker.node(kind::DOCUMENT, 0, "", definitions);
        OwnTable {
            words: maker.words,
            pool: maker.pool,
        }
    }

    fn nodes(&self) -> usize {
        self.words.len() / WORDS
    }

    fn node(&mut self, kind: u32, variant: u32, text: &str, below: impl FnOnce(&mut Self)) {
        let at = self.words.len();
        let start = self.place(text) as u32;
        self.words
            .extend([kind, variant, start, text.len() as u32, 0]);
        below(self);
        self.words[at + WORDS - 1] = self.nodes() as u32;
    }

    fn leaf(&mut self, kind: u32, text: &str) {
        self.node(kind, 0, text, |_| {});
    }

    fn place(&mut self, text: &str) -> usize {
        if text.is_empty() {
            return 0;
        }
        let end = self.pool.len();
        let start = *self.placed.entry(text.into()).or_insert(end);
        if start == end {
            self.pool.extend_from_slice(text.as_bytes());
        }
        start
    }

    fn argument(&mut self, name: &str, value: impl FnOnce(&mut Self)) {
        self.node(kind::ARGUMENT, 0, name, value);
    }

    fn directive(&mut self, name: &str, argument: &str, value: impl FnOnce(&mut Self)) {
        self.node(kind::DIRECTIVE, 0, name, |maker| {
            maker.argument(argument, value)
        });
    }

    fn any_subject(&mut self) -> &'static str {
        SUBJECTS[self.rng.below(SUBJECTS.len())]
    }

    fn any_field(&mut self) -> &'static str {
        FIELDS[self.rng.below(FIELDS.len())]
    }
}
