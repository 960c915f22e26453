use super::{Maker, FIELDS, SUBJECTS};
use oracle::generate::OwnTable;
use oracle::table::kind;

/// What is defined of each subject.
const PARTS: [(&str, u32); 13] = [
    ("", kind::OBJECT),
    ("Item", kind::OBJECT),
    ("Connection", kind::OBJECT),
    ("Filter", kind::INPUT_OBJECT),
    ("Status", kind::ENUM),
    ("Payload", kind::OBJECT),
    ("Input", kind::INPUT_OBJECT),
    ("Result", kind::UNION),
    ("Entry", kind::INTERFACE),
    ("Order", kind::ENUM),
    ("Summary", kind::OBJECT),
    ("Key", kind::SCALAR),
    ("", kind::OBJECT_EXTENSION),
];

const SCALARS: [&str; 6] = ["Int", "Float", "String", "Boolean", "ID", "DateTime"];

const VALUES: [&str; 16] = [
    "ACTIVE",
    "ARCHIVED",
    "BLOCKED",
    "CANCELLED",
    "CLOSED",
    "CREATED",
    "DELETED",
    "DRAFT",
    "EXPIRED",
    "FAILED",
    "OPEN",
    "PAID",
    "PENDING",
    "REFUNDED",
    "SHIPPED",
    "UNKNOWN",
];

/// Most nodes of one definition.
const LARGEST: usize = 300;

/// A schema of so many nodes, `LARGEST` and more. The last definition is an enum of what is left.
pub fn schema(seed: u64, nodes: usize) -> OwnTable {
    Maker::document(seed, |maker| {
        maker.roots();
        maker.directive_definitions();
        let mut number = 0;
        while maker.nodes() + LARGEST < nodes {
            maker.definition(number);
            number += 1;
        }
        maker.node(kind::ENUM, 0, "ErrorCode", |maker| {
            for code in maker.nodes()..nodes {
                maker.leaf(kind::ENUM_VALUE_DEFINITION, &format!("E{code}"));
            }
        });
    })
}

impl Maker {
    fn roots(&mut self) {
        self.node(kind::SCHEMA, 0, "", |maker| {
            maker.leaf(kind::DESCRIPTION, "All that the shop's gateway serves.");
            maker.node(kind::ROOT_OPERATION, 0, "Query", |_| {});
            maker.node(kind::ROOT_OPERATION, 1, "Mutation", |_| {});
            maker.node(kind::ROOT_OPERATION, 2, "Subscription", |_| {});
        });
    }

    fn directive_definitions(&mut self) {
        self.node(kind::DIRECTIVE_DEFINITION, 1, "key", |maker| {
            maker.node(kind::INPUT_VALUE_DEFINITION, 0, "fields", |maker| {
                maker.node(kind::NAMED_TYPE, 1, "String", |_| {});
            });
            maker.node(kind::LOCATION, 10, "", |_| {});
            maker.node(kind::LOCATION, 13, "", |_| {});
        });
        self.node(kind::DIRECTIVE_DEFINITION, 0, "cost", |maker| {
            maker.leaf(kind::DESCRIPTION, "What one call is charged.");
            maker.node(kind::INPUT_VALUE_DEFINITION, 0, "weight", |maker| {
                maker.leaf(kind::DESCRIPTION, "In points.");
                maker.leaf(kind::NAMED_TYPE, "Int");
                maker.leaf(kind::INT, "1");
            });
            maker.node(kind::LOCATION, 11, "", |_| {});
        });
    }

    fn definition(&mut self, number: usize) {
        let subject = SUBJECTS[number / PARTS.len() % SUBJECTS.len()];
        let (part, kind) = PARTS[number % PARTS.len()];
        let name = format!("{subject}{part}");
        let about = subject.to_lowercase();
        self.node(kind, 0, &name, |maker| {
            if kind != kind::OBJECT_EXTENSION {
                let text = format!("{name}: what the shop knows of a single {about}.");
                maker.leaf(kind::DESCRIPTION, &text);
            }
            match kind {
                kind::OBJECT | kind::INTERFACE | kind::OBJECT_EXTENSION => {
                    maker.object(kind, number, &about)
                }
                kind::UNION => maker.members(),
                kind::ENUM => maker.values(&about),
                kind::INPUT_OBJECT => maker.inputs(number, &about),
                _ => maker.deprecated(10),
            }
        });
    }

    fn object(&mut self, kind: u32, number: usize, about: &str) {
        if kind == kind::OBJECT {
            self.leaf(kind::INTERFACE_NAME, "Node");
            if self.rng.percent(30) {
                let interface = format!("{}Entry", self.any_subject());
                self.leaf(kind::INTERFACE_NAME, &interface);
            }
            self.directive("key", "fields", |maker| maker.leaf(kind::STRING, "id"));
        }
        for field in 0..self.rng.between(6, 16) {
            let name = FIELDS[(7 * number + field) % FIELDS.len()];
            self.node(kind::FIELD_DEFINITION, 0, name, |maker| {
                maker.about_field(name, about);
                maker.argument_definitions(about);
                maker.ty();
                maker.deprecated(8);
            });
        }
    }

    fn about_field(&mut self, field: &str, about: &str) {
        let text = match self.rng.below(20) {
            0..=8 => return,
            9 => format!("The {field} of this {about}.\n\nEmpty until it is first set."),
            10 => format!("`{field}`, as the \"{about}\" service has it."),
            _ => format!("The {field} of this {about}."),
        };
        self.leaf(kind::DESCRIPTION, &text);
    }

    fn argument_definitions(&mut self, about: &str) {
        if !self.rng.percent(20) {
            return;
        }
        let are_described = self.rng.percent(30);
        for name in ["first", "after", "where"]
            .iter()
            .take(self.rng.between(1, 3))
        {
            self.node(kind::INPUT_VALUE_DEFINITION, 0, name, |maker| {
                if are_described {
                    maker.about_field(name, about);
                }
                maker.ty();
                maker.default_value();
            });
        }
    }

    fn default_value(&mut self) {
        match self.rng.below(8) {
            0 | 1 => self.leaf(kind::INT, "20"),
            2 => self.leaf(kind::STRING, "name"),
            3 => self.leaf(kind::ENUM_VALUE, "ACTIVE"),
            4 => self.node(kind::LIST, 0, "", |maker| {
                maker.leaf(kind::ENUM_VALUE, "OPEN");
                maker.leaf(kind::ENUM_VALUE, "PAID");
            }),
            _ => {}
        }
    }

    fn ty(&mut self) {
        let variant = u32::from(self.rng.percent(50));
        if self.rng.percent(20) {
            return self.node(kind::LIST_TYPE, variant, "", Self::named_type);
        }
        self.named_type();
    }

    fn named_type(&mut self) {
        let variant = u32::from(self.rng.percent(50));
        let name = if self.rng.percent(60) {
            self.rng.pick(&SCALARS)
        } else {
            self.any_subject()
        };
        self.node(kind::NAMED_TYPE, variant, name, |_| {});
    }

    fn deprecated(&mut self, percent: usize) {
        if self.rng.percent(percent) {
            let reason = format!("Use `{}`.", self.any_field());
            self.directive("deprecated", "reason", |maker| {
                maker.leaf(kind::STRING, &reason);
            });
        } else if self.rng.percent(percent) {
            self.directive("cost", "weight", |maker| maker.leaf(kind::INT, "5"));
        }
    }

    fn members(&mut self) {
        for _ in 0..self.rng.between(2, 6) {
            let name = self.any_subject();
            self.leaf(kind::UNION_MEMBER, name);
        }
    }

    fn values(&mut self, about: &str) {
        let first = self.rng.below(VALUES.len());
        for value in 0..self.rng.between(4, 12) {
            let name = VALUES[(first + value) % VALUES.len()];
            self.node(kind::ENUM_VALUE_DEFINITION, 0, name, |maker| {
                maker.about_field(&name.to_lowercase(), about);
                maker.deprecated(5);
            });
        }
    }

    fn inputs(&mut self, number: usize, about: &str) {
        for field in 0..self.rng.between(4, 12) {
            let name = FIELDS[(5 * number + field) % FIELDS.len()];
            self.node(kind::INPUT_VALUE_DEFINITION, 0, name, |maker| {
                maker.about_field(name, about);
                maker.ty();
                maker.default_value();
            });
        }
    }
}
