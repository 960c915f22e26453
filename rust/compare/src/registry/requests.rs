use super::Maker;
use oracle::generate::OwnTable;
use oracle::table::kind;

/// Most nodes of one definition.
const LARGEST: usize = 600;

/// Selections stand no deeper within one another.
const DEEPEST: usize = 5;

/// Operations and fragments of so many nodes, `LARGEST` and more. The last is a fragment of what is left.
pub fn requests(seed: u64, nodes: usize) -> OwnTable {
    Maker::document(seed, |maker| {
        let mut number = 0;
        while maker.nodes() + LARGEST < nodes {
            if number % 4 == 3 {
                maker.fragment(number);
            } else {
                maker.operation(number);
            }
            number += 1;
        }
        maker.node(kind::FRAGMENT, 0, "Rest", |maker| {
            maker.leaf(kind::NAMED_TYPE, "Report");
            for field in maker.nodes()..nodes {
                maker.leaf(kind::FIELD, &format!("column{}", field % 500));
            }
        });
    })
}

impl Maker {
    fn operation(&mut self, number: usize) {
        let variant = [0, 0, 1, 0, 2][number % 5];
        let name = format!("{}{number}", self.any_subject());
        self.node(kind::OPERATION, variant, &name, |maker| {
            maker.variable("id", |maker| {
                maker.node(kind::NAMED_TYPE, 1, "ID", |_| {});
            });
            maker.variable("first", |maker| {
                maker.leaf(kind::NAMED_TYPE, "Int");
                maker.leaf(kind::INT, "20");
            });
            maker.variable("status", |maker| {
                maker.node(kind::LIST_TYPE, 0, "", |maker| {
                    maker.node(kind::NAMED_TYPE, 1, "OrderStatus", |_| {});
                });
                maker.node(kind::LIST, 0, "", |maker| {
                    maker.leaf(kind::ENUM_VALUE, "OPEN");
                    maker.leaf(kind::ENUM_VALUE, "PAID");
                });
            });
            maker.variable("isFull", |maker| {
                maker.leaf(kind::NAMED_TYPE, "Boolean");
                maker.node(kind::BOOLEAN, 0, "", |_| {});
            });
            if maker.rng.percent(20) {
                maker.directive("cached", "seconds", |maker| maker.leaf(kind::INT, "60"));
            }
            maker.selections(1);
        });
    }

    fn fragment(&mut self, number: usize) {
        let subject = self.any_subject();
        let name = format!("{subject}Parts{number}");
        self.node(kind::FRAGMENT, 0, &name, |maker| {
            maker.leaf(kind::NAMED_TYPE, subject);
            maker.selections(2);
        });
    }

    fn variable(&mut self, name: &str, parts: impl FnOnce(&mut Self)) {
        self.node(kind::VARIABLE_DEFINITION, 0, name, parts);
    }

    fn selections(&mut self, depth: usize) {
        for _ in 0..self.rng.between(2, 5) {
            self.selection(depth);
        }
    }

    fn selection(&mut self, depth: usize) {
        let subject = self.any_subject();
        match self.rng.below(16) {
            0 => {
                let name = format!("{subject}Parts3");
                self.node(kind::FRAGMENT_SPREAD, 0, &name, Self::is_full);
            }
            1 if depth < DEEPEST => {
                self.node(kind::INLINE_FRAGMENT, 0, subject, |maker| {
                    maker.is_full();
                    maker.selections(depth + 1);
                });
            }
            _ => self.field(depth),
        }
    }

    fn field(&mut self, depth: usize) {
        let name = self.any_field();
        self.node(kind::FIELD, 0, name, |maker| {
            if maker.rng.percent(15) {
                let alias = format!("{}Of{}", maker.any_field(), maker.any_subject());
                maker.leaf(kind::ALIAS, &alias);
            }
            if maker.rng.percent(35) {
                maker.arguments();
            }
            maker.is_full();
            if depth < DEEPEST && maker.rng.percent(35) {
                maker.selections(depth + 1);
            }
        });
    }

    /// At times: `@include(if: $isFull)`.
    fn is_full(&mut self) {
        if self.rng.percent(10) {
            self.directive("include", "if", |maker| {
                maker.leaf(kind::VARIABLE, "isFull");
            });
        }
    }

    fn arguments(&mut self) {
        for name in ["first", "id", "where"].iter().take(self.rng.between(1, 3)) {
            self.argument(name, Self::value);
        }
    }

    fn value(&mut self) {
        match self.rng.below(8) {
            0 | 1 => self.leaf(kind::VARIABLE, "id"),
            2 => self.leaf(kind::INT, "100"),
            3 => self.leaf(kind::STRING, "name, then \"rank\""),
            4 => self.leaf(kind::ENUM_VALUE, "NEWEST_FIRST"),
            5 => self.leaf(kind::FLOAT, "0.75"),
            6 => self.node(kind::LIST, 0, "", |maker| {
                maker.leaf(kind::INT, "1");
                maker.leaf(kind::VARIABLE, "first");
            }),
            _ => self.node(kind::OBJECT_VALUE, 0, "", |maker| {
                maker.object_field("status", |maker| maker.leaf(kind::VARIABLE, "status"));
                maker.object_field("isActive", |maker| {
                    maker.node(kind::BOOLEAN, 1, "", |_| {});
                });
            }),
        }
    }

    fn object_field(&mut self, name: &str, value: impl FnOnce(&mut Self)) {
        self.node(kind::OBJECT_FIELD, 0, name, value);
    }
}
