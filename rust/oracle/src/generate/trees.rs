//! Random trees that document 01's checks accept, written by hand from its table of kinds.

use super::texts;
use crate::rng::Rng;
use crate::table::{kind, MOST_DEPTH};

#[derive(Clone, Debug)]
pub struct Tree {
    pub kind: u32,
    pub variant: u32,
    pub text: String,
    pub children: Vec<Tree>,
}

impl Tree {
    pub fn size(&self) -> usize {
        1 + self.children.iter().map(Tree::size).sum::<usize>()
    }
}

/// What one table's trees look like.
#[derive(Clone, Debug)]
pub struct Style {
    /// Percentage of optional parts that are present.
    pub optional: usize,
    /// Most items in a run, the rare long run left out.
    pub repeats: usize,
    /// Percentage of values, types and selections that nest further.
    pub dig: usize,
}

impl Style {
    pub fn any(rng: &mut Rng) -> Self {
        Self {
            optional: *rng.pick(&[5, 20, 35, 50, 75]),
            repeats: *rng.pick(&[1, 2, 2, 3, 5]),
            dig: *rng.pick(&[5, 20, 40, 60, 90, 100]),
        }
    }
}

/// Makes trees of about `left` nodes: once these are spent, it adds only what a kind must have.
pub struct Maker<'a> {
    pub rng: &'a mut Rng,
    pub style: Style,
    pub left: isize,
}

impl Maker<'_> {
    fn node(&mut self, kind: u32, variant: u32, text: String, children: Vec<Tree>) -> Tree {
        Tree {
            kind,
            variant,
            text,
            children,
        }
    }

    fn leaf(&mut self, kind: u32, text: String) -> Tree {
        self.left -= 1;
        self.node(kind, 0, text, Vec::new())
    }

    fn name_leaf(&mut self, kind: u32) -> Tree {
        let name = texts::name(self.rng);
        self.leaf(kind, name)
    }

    fn wants(&mut self) -> bool {
        self.left > 0 && self.rng.percent(self.style.optional)
    }

    /// Length of a run that may be absent.
    fn any(&mut self) -> usize {
        if self.wants() {
            self.many()
        } else {
            0
        }
    }

    /// Length of a run that may not be absent.
    fn many(&mut self) -> usize {
        if self.left <= 0 {
            return 1;
        }
        match self.rng.below(30) {
            0 => self.rng.between(1, 12),
            _ => self.rng.between(1, self.style.repeats),
        }
    }

    fn digs(&mut self) -> bool {
        self.left > 0 && self.rng.percent(self.style.dig)
    }

    fn maybe_name(&mut self) -> String {
        if self.rng.percent(self.style.optional) {
            texts::name(self.rng)
        } else {
            String::new()
        }
    }

    fn description(&mut self, children: &mut Vec<Tree>) {
        if self.wants() {
            let text = texts::string(self.rng);
            children.push(self.leaf(kind::DESCRIPTION, text));
        }
    }

    /// Directives at this depth. In a constant place their arguments hold no variable.
    fn directives(&mut self, depth: usize, constant: bool, children: &mut Vec<Tree>) {
        if depth > MOST_DEPTH {
            return;
        }
        for _ in 0..self.any() {
            children.push(self.directive(depth, constant));
        }
    }

    fn directive(&mut self, depth: usize, constant: bool) -> Tree {
        self.left -= 1;
        let mut arguments = Vec::new();
        self.arguments(depth + 1, constant, &mut arguments);
        let name = texts::name(self.rng);
        self.node(kind::DIRECTIVE, 0, name, arguments)
    }

    fn arguments(&mut self, depth: usize, constant: bool, children: &mut Vec<Tree>) {
        if depth + 1 > MOST_DEPTH {
            return;
        }
        for _ in 0..self.any() {
            self.left -= 1;
            let value = self.value(depth + 1, constant);
            let name = texts::name(self.rng);
            children.push(self.node(kind::ARGUMENT, 0, name, vec![value]));
        }
    }

    fn value(&mut self, depth: usize, constant: bool) -> Tree {
        let digs = self.digs();
        if digs && depth + 2 <= MOST_DEPTH && self.rng.percent(50) {
            self.left -= 1;
            let count = self.many();
            let fields = (0..count).map(|_| self.object_field(depth + 1, constant));
            let fields = fields.collect();
            return self.node(kind::OBJECT_VALUE, 0, String::new(), fields);
        }
        if digs && depth < MOST_DEPTH {
            self.left -= 1;
            let count = self.many();
            let items = (0..count)
                .map(|_| self.value(depth + 1, constant))
                .collect();
            return self.node(kind::LIST, 0, String::new(), items);
        }
        self.leaf_value(constant)
    }

    fn object_field(&mut self, depth: usize, constant: bool) -> Tree {
        self.left -= 1;
        let value = self.value(depth + 1, constant);
        let name = texts::name(self.rng);
        self.node(kind::OBJECT_FIELD, 0, name, vec![value])
    }

    fn leaf_value(&mut self, constant: bool) -> Tree {
        self.left -= 1;
        let kinds = [
            kind::NULL,
            kind::BOOLEAN,
            kind::ENUM_VALUE,
            kind::STRING,
            kind::STRING,
            kind::FLOAT,
            kind::INT,
            kind::LIST,
            kind::OBJECT_VALUE,
            kind::VARIABLE,
            kind::VARIABLE,
        ];
        let end = if constant { 9 } else { 11 };
        let kind = *self.rng.pick(&kinds[..end]);
        let variant = if kind == kind::BOOLEAN {
            self.rng.below(2) as u32
        } else {
            0
        };
        let text = match kind {
            kind::ENUM_VALUE => texts::enum_value(self.rng),
            kind::STRING => texts::string(self.rng),
            kind::FLOAT => texts::float(self.rng),
            kind::INT => texts::int(self.rng),
            kind::VARIABLE => texts::name(self.rng),
            _ => String::new(),
        };
        self.node(kind, variant, text, Vec::new())
    }

    fn ty(&mut self, depth: usize) -> Tree {
        let variant = self.rng.below(2) as u32;
        if self.digs() && depth < MOST_DEPTH {
            self.left -= 1;
            let inner = self.ty(depth + 1);
            return self.node(kind::LIST_TYPE, variant, String::new(), vec![inner]);
        }
        Tree {
            variant,
            ..self.name_leaf(kind::NAMED_TYPE)
        }
    }

    fn selections(&mut self, depth: usize, children: &mut Vec<Tree>) {
        for _ in 0..self.many() {
            children.push(self.selection(depth));
        }
    }

    fn selection(&mut self, depth: usize) -> Tree {
        self.left -= 1;
        let digs = self.digs() && depth < MOST_DEPTH;
        let mut children = Vec::new();
        match self.rng.below(6) {
            0 if digs => {
                self.directives(depth + 1, false, &mut children);
                self.selections(depth + 1, &mut children);
                let name = self.maybe_name();
                self.node(kind::INLINE_FRAGMENT, 0, name, children)
            }
            1 if !digs => {
                self.directives(depth + 1, false, &mut children);
                let name = texts::fragment_name(self.rng);
                self.node(kind::FRAGMENT_SPREAD, 0, name, children)
            }
            _ => {
                if depth < MOST_DEPTH && self.wants() {
                    children.push(self.name_leaf(kind::ALIAS));
                }
                self.arguments(depth + 1, false, &mut children);
                self.directives(depth + 1, false, &mut children);
                if digs {
                    self.selections(depth + 1, &mut children);
                }
                let name = texts::name(self.rng);
                self.node(kind::FIELD, 0, name, children)
            }
        }
    }

    fn variable_definition(&mut self) -> Tree {
        self.left -= 1;
        let mut children = vec![self.ty(3)];
        if self.wants() {
            children.push(self.value(3, true));
        }
        self.directives(3, true, &mut children);
        let name = texts::name(self.rng);
        self.node(kind::VARIABLE_DEFINITION, 0, name, children)
    }

    fn input_value(&mut self, depth: usize) -> Tree {
        self.left -= 1;
        let mut children = Vec::new();
        self.description(&mut children);
        children.push(self.ty(depth + 1));
        if self.wants() {
            children.push(self.value(depth + 1, true));
        }
        self.directives(depth + 1, true, &mut children);
        let name = texts::name(self.rng);
        self.node(kind::INPUT_VALUE_DEFINITION, 0, name, children)
    }

    fn field_definition(&mut self) -> Tree {
        self.left -= 1;
        let mut children = Vec::new();
        self.description(&mut children);
        for _ in 0..self.any() {
            children.push(self.input_value(3));
        }
        children.push(self.ty(3));
        self.directives(3, true, &mut children);
        let name = texts::name(self.rng);
        self.node(kind::FIELD_DEFINITION, 0, name, children)
    }

    fn enum_value_definition(&mut self) -> Tree {
        self.left -= 1;
        let mut children = Vec::new();
        self.description(&mut children);
        self.directives(3, true, &mut children);
        let name = texts::enum_value(self.rng);
        self.node(kind::ENUM_VALUE_DEFINITION, 0, name, children)
    }

    fn root_operation(&mut self) -> Tree {
        Tree {
            variant: self.rng.below(3) as u32,
            ..self.name_leaf(kind::ROOT_OPERATION)
        }
    }

    /// One definition of this kind, 1 to 17.
    pub fn definition(&mut self, kind: u32) -> Tree {
        self.left -= 1;
        match kind {
            kind::OPERATION => self.operation(),
            kind::FRAGMENT => self.fragment(),
            kind::DIRECTIVE_DEFINITION => self.directive_definition(),
            _ => self.schema_or_type(kind),
        }
    }

    fn operation(&mut self) -> Tree {
        let mut children = Vec::new();
        for _ in 0..self.any() {
            children.push(self.variable_definition());
        }
        self.directives(2, false, &mut children);
        self.selections(2, &mut children);
        let variant = if self.rng.percent(50) {
            0
        } else {
            self.rng.below(3) as u32
        };
        let name = self.maybe_name();
        self.node(kind::OPERATION, variant, name, children)
    }

    fn fragment(&mut self) -> Tree {
        let mut children = vec![self.name_leaf(kind::NAMED_TYPE)];
        self.directives(2, false, &mut children);
        self.selections(2, &mut children);
        let name = texts::fragment_name(self.rng);
        self.node(kind::FRAGMENT, 0, name, children)
    }

    fn directive_definition(&mut self) -> Tree {
        let mut children = Vec::new();
        self.description(&mut children);
        for _ in 0..self.any() {
            children.push(self.input_value(2));
        }
        for _ in 0..self.many() {
            let variant = self.rng.below(19) as u32;
            let location = self.leaf(kind::LOCATION, String::new());
            children.push(Tree {
                variant,
                ..location
            });
        }
        let variant = self.rng.below(2) as u32;
        let name = texts::name(self.rng);
        self.node(kind::DIRECTIVE_DEFINITION, variant, name, children)
    }

    fn schema_or_type(&mut self, kind: u32) -> Tree {
        let is_extension = kind >= kind::SCHEMA_EXTENSION;
        let of = if is_extension { kind - 7 } else { kind };
        let mut children = Vec::new();
        if !is_extension {
            self.description(&mut children);
        }
        if matches!(of, kind::OBJECT | kind::INTERFACE) {
            for _ in 0..self.any() {
                children.push(self.name_leaf(kind::INTERFACE_NAME));
            }
        }
        self.directives(2, true, &mut children);
        let items = if kind == kind::SCHEMA {
            self.many()
        } else if of == kind::SCALAR {
            0
        } else {
            self.any()
        };
        for _ in 0..items {
            children.push(self.item(of));
        }
        if is_extension && children.is_empty() {
            children.push(self.directive(2, true));
        }
        let name = if of == kind::SCHEMA {
            String::new()
        } else {
            texts::name(self.rng)
        };
        self.node(kind, 0, name, children)
    }

    /// What a definition of kind 4 or 6 to 10 lists.
    fn item(&mut self, of: u32) -> Tree {
        match of {
            kind::SCHEMA => self.root_operation(),
            kind::OBJECT | kind::INTERFACE => self.field_definition(),
            kind::UNION => self.name_leaf(kind::UNION_MEMBER),
            kind::ENUM => self.enum_value_definition(),
            _ => self.input_value(2),
        }
    }
}
