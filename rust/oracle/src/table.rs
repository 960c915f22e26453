//! Read access to a node table, for plain programs.

/// Words of one node: kind, variant, text start, text length, end.
pub const WORDS: usize = 5;

pub const MOST_NODES: usize = 8_192;
pub const MOST_POOL: usize = 65_536;
pub const MOST_DEPTH: usize = 64;

pub const KIND_NAMES: [&str; 45] = [
    "Document",
    "Operation",
    "Fragment",
    "DirectiveDefinition",
    "Schema",
    "Scalar",
    "Object",
    "Interface",
    "Union",
    "Enum",
    "InputObject",
    "SchemaExtension",
    "ScalarExtension",
    "ObjectExtension",
    "InterfaceExtension",
    "UnionExtension",
    "EnumExtension",
    "InputObjectExtension",
    "Description",
    "Directive",
    "Argument",
    "VariableDefinition",
    "InputValueDefinition",
    "FieldDefinition",
    "EnumValueDefinition",
    "RootOperation",
    "InterfaceName",
    "UnionMember",
    "Location",
    "Field",
    "Alias",
    "FragmentSpread",
    "InlineFragment",
    "NamedType",
    "ListType",
    "Null",
    "Boolean",
    "EnumValue",
    "String",
    "Variable",
    "Float",
    "Int",
    "List",
    "ObjectValue",
    "ObjectField",
];

/// The kinds by name.
pub mod kind {
    pub const DOCUMENT: u32 = 0;
    pub const OPERATION: u32 = 1;
    pub const FRAGMENT: u32 = 2;
    pub const DIRECTIVE_DEFINITION: u32 = 3;
    pub const SCHEMA: u32 = 4;
    pub const SCALAR: u32 = 5;
    pub const OBJECT: u32 = 6;
    pub const INTERFACE: u32 = 7;
    pub const UNION: u32 = 8;
    pub const ENUM: u32 = 9;
    pub const INPUT_OBJECT: u32 = 10;
    pub const SCHEMA_EXTENSION: u32 = 11;
    pub const SCALAR_EXTENSION: u32 = 12;
    pub const OBJECT_EXTENSION: u32 = 13;
    pub const INTERFACE_EXTENSION: u32 = 14;
    pub const UNION_EXTENSION: u32 = 15;
    pub const ENUM_EXTENSION: u32 = 16;
    pub const INPUT_OBJECT_EXTENSION: u32 = 17;
    pub const DESCRIPTION: u32 = 18;
    pub const DIRECTIVE: u32 = 19;
    pub const ARGUMENT: u32 = 20;
    pub const VARIABLE_DEFINITION: u32 = 21;
    pub const INPUT_VALUE_DEFINITION: u32 = 22;
    pub const FIELD_DEFINITION: u32 = 23;
    pub const ENUM_VALUE_DEFINITION: u32 = 24;
    pub const ROOT_OPERATION: u32 = 25;
    pub const INTERFACE_NAME: u32 = 26;
    pub const UNION_MEMBER: u32 = 27;
    pub const LOCATION: u32 = 28;
    pub const FIELD: u32 = 29;
    pub const ALIAS: u32 = 30;
    pub const FRAGMENT_SPREAD: u32 = 31;
    pub const INLINE_FRAGMENT: u32 = 32;
    pub const NAMED_TYPE: u32 = 33;
    pub const LIST_TYPE: u32 = 34;
    pub const NULL: u32 = 35;
    pub const BOOLEAN: u32 = 36;
    pub const ENUM_VALUE: u32 = 37;
    pub const STRING: u32 = 38;
    pub const VARIABLE: u32 = 39;
    pub const FLOAT: u32 = 40;
    pub const INT: u32 = 41;
    pub const LIST: u32 = 42;
    pub const OBJECT_VALUE: u32 = 43;
    pub const OBJECT_FIELD: u32 = 44;
}

/// A table as lent. The accessors read words as they stand; what they give means something on a checked table only.
#[derive(Clone, Copy)]
pub struct Table<'a> {
    pub words: &'a [u32],
    pub pool: &'a [u8],
}

impl<'a> Table<'a> {
    pub fn nodes(self) -> usize {
        self.words.len() / WORDS
    }

    fn word(self, node: usize, word: usize) -> u32 {
        self.words[node * WORDS + word]
    }

    pub fn kind(self, node: usize) -> u32 {
        self.word(node, 0)
    }

    pub fn variant(self, node: usize) -> u32 {
        self.word(node, 1)
    }

    pub fn text_start(self, node: usize) -> usize {
        self.word(node, 2) as usize
    }

    pub fn text_length(self, node: usize) -> usize {
        self.word(node, 3) as usize
    }

    pub fn end(self, node: usize) -> usize {
        self.word(node, 4) as usize
    }

    pub fn text(self, node: usize) -> &'a [u8] {
        &self.pool[self.text_start(node)..][..self.text_length(node)]
    }

    /// The children of a node, in order. Asks that every end lies above its node.
    pub fn children(self, node: usize) -> impl Iterator<Item = usize> + 'a {
        let end = self.end(node);
        let mut next = node + 1;
        std::iter::from_fn(move || {
            let child = next;
            if child >= end {
                return None;
            }
            next = self.end(child);
            Some(child)
        })
    }

    pub fn children_of(self, node: usize, kind: u32) -> impl Iterator<Item = usize> + 'a {
        self.children(node)
            .filter(move |&child| self.kind(child) == kind)
    }
}
