//! A plain printer, written from document 01's layout on the table itself. Kinds 4 to 17 are one path, since they
//! have the same parts in the same order: description, keyword, name, interfaces, directives, members, braces.

use crate::settings::Settings;
use crate::table::{kind, Table};

/// The text of an accepted table.
pub fn print_document(words: &[u32], pool: &[u8], settings: &Settings) -> Vec<u8> {
    let mut printer = Printer::new(Table { words, pool }, settings);
    printer.document(Mode::from(settings));
    printer.out
}

/// The text of one literal, its first line not indented.
pub fn print_literal(value: &[u8], is_description: bool, settings: &Settings) -> Vec<u8> {
    let empty = Table {
        words: &[],
        pool: &[],
    };
    let mut printer = Printer::new(empty, settings);
    printer.literal(Mode::from(settings), value, is_description);
    printer.out
}

/// The block rule of "String literals", breaks and preference left out.
pub fn can_be_block(value: &[u8]) -> bool {
    let lines: Vec<&[u8]> = value.split(|&byte| byte == b'\n').collect();
    let least_indent = lines
        .iter()
        .filter(|line| !is_blank(line))
        .map(|line| blanks_before(line))
        .min();
    !value.contains(&b'\r')
        && !is_blank(lines[0])
        && !is_blank(lines[lines.len() - 1])
        && least_indent == Some(0)
}

fn blanks_before(line: &[u8]) -> usize {
    line.iter()
        .take_while(|&&byte| byte == b' ' || byte == b'\t')
        .count()
}

fn is_blank(line: &[u8]) -> bool {
    blanks_before(line) == line.len()
}

/// Breaks on or off here, and the level here.
#[derive(Clone, Copy)]
struct Mode {
    breaks: bool,
    level: usize,
}

impl Mode {
    fn from(settings: &Settings) -> Self {
        Self {
            breaks: settings.breaks,
            level: settings.level,
        }
    }

    fn inside(self) -> Self {
        Self {
            level: self.level + 1,
            ..self
        }
    }

    fn on_one_line(self) -> Self {
        Self {
            breaks: false,
            ..self
        }
    }
}

struct Printer<'a> {
    table: Table<'a>,
    prefix: &'a [u8],
    out: Vec<u8>,
}

type PrintOne<'a> = fn(&mut Printer<'a>, Mode, usize);

impl<'a> Printer<'a> {
    fn new(table: Table<'a>, settings: &'a Settings) -> Self {
        Self {
            table,
            prefix: settings.prefix.as_bytes(),
            out: Vec::new(),
        }
    }

    fn put(&mut self, text: &[u8]) {
        self.out.extend_from_slice(text);
    }

    fn text(&mut self, node: usize) {
        self.put(self.table.text(node));
    }

    fn of(&self, node: usize, kind: u32) -> Vec<usize> {
        self.table.children_of(node, kind).collect()
    }

    /// A new line, or `otherwise` where breaks are off.
    fn new_line(&mut self, mode: Mode, otherwise: &[u8]) {
        if !mode.breaks {
            return self.put(otherwise);
        }
        self.put(b"\n");
        for _ in 0..mode.level {
            self.put(self.prefix);
        }
    }

    fn document(&mut self, mode: Mode) {
        let table = self.table;
        for definition in table.children(0) {
            let is_first = definition == 1;
            if !is_first {
                if mode.breaks {
                    self.put(b"\n");
                }
                self.new_line(mode, b" ");
            }
            self.definition(mode, definition, is_first);
        }
        if mode.breaks && table.nodes() > 1 {
            self.put(b"\n");
        }
    }

    fn definition(&mut self, mode: Mode, node: usize, is_first: bool) {
        match self.table.kind(node) {
            kind::OPERATION => self.operation(mode, node, is_first),
            kind::FRAGMENT => self.fragment(mode, node),
            kind::DIRECTIVE_DEFINITION => self.directive_definition(mode, node),
            _ => self.schema_or_type(mode, node),
        }
    }

    fn operation(&mut self, mode: Mode, node: usize, is_first: bool) {
        let variables = self.of(node, kind::VARIABLE_DEFINITION);
        let directives = self.of(node, kind::DIRECTIVE);
        let variant = self.table.variant(node);
        let name = self.table.text(node);
        let could_be_short =
            variant == 0 && name.is_empty() && variables.is_empty() && directives.is_empty();
        if !(is_first && could_be_short) {
            self.put(OPERATIONS[variant as usize]);
            if !name.is_empty() {
                self.put(b" ");
                self.put(name);
            }
            self.comma_list(
                mode.on_one_line(),
                [b"(", b")"],
                &variables,
                Self::variable_definition,
            );
            self.directives(mode, node);
            self.put(b" ");
        }
        self.selection_set(mode, node);
    }

    fn variable_definition(&mut self, mode: Mode, node: usize) {
        self.put(b"$");
        self.text(node);
        self.type_and_default(mode, node);
        self.directives(mode, node);
    }

    fn fragment(&mut self, mode: Mode, node: usize) {
        self.put(b"fragment ");
        self.text(node);
        self.put(b" on ");
        self.text(node + 1);
        self.directives(mode, node);
        self.put(b" ");
        self.selection_set(mode, node);
    }

    fn directive_definition(&mut self, mode: Mode, node: usize) {
        self.description(mode, node);
        self.put(b"directive @");
        self.text(node);
        self.argument_definitions(mode, node);
        if self.table.variant(node) == 1 {
            self.put(b" repeatable");
        }
        for (count, location) in self.of(node, kind::LOCATION).into_iter().enumerate() {
            self.put(if count == 0 { b" on " } else { b" | " });
            self.put(LOCATIONS[self.table.variant(location) as usize].as_bytes());
        }
    }

    fn schema_or_type(&mut self, mode: Mode, node: usize) {
        let kind = self.table.kind(node);
        let is_extension = kind >= kind::SCHEMA_EXTENSION;
        self.description(mode, node);
        if is_extension {
            self.put(b"extend ");
        }
        self.put(KEYWORDS[(if is_extension { kind - 11 } else { kind - 4 }) as usize]);
        if !self.table.text(node).is_empty() {
            self.put(b" ");
            self.text(node);
        }
        self.names(node, kind::INTERFACE_NAME, b" implements ", b" & ");
        self.directives(mode, node);
        self.names(node, kind::UNION_MEMBER, b" = ", b" | ");
        let items: Vec<usize> = self
            .table
            .children(node)
            .filter(|&child| {
                matches!(
                    self.table.kind(child),
                    kind::INPUT_VALUE_DEFINITION
                        | kind::FIELD_DEFINITION
                        | kind::ENUM_VALUE_DEFINITION
                        | kind::ROOT_OPERATION
                )
            })
            .collect();
        if !items.is_empty() {
            self.put(b" ");
            self.braces(mode, &items, Self::item);
        }
    }

    fn item(&mut self, mode: Mode, node: usize) {
        match self.table.kind(node) {
            kind::INPUT_VALUE_DEFINITION => self.input_value(mode, node),
            kind::FIELD_DEFINITION => {
                self.description(mode, node);
                self.text(node);
                self.argument_definitions(mode, node);
                self.type_and_default(mode, node);
                self.directives(mode, node);
            }
            kind::ENUM_VALUE_DEFINITION => {
                self.description(mode, node);
                self.text(node);
                self.directives(mode, node);
            }
            _ => {
                self.put(OPERATIONS[self.table.variant(node) as usize]);
                self.put(b": ");
                self.text(node);
            }
        }
    }

    fn names(&mut self, node: usize, kind: u32, before: &[u8], between: &[u8]) {
        for (count, name) in self.of(node, kind).into_iter().enumerate() {
            self.put(if count == 0 { before } else { between });
            self.text(name);
        }
    }

    fn description(&mut self, mode: Mode, node: usize) {
        let table = self.table;
        for description in table.children_of(node, kind::DESCRIPTION) {
            self.literal(mode, table.text(description), true);
            self.new_line(mode, b" ");
        }
    }

    /// Breaks are off unless a definition among them has a description or a directive.
    fn argument_definitions(&mut self, mode: Mode, node: usize) {
        let arguments = self.of(node, kind::INPUT_VALUE_DEFINITION);
        let wants_lines = arguments.iter().any(|&argument| {
            self.table
                .children(argument)
                .any(|part| matches!(self.table.kind(part), kind::DESCRIPTION | kind::DIRECTIVE))
        });
        let mode = if wants_lines {
            mode
        } else {
            mode.on_one_line()
        };
        self.comma_list(mode, [b"(", b")"], &arguments, Self::input_value);
    }

    fn input_value(&mut self, mode: Mode, node: usize) {
        self.description(mode, node);
        self.text(node);
        self.type_and_default(mode, node);
        self.directives(mode, node);
    }

    fn type_and_default(&mut self, mode: Mode, node: usize) {
        let table = self.table;
        for child in table.children(node) {
            match table.kind(child) {
                kind::NAMED_TYPE | kind::LIST_TYPE => {
                    self.put(b": ");
                    self.ty(child);
                }
                kind::NULL..=kind::OBJECT_VALUE => {
                    self.put(b" = ");
                    self.value(mode, child);
                }
                _ => {}
            }
        }
    }

    fn ty(&mut self, node: usize) {
        if self.table.kind(node) == kind::LIST_TYPE {
            self.put(b"[");
            self.ty(node + 1);
            self.put(b"]");
        } else {
            self.text(node);
        }
        if self.table.variant(node) == 1 {
            self.put(b"!");
        }
    }

    fn directives(&mut self, mode: Mode, node: usize) {
        for directive in self.of(node, kind::DIRECTIVE) {
            self.put(b" @");
            self.text(directive);
            self.arguments(mode, directive);
        }
    }

    fn arguments(&mut self, mode: Mode, node: usize) {
        let arguments = self.of(node, kind::ARGUMENT);
        self.comma_list(
            mode.on_one_line(),
            [b"(", b")"],
            &arguments,
            Self::named_value,
        );
    }

    /// `a: 1`, an argument or an object's field.
    fn named_value(&mut self, mode: Mode, node: usize) {
        self.text(node);
        self.put(b": ");
        self.value(mode, node + 1);
    }

    fn value(&mut self, mode: Mode, node: usize) {
        let items: Vec<usize> = self.table.children(node).collect();
        match self.table.kind(node) {
            kind::NULL => self.put(b"null"),
            kind::BOOLEAN if self.table.variant(node) == 1 => self.put(b"true"),
            kind::BOOLEAN => self.put(b"false"),
            kind::STRING => self.literal(mode, self.table.text(node), false),
            kind::VARIABLE => {
                self.put(b"$");
                self.text(node);
            }
            kind::LIST if items.is_empty() => self.put(b"[]"),
            kind::LIST => self.comma_list(mode, [b"[", b"]"], &items, Self::value),
            kind::OBJECT_VALUE if items.is_empty() => self.put(b"{}"),
            kind::OBJECT_VALUE => self.comma_list(mode, [b"{", b"}"], &items, Self::named_value),
            _ => self.text(node),
        }
    }

    fn selection_set(&mut self, mode: Mode, node: usize) {
        let table = self.table;
        let selections: Vec<usize> = table
            .children(node)
            .filter(|&child| {
                matches!(
                    table.kind(child),
                    kind::FIELD | kind::FRAGMENT_SPREAD | kind::INLINE_FRAGMENT
                )
            })
            .collect();
        if !selections.is_empty() {
            self.braces(mode, &selections, Self::selection);
        }
    }

    fn selection(&mut self, mode: Mode, node: usize) {
        let table = self.table;
        match table.kind(node) {
            kind::FIELD => {
                for alias in table.children_of(node, kind::ALIAS) {
                    self.text(alias);
                    self.put(b": ");
                }
            }
            kind::INLINE_FRAGMENT if !table.text(node).is_empty() => self.put(b"... on "),
            _ => self.put(b"..."),
        }
        self.text(node);
        self.arguments(mode, node);
        self.directives(mode, node);
        let has_selections = table
            .children(node)
            .any(|child| table.kind(child) >= kind::FIELD && table.kind(child) != kind::ALIAS);
        if has_selections {
            self.put(b" ");
            self.selection_set(mode, node);
        }
    }

    fn braces(&mut self, mode: Mode, items: &[usize], print_one: PrintOne<'a>) {
        self.put(b"{");
        for &item in items {
            self.new_line(mode.inside(), b" ");
            print_one(self, mode.inside(), item);
        }
        self.new_line(mode, b" ");
        self.put(b"}");
    }

    /// Nothing at all where there are no items.
    fn comma_list(
        &mut self,
        mode: Mode,
        [open, close]: [&[u8]; 2],
        items: &[usize],
        print_one: PrintOne<'a>,
    ) {
        if items.is_empty() {
            return;
        }
        self.put(open);
        for (count, &item) in items.iter().enumerate() {
            if count > 0 {
                self.put(b",");
            }
            self.new_line(mode.inside(), if count > 0 { b" " } else { b"" });
            print_one(self, mode.inside(), item);
        }
        if mode.breaks {
            self.put(b",");
        }
        self.new_line(mode, b"");
        self.put(close);
    }

    fn literal(&mut self, mode: Mode, value: &[u8], is_description: bool) {
        let wants_block = is_description || value.contains(&b'\n');
        if mode.breaks && wants_block && can_be_block(value) {
            self.block(mode, value);
        } else {
            self.quoted(value);
        }
    }

    fn quoted(&mut self, value: &[u8]) {
        self.put(b"\"");
        for &byte in value {
            match byte {
                b'"' => self.put(b"\\\""),
                b'\\' => self.put(b"\\\\"),
                0x08 => self.put(b"\\b"),
                0x0A => self.put(b"\\n"),
                0x0C => self.put(b"\\f"),
                0x0D => self.put(b"\\r"),
                0x09 | 0x20.. => self.put(&[byte]),
                _ => {
                    const HEX: &[u8; 16] = b"0123456789ABCDEF";
                    self.put(b"\\u00");
                    self.put(&[HEX[byte as usize / 16], HEX[byte as usize % 16]]);
                }
            }
        }
        self.put(b"\"");
    }

    fn block(&mut self, mode: Mode, value: &[u8]) {
        let multi_line = value.contains(&b'\n')
            || value.len() > 70
            || matches!(value.last(), Some(b'"' | b'\\'));
        self.put(b"\"\"\"");
        if !multi_line {
            self.block_line(value);
        } else {
            for line in value.split(|&byte| byte == b'\n') {
                if line.is_empty() {
                    self.put(b"\n");
                } else {
                    self.new_line(mode, b"");
                    self.block_line(line);
                }
            }
            self.new_line(mode, b"");
        }
        self.put(b"\"\"\"");
    }

    fn block_line(&mut self, line: &[u8]) {
        let mut rest = line;
        while let Some((&byte, after)) = rest.split_first() {
            if let Some(after) = rest.strip_prefix(b"\"\"\"") {
                self.put(b"\\\"\"\"");
                rest = after;
            } else {
                self.put(&[byte]);
                rest = after;
            }
        }
    }
}

const OPERATIONS: [&[u8]; 3] = [b"query", b"mutation", b"subscription"];

const KEYWORDS: [&[u8]; 7] = [
    b"schema",
    b"scalar",
    b"type",
    b"interface",
    b"union",
    b"enum",
    b"input",
];

const LOCATIONS: [&str; 19] = [
    "QUERY",
    "MUTATION",
    "SUBSCRIPTION",
    "FIELD",
    "FRAGMENT_DEFINITION",
    "FRAGMENT_SPREAD",
    "INLINE_FRAGMENT",
    "VARIABLE_DEFINITION",
    "SCHEMA",
    "SCALAR",
    "OBJECT",
    "FIELD_DEFINITION",
    "ARGUMENT_DEFINITION",
    "INTERFACE",
    "UNION",
    "ENUM",
    "ENUM_VALUE",
    "INPUT_OBJECT",
    "INPUT_FIELD_DEFINITION",
];
