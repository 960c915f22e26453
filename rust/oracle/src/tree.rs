//! From an accepted table to the crate's syntax tree. On other tables these functions may panic.

use crate::ast::{self, *};
use crate::table::{kind, Table};
use crate::{parser, Name, Node};

/// The document that an accepted table stands for.
pub fn document(words: &[u32], pool: &[u8]) -> Document {
    let table = Table { words, pool };
    Document {
        sources: parser::SourceMap,
        definitions: table
            .children(0)
            .map(|at| Reader { table, at }.definition())
            .collect(),
    }
}

/// One node of a table.
#[derive(Clone, Copy)]
struct Reader<'a> {
    table: Table<'a>,
    at: usize,
}

impl<'a> Reader<'a> {
    fn kind(self) -> u32 {
        self.table.kind(self.at)
    }

    fn children(self) -> impl Iterator<Item = Reader<'a>> {
        let table = self.table;
        table.children(self.at).map(move |at| Reader { table, at })
    }

    fn of(self, kind: u32) -> impl Iterator<Item = Reader<'a>> {
        self.children().filter(move |child| child.kind() == kind)
    }

    fn each<T>(self, kind: u32, read: impl Fn(Reader<'a>) -> T) -> Vec<Node<T>> {
        self.of(kind).map(|child| Node::new(read(child))).collect()
    }

    fn text(self) -> &'a str {
        std::str::from_utf8(self.table.text(self.at)).unwrap()
    }

    fn name(self) -> Name {
        self.text().into()
    }

    fn optional_name(self) -> Option<Name> {
        (!self.text().is_empty()).then(|| self.name())
    }

    fn names(self, kind: u32) -> Vec<Name> {
        self.of(kind).map(Reader::name).collect()
    }

    fn description(self) -> Option<Node<str>> {
        self.of(kind::DESCRIPTION)
            .next()
            .map(|child| child.text().into())
    }

    fn directives(self) -> DirectiveList {
        DirectiveList(self.each(kind::DIRECTIVE, Reader::directive))
    }

    fn directive(self) -> Directive {
        Directive {
            name: self.name(),
            arguments: self.arguments(),
        }
    }

    fn arguments(self) -> Vec<Node<Argument>> {
        self.each(kind::ARGUMENT, |argument| Argument {
            name: argument.name(),
            value: argument.value_below().unwrap(),
        })
    }

    fn operation_type(self) -> OperationType {
        match self.table.variant(self.at) {
            0 => OperationType::Query,
            1 => OperationType::Mutation,
            _ => OperationType::Subscription,
        }
    }

    fn location(self) -> DirectiveLocation {
        use DirectiveLocation::*;
        [
            Query,
            Mutation,
            Subscription,
            Field,
            FragmentDefinition,
            FragmentSpread,
            InlineFragment,
            VariableDefinition,
            Schema,
            Scalar,
            Object,
            FieldDefinition,
            ArgumentDefinition,
            Interface,
            Union,
            Enum,
            EnumValue,
            InputObject,
            InputFieldDefinition,
        ][self.table.variant(self.at) as usize]
    }

    fn type_below(self) -> Type {
        self.children()
            .find(|child| matches!(child.kind(), kind::NAMED_TYPE | kind::LIST_TYPE))
            .unwrap()
            .ty()
    }

    fn ty(self) -> Type {
        match (self.kind(), self.table.variant(self.at)) {
            (kind::NAMED_TYPE, 0) => Type::Named(self.name()),
            (kind::NAMED_TYPE, _) => Type::NonNullNamed(self.name()),
            (_, 0) => Type::List(Box::new(self.type_below())),
            (_, _) => Type::NonNullList(Box::new(self.type_below())),
        }
    }

    fn value_below(self) -> Option<Node<Value>> {
        self.children()
            .find(|child| (kind::NULL..=kind::OBJECT_VALUE).contains(&child.kind()))
            .map(|child| Node::new(child.value()))
    }

    fn value(self) -> Value {
        match self.kind() {
            kind::NULL => Value::Null,
            kind::BOOLEAN => Value::Boolean(self.table.variant(self.at) == 1),
            kind::ENUM_VALUE => Value::Enum(self.name()),
            kind::STRING => Value::String(self.text().into()),
            kind::VARIABLE => Value::Variable(self.name()),
            kind::FLOAT => Value::Float(FloatValue::new_parsed(self.text())),
            kind::INT => Value::Int(IntValue::new_parsed(self.text())),
            kind::LIST => Value::List(
                self.children()
                    .map(|item| Node::new(item.value()))
                    .collect(),
            ),
            kind::OBJECT_VALUE => Value::Object(
                self.children()
                    .map(|field| (field.name(), field.value_below().unwrap()))
                    .collect(),
            ),
            other => unreachable!("kind {other} is no value"),
        }
    }

    fn selections(self) -> Vec<Selection> {
        self.children()
            .filter_map(|child| match child.kind() {
                kind::FIELD => Some(Selection::Field(Node::new(child.field()))),
                kind::FRAGMENT_SPREAD => {
                    Some(Selection::FragmentSpread(Node::new(FragmentSpread {
                        fragment_name: child.name(),
                        directives: child.directives(),
                    })))
                }
                kind::INLINE_FRAGMENT => {
                    Some(Selection::InlineFragment(Node::new(InlineFragment {
                        type_condition: child.optional_name(),
                        directives: child.directives(),
                        selection_set: child.selections(),
                    })))
                }
                _ => None,
            })
            .collect()
    }

    fn field(self) -> ast::Field {
        ast::Field {
            alias: self.names(kind::ALIAS).pop(),
            name: self.name(),
            arguments: self.arguments(),
            directives: self.directives(),
            selection_set: self.selections(),
        }
    }

    fn variables(self) -> Vec<Node<VariableDefinition>> {
        self.each(kind::VARIABLE_DEFINITION, |variable| VariableDefinition {
            name: variable.name(),
            ty: Node::new(variable.type_below()),
            default_value: variable.value_below(),
            directives: variable.directives(),
        })
    }

    fn input_values(self) -> Vec<Node<InputValueDefinition>> {
        self.each(kind::INPUT_VALUE_DEFINITION, |input| InputValueDefinition {
            description: input.description(),
            name: input.name(),
            ty: Node::new(input.type_below()),
            default_value: input.value_below(),
            directives: input.directives(),
        })
    }

    fn fields(self) -> Vec<Node<FieldDefinition>> {
        self.each(kind::FIELD_DEFINITION, |field| FieldDefinition {
            description: field.description(),
            name: field.name(),
            arguments: field.input_values(),
            ty: field.type_below(),
            directives: field.directives(),
        })
    }

    fn enum_values(self) -> Vec<Node<EnumValueDefinition>> {
        self.each(kind::ENUM_VALUE_DEFINITION, |value| EnumValueDefinition {
            description: value.description(),
            value: value.name(),
            directives: value.directives(),
        })
    }

    fn root_operations(self) -> Vec<Node<(OperationType, NamedType)>> {
        self.each(kind::ROOT_OPERATION, |root| {
            (root.operation_type(), root.name())
        })
    }

    fn definition(self) -> Definition {
        match self.kind() {
            kind::OPERATION => Definition::OperationDefinition(Node::new(OperationDefinition {
                operation_type: self.operation_type(),
                name: self.optional_name(),
                variables: self.variables(),
                directives: self.directives(),
                selection_set: self.selections(),
            })),
            kind::FRAGMENT => Definition::FragmentDefinition(Node::new(FragmentDefinition {
                name: self.name(),
                type_condition: self.names(kind::NAMED_TYPE).pop().unwrap(),
                directives: self.directives(),
                selection_set: self.selections(),
            })),
            kind::DIRECTIVE_DEFINITION => {
                Definition::DirectiveDefinition(Node::new(DirectiveDefinition {
                    description: self.description(),
                    name: self.name(),
                    arguments: self.input_values(),
                    repeatable: self.table.variant(self.at) == 1,
                    locations: self.of(kind::LOCATION).map(Reader::location).collect(),
                }))
            }
            kind::SCHEMA => Definition::SchemaDefinition(Node::new(SchemaDefinition {
                description: self.description(),
                directives: self.directives(),
                root_operations: self.root_operations(),
            })),
            kind::SCHEMA_EXTENSION => Definition::SchemaExtension(Node::new(SchemaExtension {
                directives: self.directives(),
                root_operations: self.root_operations(),
            })),
            _ => self.type_definition(),
        }
    }

    fn type_definition(self) -> Definition {
        match self.kind() {
            kind::SCALAR => Definition::ScalarTypeDefinition(Node::new(ScalarTypeDefinition {
                description: self.description(),
                name: self.name(),
                directives: self.directives(),
            })),
            kind::OBJECT => Definition::ObjectTypeDefinition(Node::new(ObjectTypeDefinition {
                description: self.description(),
                name: self.name(),
                implements_interfaces: self.names(kind::INTERFACE_NAME),
                directives: self.directives(),
                fields: self.fields(),
            })),
            kind::INTERFACE => {
                Definition::InterfaceTypeDefinition(Node::new(InterfaceTypeDefinition {
                    description: self.description(),
                    name: self.name(),
                    implements_interfaces: self.names(kind::INTERFACE_NAME),
                    directives: self.directives(),
                    fields: self.fields(),
                }))
            }
            kind::UNION => Definition::UnionTypeDefinition(Node::new(UnionTypeDefinition {
                description: self.description(),
                name: self.name(),
                directives: self.directives(),
                members: self.names(kind::UNION_MEMBER),
            })),
            kind::ENUM => Definition::EnumTypeDefinition(Node::new(EnumTypeDefinition {
                description: self.description(),
                name: self.name(),
                directives: self.directives(),
                values: self.enum_values(),
            })),
            kind::INPUT_OBJECT => {
                Definition::InputObjectTypeDefinition(Node::new(InputObjectTypeDefinition {
                    description: self.description(),
                    name: self.name(),
                    directives: self.directives(),
                    fields: self.input_values(),
                }))
            }
            _ => self.type_extension(),
        }
    }

    fn type_extension(self) -> Definition {
        match self.kind() {
            kind::SCALAR_EXTENSION => {
                Definition::ScalarTypeExtension(Node::new(ScalarTypeExtension {
                    name: self.name(),
                    directives: self.directives(),
                }))
            }
            kind::OBJECT_EXTENSION => {
                Definition::ObjectTypeExtension(Node::new(ObjectTypeExtension {
                    name: self.name(),
                    implements_interfaces: self.names(kind::INTERFACE_NAME),
                    directives: self.directives(),
                    fields: self.fields(),
                }))
            }
            kind::INTERFACE_EXTENSION => {
                Definition::InterfaceTypeExtension(Node::new(InterfaceTypeExtension {
                    name: self.name(),
                    implements_interfaces: self.names(kind::INTERFACE_NAME),
                    directives: self.directives(),
                    fields: self.fields(),
                }))
            }
            kind::UNION_EXTENSION => {
                Definition::UnionTypeExtension(Node::new(UnionTypeExtension {
                    name: self.name(),
                    directives: self.directives(),
                    members: self.names(kind::UNION_MEMBER),
                }))
            }
            kind::ENUM_EXTENSION => Definition::EnumTypeExtension(Node::new(EnumTypeExtension {
                name: self.name(),
                directives: self.directives(),
                values: self.enum_values(),
            })),
            kind::INPUT_OBJECT_EXTENSION => {
                Definition::InputObjectTypeExtension(Node::new(InputObjectTypeExtension {
                    name: self.name(),
                    directives: self.directives(),
                    fields: self.input_values(),
                }))
            }
            other => unreachable!("kind {other} is no definition"),
        }
    }
}
