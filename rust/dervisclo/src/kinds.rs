//! The kinds of nodes, and what their variants stand for, under document 01's names and numbers.

/// What a node is. Document 01 calls 37 and 43, the values, Enum and Object too; here they have names of their own.
///
/// ```
/// use dervisclo::NodeKind;
///
/// assert_eq!(NodeKind::Field.number(), 29);
/// assert_eq!(NodeKind::from_number(29), Some(NodeKind::Field));
/// ```
#[derive(Clone, Copy, Debug, Eq, Hash, PartialEq)]
#[repr(u32)]
pub enum NodeKind {
    /// The whole: definitions, any number. Node 0 and no other.
    Document = 0,
    /// A name or none; the variant is an [`OperationType`]. Variable definitions, directives, selections.
    Operation = 1,
    /// A name. A named type, directives, selections.
    Fragment = 2,
    /// A name; variant 1 is repeatable. A description or none, input values, locations.
    DirectiveDefinition = 3,
    /// No text. A description or none, directives, root operations.
    Schema = 4,
    /// A name. A description or none, directives.
    Scalar = 5,
    /// A name. A description or none, interface names, directives, field definitions.
    Object = 6,
    /// As an object.
    Interface = 7,
    /// A name. A description or none, directives, union members.
    Union = 8,
    /// A name. A description or none, directives, enum value definitions.
    Enum = 9,
    /// A name. A description or none, directives, input values.
    InputObject = 10,
    /// As a schema, with no description and at least one child.
    SchemaExtension = 11,
    /// As a scalar, with no description and at least one child.
    ScalarExtension = 12,
    /// As an object, with no description and at least one child.
    ObjectExtension = 13,
    /// As an interface, with no description and at least one child.
    InterfaceExtension = 14,
    /// As a union, with no description and at least one child.
    UnionExtension = 15,
    /// As an enum, with no description and at least one child.
    EnumExtension = 16,
    /// As an input object, with no description and at least one child.
    InputObjectExtension = 17,
    /// Any text in UTF-8.
    Description = 18,
    /// A name. Arguments.
    Directive = 19,
    /// A name. A value.
    Argument = 20,
    /// A name, without its `$`. A type, a value or none, directives.
    VariableDefinition = 21,
    /// A name: an argument of a field or directive definition, or a field of an input object. A description or none, a
    /// type, a value or none, directives.
    InputValueDefinition = 22,
    /// A name. A description or none, input values, a type, directives.
    FieldDefinition = 23,
    /// A name. A description or none, directives.
    EnumValueDefinition = 24,
    /// The name of a type; the variant is an [`OperationType`].
    RootOperation = 25,
    /// The name of an interface that a type implements.
    InterfaceName = 26,
    /// The name of a type.
    UnionMember = 27,
    /// No text; the variant is a [`Location`].
    Location = 28,
    /// A name. An alias or none, arguments, directives, selections or none.
    Field = 29,
    /// A name.
    Alias = 30,
    /// The name of a fragment. Directives.
    FragmentSpread = 31,
    /// The name of a type or none. Directives, selections.
    InlineFragment = 32,
    /// The name of a type; variant 1 is non-null.
    NamedType = 33,
    /// No text; variant 1 is non-null. A type.
    ListType = 34,
    /// A value: no text.
    Null = 35,
    /// A value: no text; variant 1 is true.
    Boolean = 36,
    /// A value: a name.
    EnumValue = 37,
    /// A value: any text in UTF-8.
    String = 38,
    /// A value: a name, without its `$`.
    Variable = 39,
    /// A value: a FloatValue as it is to be printed.
    Float = 40,
    /// A value: an IntValue as it is to be printed.
    Int = 41,
    /// A value: no text. Values.
    List = 42,
    /// A value: no text. Object fields.
    ObjectValue = 43,
    /// A name. A value.
    ObjectField = 44,
}

impl NodeKind {
    /// All kinds, each at its number.
    ///
    /// ```
    /// use dervisclo::NodeKind;
    ///
    /// for (number, kind) in NodeKind::ALL.into_iter().enumerate() {
    ///     assert_eq!(kind.number(), number as u32);
    /// }
    /// ```
    pub const ALL: [Self; 45] = [
        Self::Document,
        Self::Operation,
        Self::Fragment,
        Self::DirectiveDefinition,
        Self::Schema,
        Self::Scalar,
        Self::Object,
        Self::Interface,
        Self::Union,
        Self::Enum,
        Self::InputObject,
        Self::SchemaExtension,
        Self::ScalarExtension,
        Self::ObjectExtension,
        Self::InterfaceExtension,
        Self::UnionExtension,
        Self::EnumExtension,
        Self::InputObjectExtension,
        Self::Description,
        Self::Directive,
        Self::Argument,
        Self::VariableDefinition,
        Self::InputValueDefinition,
        Self::FieldDefinition,
        Self::EnumValueDefinition,
        Self::RootOperation,
        Self::InterfaceName,
        Self::UnionMember,
        Self::Location,
        Self::Field,
        Self::Alias,
        Self::FragmentSpread,
        Self::InlineFragment,
        Self::NamedType,
        Self::ListType,
        Self::Null,
        Self::Boolean,
        Self::EnumValue,
        Self::String,
        Self::Variable,
        Self::Float,
        Self::Int,
        Self::List,
        Self::ObjectValue,
        Self::ObjectField,
    ];

    /// Document 01's number of this kind: the first word of a node.
    ///
    /// ```
    /// assert_eq!(dervisclo::NodeKind::ObjectField.number(), 44);
    /// ```
    pub fn number(self) -> u32 {
        self as u32
    }

    /// The kind of this number, if there is one.
    ///
    /// ```
    /// assert_eq!(dervisclo::NodeKind::from_number(45), None);
    /// ```
    pub fn from_number(number: u32) -> Option<Self> {
        Self::ALL.get(usize::try_from(number).ok()?).copied()
    }
}

/// The variant of an operation and of a root operation.
///
/// ```
/// assert_eq!(dervisclo::OperationType::Subscription as u32, 2);
/// ```
#[derive(Clone, Copy, Debug, Eq, Hash, PartialEq)]
#[repr(u32)]
pub enum OperationType {
    /// `query`
    Query = 0,
    /// `mutation`
    Mutation = 1,
    /// `subscription`
    Subscription = 2,
}

/// Where a directive may stand: the variant of a location.
///
/// ```
/// assert_eq!(dervisclo::Location::InputFieldDefinition as u32, 18);
/// ```
#[derive(Clone, Copy, Debug, Eq, Hash, PartialEq)]
#[repr(u32)]
pub enum Location {
    /// `QUERY`
    Query = 0,
    /// `MUTATION`
    Mutation = 1,
    /// `SUBSCRIPTION`
    Subscription = 2,
    /// `FIELD`
    Field = 3,
    /// `FRAGMENT_DEFINITION`
    FragmentDefinition = 4,
    /// `FRAGMENT_SPREAD`
    FragmentSpread = 5,
    /// `INLINE_FRAGMENT`
    InlineFragment = 6,
    /// `VARIABLE_DEFINITION`
    VariableDefinition = 7,
    /// `SCHEMA`
    Schema = 8,
    /// `SCALAR`
    Scalar = 9,
    /// `OBJECT`
    Object = 10,
    /// `FIELD_DEFINITION`
    FieldDefinition = 11,
    /// `ARGUMENT_DEFINITION`
    ArgumentDefinition = 12,
    /// `INTERFACE`
    Interface = 13,
    /// `UNION`
    Union = 14,
    /// `ENUM`
    Enum = 15,
    /// `ENUM_VALUE`
    EnumValue = 16,
    /// `INPUT_OBJECT`
    InputObject = 17,
    /// `INPUT_FIELD_DEFINITION`
    InputFieldDefinition = 18,
}
