//! Stands for the parts of the crate outside `ast` that `ast/mod.rs` and `ast/serialize.rs` name.

use std::fmt;
use std::ops::Deref;
use std::sync::Arc;

/// The crate's shared pointer to a node, which also holds the place in the source.
#[derive(Debug, Eq, PartialEq, Hash)]
pub struct Node<T: ?Sized>(Arc<T>);

impl<T: ?Sized> Clone for Node<T> {
    fn clone(&self) -> Self {
        Self(self.0.clone())
    }
}

impl<T> Node<T> {
    pub fn new(node: T) -> Self {
        Self(Arc::new(node))
    }
}

impl From<&str> for Node<str> {
    fn from(text: &str) -> Self {
        Self(text.into())
    }
}

impl<T: ?Sized> Deref for Node<T> {
    type Target = T;

    fn deref(&self) -> &T {
        &self.0
    }
}

impl<T: ?Sized + fmt::Display> fmt::Display for Node<T> {
    fn fmt(&self, f: &mut fmt::Formatter<'_>) -> fmt::Result {
        self.0.fmt(f)
    }
}

/// The crate's name, which it checks; here the table was checked before.
#[derive(Clone, Debug, Eq, PartialEq, Hash)]
pub struct Name(Arc<str>);

impl From<&str> for Name {
    fn from(text: &str) -> Self {
        Self(text.into())
    }
}

impl Deref for Name {
    type Target = str;

    fn deref(&self) -> &str {
        &self.0
    }
}

impl fmt::Display for Name {
    fn fmt(&self, f: &mut fmt::Formatter<'_>) -> fmt::Result {
        self.0.fmt(f)
    }
}

pub mod parser {
    /// The crate's map from file numbers to source texts.
    #[derive(Clone, Default)]
    pub struct SourceMap;
}

/// Types that `serialize.rs` only gives a Display. No value of them exists here.
macro_rules! no_value {
    ($($name: ident)+) => {
        $(
            #[derive(Clone, Debug)]
            pub enum $name {}

            impl $name {
                pub(crate) fn serialize(&self) -> crate::ast::Serialize<'_, Self> {
                    match *self {}
                }

                pub(crate) fn serialize_impl(
                    &self,
                    _: &mut crate::ast::serialize::State,
                ) -> std::fmt::Result {
                    match *self {}
                }
            }
        )+
    };
}

no_value! { Schema ExecutableDocument }

pub mod schema {
    no_value! { DirectiveList ExtendedType ScalarType ObjectType InterfaceType EnumType UnionType InputObjectType }
}

pub mod executable {
    no_value! { Operation Fragment SelectionSet Selection Field InlineFragment FragmentSpread FieldSet }
}
