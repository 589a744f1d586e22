//! Stands in for writing documents out as text: the name that `ast` hands on, and how a type is shown in diagnostics.

use super::Type;
use std::fmt;

pub struct Serialize<'a, T>(pub &'a T);

impl fmt::Display for Type {
    fn fmt(&self, f: &mut fmt::Formatter<'_>) -> fmt::Result {
        match self {
            Type::Named(name) => name.fmt(f),
            Type::NonNullNamed(name) => write!(f, "{name}!"),
            Type::List(inner) => write!(f, "[{inner}]"),
            Type::NonNullList(inner) => write!(f, "[{inner}]!"),
        }
    }
}
