//! Stands in for schema coordinates, which only appear in diagnostics text.

use crate::Name;
use std::fmt;

#[derive(Debug, Clone)]
pub struct TypeAttributeCoordinate {
    pub ty: Name,
    pub attribute: Name,
}

#[derive(Debug, Clone)]
pub struct FieldArgumentCoordinate {
    pub ty: Name,
    pub field: Name,
    pub argument: Name,
}

#[derive(Debug, Clone)]
pub struct DirectiveArgumentCoordinate {
    pub directive: Name,
    pub argument: Name,
}

#[derive(Debug, Clone)]
pub enum SchemaCoordinate {
    TypeAttribute(TypeAttributeCoordinate),
    FieldArgument(FieldArgumentCoordinate),
    DirectiveArgument(DirectiveArgumentCoordinate),
}

impl fmt::Display for TypeAttributeCoordinate {
    fn fmt(&self, f: &mut fmt::Formatter<'_>) -> fmt::Result {
        write!(f, "{}.{}", self.ty, self.attribute)
    }
}

impl fmt::Display for FieldArgumentCoordinate {
    fn fmt(&self, f: &mut fmt::Formatter<'_>) -> fmt::Result {
        write!(f, "{}.{}({}:)", self.ty, self.field, self.argument)
    }
}

impl fmt::Display for DirectiveArgumentCoordinate {
    fn fmt(&self, f: &mut fmt::Formatter<'_>) -> fmt::Result {
        write!(f, "@{}({}:)", self.directive, self.argument)
    }
}

impl fmt::Display for SchemaCoordinate {
    fn fmt(&self, f: &mut fmt::Formatter<'_>) -> fmt::Result {
        match self {
            SchemaCoordinate::TypeAttribute(coordinate) => coordinate.fmt(f),
            SchemaCoordinate::FieldArgument(coordinate) => coordinate.fmt(f),
            SchemaCoordinate::DirectiveArgument(coordinate) => coordinate.fmt(f),
        }
    }
}
