//! Stands in for executable documents (queries), which are not taken over: only the types that the listed files name.

pub mod from_ast;
pub mod validation;

use crate::ast;
pub use crate::ast::VariableDefinition;
use crate::coordinate::FieldArgumentCoordinate;
use crate::coordinate::TypeAttributeCoordinate;
use crate::parser::SourceMap;
use crate::parser::SourceSpan;
use crate::validation::DiagnosticList;
use crate::Name;
use crate::Schema;
use std::fmt;

#[derive(Debug, Clone)]
pub struct ExecutableDocument;

pub struct ExecutableDocumentBuilder<'e> {
    pub(crate) errors: &'e mut DiagnosticList,
}

impl ExecutableDocumentBuilder<'_> {
    pub(crate) fn add_ast_document(&mut self, _document: &ast::Document, _are_errors: bool) {
        unimplemented!("queries are not taken over")
    }
}

pub struct FieldSet {
    pub sources: SourceMap,
    pub selection_set: SelectionSet,
}

pub struct SelectionSet;

impl SelectionSet {
    pub fn new(_type_name: ast::NamedType) -> Self {
        SelectionSet
    }

    pub(crate) fn extend_from_ast(&mut self, _schema: Option<&Schema>, _errors: &mut from_ast::BuildErrors<'_>, _selections: &[ast::Selection]) {
        unimplemented!("queries are not taken over")
    }
}

#[derive(Debug, Clone)]
pub(crate) enum ExecutableDefinitionName {
    AnonymousOperation(ast::OperationType),
}

#[derive(Debug, Clone)]
pub(crate) struct SelectionPath {
    pub(crate) root: ExecutableDefinitionName,
    pub(crate) nested_fields: Vec<Name>,
}

impl fmt::Display for SelectionPath {
    fn fmt(&self, f: &mut fmt::Formatter<'_>) -> fmt::Result {
        write!(f, "{:?}", self.nested_fields)
    }
}

#[derive(Debug, Clone)]
pub(crate) struct ConflictingFieldType {
    pub alias: Name,
    pub original_location: Option<SourceSpan>,
    pub original_coordinate: TypeAttributeCoordinate,
    pub original_type: Name,
    pub conflicting_location: Option<SourceSpan>,
    pub conflicting_coordinate: TypeAttributeCoordinate,
    pub conflicting_type: Name,
}

#[derive(Debug, Clone)]
pub(crate) struct ConflictingFieldArgument {
    pub alias: Name,
    pub original_location: Option<SourceSpan>,
    pub original_coordinate: FieldArgumentCoordinate,
    pub original_value: Option<ast::Value>,
    pub conflicting_location: Option<SourceSpan>,
    pub conflicting_coordinate: FieldArgumentCoordinate,
    pub conflicting_value: Option<ast::Value>,
}

#[derive(Debug, Clone)]
pub(crate) struct ConflictingFieldName {
    pub alias: Name,
    pub original_location: Option<SourceSpan>,
    pub original_selection: TypeAttributeCoordinate,
    pub conflicting_location: Option<SourceSpan>,
    pub conflicting_selection: TypeAttributeCoordinate,
}

#[derive(thiserror::Error, Debug, Clone)]
#[error("an error of an executable document")]
pub(crate) enum BuildError {
    TypeSystemDefinition { name: Option<Name> },
    AmbiguousAnonymousOperation,
    OperationNameCollision { name_at_previous_location: Name },
    FragmentNameCollision { name_at_previous_location: Name },
    UndefinedRootOperation { operation_type: &'static str },
    UndefinedTypeInNamedFragmentTypeCondition { type_name: Name },
    UndefinedTypeInInlineFragmentTypeCondition { type_name: Name, path: SelectionPath },
    SubselectionOnScalarType { type_name: Name, path: SelectionPath },
    SubselectionOnEnumType { type_name: Name, path: SelectionPath },
    UndefinedField { type_name: Name, field_name: Name, path: SelectionPath },
    SubscriptionUsesMultipleFields { name: Option<Name>, fields: Vec<Name> },
    SubscriptionUsesIntrospection { name: Option<Name>, field: Name },
    SubscriptionUsesConditionalSelection { name: Option<Name> },
    DuplicateDeferLabel { original_location: Option<SourceSpan> },
    DeferLabelMustNotBeVariable,
    DeferOnRootMutationOrSubscriptionField { operation_type: ast::OperationType },
    DeferInSubscriptionMustBeConditional,
    ConflictingFieldType(Box<ConflictingFieldType>),
    ConflictingFieldArgument(Box<ConflictingFieldArgument>),
    ConflictingFieldName(Box<ConflictingFieldName>),
}
