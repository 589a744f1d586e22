//! Stands in for building executable documents.

use super::ExecutableDocument;
use super::SelectionPath;
use crate::ast;
use crate::validation::DiagnosticList;
use crate::Schema;

pub(crate) struct BuildErrors<'a> {
    pub(crate) errors: &'a mut DiagnosticList,
    pub(crate) path: SelectionPath,
}

pub(crate) fn document_from_ast(
    _schema: Option<&Schema>,
    _document: &ast::Document,
    _errors: &mut DiagnosticList,
    _type_system_definitions_are_errors: bool,
) -> ExecutableDocument {
    unimplemented!("queries are not taken over")
}
