//! Stands in for validating executable documents.

use super::ExecutableDocument;
use crate::validation::DiagnosticList;
use crate::Schema;

pub(crate) fn validate_executable_document(_errors: &mut DiagnosticList, _schema: &Schema, _document: &ExecutableDocument) {
    unimplemented!("validation is not taken over")
}

pub(crate) fn validate_standalone_executable(_errors: &mut DiagnosticList, _document: &ExecutableDocument) {
    unimplemented!("validation is not taken over")
}
