//! Stands in for validating schemas.

use super::Schema;
use crate::validation::DiagnosticList;

pub(crate) fn validate_schema(_errors: &mut DiagnosticList, _schema: &mut Schema) {
    unimplemented!("validation is not taken over")
}
