//! Stands in for the error of a response, which only a diagnostic is turned into.

use crate::parser::SourceMap;
use crate::parser::SourceSpan;

pub struct GraphQLError {
    pub message: String,
}

impl GraphQLError {
    pub fn new(message: impl Into<String>, _location: Option<SourceSpan>, _sources: &SourceMap) -> Self {
        GraphQLError { message: message.into() }
    }
}
