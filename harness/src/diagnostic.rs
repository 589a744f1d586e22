//! Stands in for the printing of diagnostics, whose text is not compared.

use crate::parser::SourceMap;
use crate::parser::SourceSpan;
use std::fmt;

/// An error together with the sources that it points into.
pub struct Diagnostic<'s, T> {
    pub error: &'s T,
    pub sources: &'s SourceMap,
}

impl<T: fmt::Display> fmt::Display for Diagnostic<'_, T> {
    fn fmt(&self, f: &mut fmt::Formatter<'_>) -> fmt::Result {
        writeln!(f, "{}", self.error)
    }
}

impl<T: fmt::Display> fmt::Debug for Diagnostic<'_, T> {
    fn fmt(&self, f: &mut fmt::Formatter<'_>) -> fmt::Result {
        writeln!(f, "{}", self.error)
    }
}

/// Takes labels and notes, and keeps none.
pub struct CliReport;

impl CliReport {
    pub fn with_label_opt(&mut self, _location: Option<SourceSpan>, _message: impl fmt::Display) {}

    pub fn with_help(&mut self, _help: impl fmt::Display) {}

    pub fn with_note(&mut self, _note: impl fmt::Display) {}
}

pub trait ToCliReport: fmt::Display {
    fn location(&self) -> Option<SourceSpan>;

    fn report(&self, report: &mut CliReport);

    fn to_diagnostic<'s>(&'s self, sources: &'s SourceMap) -> Diagnostic<'s, Self>
    where
        Self: Sized,
    {
        Diagnostic { error: self, sources }
    }
}
