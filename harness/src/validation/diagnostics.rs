//! Stands in for the errors of validation, which is not taken over: the names that the listed files match on. Being below `validation`, it can also read a
//! diagnostic's private fields for the listing.

use super::Details;
use super::DiagnosticList;
use crate::ast;
use crate::coordinate::SchemaCoordinate;
use crate::coordinate::TypeAttributeCoordinate;
use crate::diagnostic::CliReport;
use crate::parser::SourceSpan;
use crate::schema::BuildError;
use crate::Name;
use crate::Node;

/// The errors of building a schema, in the order in which they were pushed.
pub(crate) fn build_errors(list: &DiagnosticList) -> Vec<(Option<SourceSpan>, &BuildError)> {
    let errors = list.diagnostics_data.iter();
    let told = errors.map(|data| match &data.details {
        Details::SchemaBuildError(error) => (data.location, error),
        other => panic!("not an error of building a schema: {other}"),
    });
    told.collect()
}

#[derive(thiserror::Error, Debug, Clone)]
#[error("an error of validation")]
pub(crate) enum DiagnosticData {
    RecursionError {},
    UniqueVariable { name: Name },
    UniqueArgument { name: Name },
    UniqueInputValue {},
    UndefinedArgument { name: Name, coordinate: SchemaCoordinate },
    UndefinedDefinition { name: Name },
    UndefinedDirective { name: Name },
    UndefinedVariable { name: Name },
    UndefinedFragment { name: Name },
    UndefinedEnumValue { value: Name, definition: Name },
    UndefinedInputValue { value: Name, definition: Name },
    MissingInterfaceField {},
    RequiredArgument { name: Name, coordinate: SchemaCoordinate, expected_type: Name },
    RequiredField { coordinate: SchemaCoordinate, expected_type: Name },
    TransitiveImplementedInterfaces {},
    OutputType {},
    InputType {},
    VariableInputType { name: Name, ty: Name },
    QueryRootOperationType,
    UnusedVariable { name: Name },
    RootOperationObjectType {},
    DuplicateRootOperationType {},
    UnionMemberObjectType {},
    UnsupportedLocation { name: Name, location: Name },
    UnsupportedValueType { ty: ast::Type, value: Name },
    IntCoercionError { value: String },
    FloatCoercionError { value: String },
    UniqueDirective { name: Name },
    MissingSubselection { coordinate: TypeAttributeCoordinate },
    InvalidFragmentTarget { name: Option<Name>, ty: Name },
    InvalidFragmentSpread { name: Option<Name>, type_name: Name, type_condition: Name },
    UnusedFragment { name: Name },
    DisallowedVariableUsage { variable: Name, variable_type: Name, argument_type: Name },
    RecursiveDirectiveDefinition {},
    RecursiveInterfaceDefinition {},
    RecursiveInputObjectDefinition {},
    RecursiveFragmentDefinition { name: Name, trace: Vec<Node<ast::FragmentSpread>> },
    DeeplyNestedType {},
    EmptyFieldSet {},
    EmptyValueSet {},
    EmptyMemberSet {},
    EmptyInputValueSet {},
    ReservedName {},
    InvalidImplementationFieldType { name: Name, interface: Name, field: Name, interface_type: Name, actual_type: Name },
    MissingInterfaceFieldArgument { name: Name, interface: Name, field: Name, argument: Name },
    InvalidImplementationFieldArgumentType { name: Name, interface: Name, field: Name, argument: Name, interface_type: Name, actual_type: Name },
    ExtraRequiredImplementationFieldArgument { name: Name, interface: Name, field: Name, argument: Name },
}

impl DiagnosticData {
    pub(crate) fn report(&self, _location: Option<SourceSpan>, _report: &mut CliReport) {
        unimplemented!("validation is not taken over")
    }
}
