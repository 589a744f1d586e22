//! What the listing program prints, drawn by the crate's builder.

use crate::ast;
use crate::cards::item_card;
use crate::cards::name_card;
use crate::cards::set_built_in_definitions;
use crate::cards::Folder;
use crate::cards::NONE;
use crate::collections::IndexMap;
use crate::collections::IndexSet;
use crate::schema::BuildError;
use crate::schema::Component;
use crate::schema::ComponentName;
use crate::schema::ComponentOrigin;
use crate::schema::DirectiveList;
use crate::schema::ExtendedType;
use crate::schema::Schema;
use crate::schema::SchemaBuilder;
use crate::validation::diagnostics::build_errors;
use crate::validation::DiagnosticList;
use crate::Name;
use std::fmt::Write;
use std::panic::catch_unwind;
use std::path::Path;

/// A schema that was built, its errors in pushing order, and how many of them were pushed while documents were added.
pub struct Drawn {
    pub schema: Schema,
    pub errors: DiagnosticList,
    pub reading: usize,
}

/// The one refusal that the builder can tell: document 0 has a barred kind, or it alone gives an error.
const NOT_BUILT_IN: u32 = 6;

/// Why nothing was drawn.
pub enum Stop {
    /// Document 0 is refused; the number is the card's.
    Refused(u32),
    Undecided(String),
}

impl Stop {
    /// What is printed, or what is told as an error.
    pub fn told(self) -> Result<String, String> {
        match self {
            Stop::Refused(card) => Ok(format!("refused {NOT_BUILT_IN} {card}\n")),
            Stop::Undecided(why) => Err(why),
        }
    }
}

/// The builder with document 0 in the place of the built-in file.
pub fn opened(folder: &Folder) -> Result<SchemaBuilder, Stop> {
    let barred = |kind: &u32| matches!(kind, 1 | 2 | 4 | 11..=17);
    let zero = &folder.kinds[..folder.cards_of_document_0];
    if let Some(card) = zero.iter().position(barred) {
        return Err(Stop::Refused(card as u32));
    }
    set_built_in_definitions(folder.definitions.clone());
    std::panic::set_hook(Box::new(|_| {}));
    let builder = catch_unwind(SchemaBuilder::new);
    let _ = std::panic::take_hook();
    if let Ok(builder) = builder {
        return match &folder.undecided {
            Some(why) => Err(Stop::Undecided(why.clone())),
            None => Ok(builder),
        };
    }
    // The builder asserts that the built-in file gives no error. An empty one in its place tells which error came first.
    set_built_in_definitions(Vec::new());
    let document = ast::Document { sources: Default::default(), definitions: folder.definitions.clone() };
    let builder = SchemaBuilder::new().add_ast(&document);
    let (_, card, _) = error_row(&builder.errors, 0);
    Err(Stop::Refused(card))
}

/// Adds every document, turning the switches on in between.
pub fn filed(mut builder: SchemaBuilder, folder: &Folder) -> SchemaBuilder {
    for held in 1..=folder.documents.len() + 1 {
        if folder.adopt == Some(held) {
            builder = builder.adopt_orphan_extensions();
        }
        if folder.ignore == Some(held) {
            builder = builder.ignore_builtin_redefinitions();
        }
        if let Some(document) = folder.documents.get(held - 1) {
            builder = builder.add_ast(document);
        }
    }
    builder
}

pub fn draw(folder: &Folder) -> Result<Drawn, Stop> {
    let builder = filed(opened(folder)?, folder);
    let reading = builder.errors.len();
    let (schema, errors) = builder.build_inner();
    Ok(Drawn { schema, errors, reading })
}

pub fn run(path: &Path) -> Result<String, String> {
    let folder = Folder::read(path)?;
    let drawn = match draw(&folder) {
        Ok(drawn) => drawn,
        Err(stop) => return stop.told(),
    };
    let rows = rows(&drawn.schema, &folder.kinds);
    let mut text = format!("rows {}\n", rows.len());
    for (what, card, origin) in rows {
        writeln!(text, "{what} {} {}", word(card), word(origin)).unwrap();
    }
    let count = drawn.errors.len();
    writeln!(text, "errors {} {}", drawn.reading, count - drawn.reading).unwrap();
    for index in 0..count {
        let (number, card, earlier) = error_row(&drawn.errors, index);
        writeln!(text, "{number} {} {}", word(card), word(earlier)).unwrap();
    }
    Ok(text)
}

pub fn word(word: u32) -> String {
    if word == NONE {
        return "-".to_owned();
    }
    word.to_string()
}

pub fn origin_word(origin: &ComponentOrigin) -> u32 {
    match origin {
        ComponentOrigin::Definition => NONE,
        ComponentOrigin::Extension(id) => item_card(id.location()),
    }
}

type Row = (u32, u32, u32);

fn rows(schema: &Schema, kinds: &[u32]) -> Vec<Row> {
    let definition = &schema.schema_definition;
    let mut rows = vec![(4, item_card(definition.location()), NONE)];
    add_directives(&mut rows, &definition.directives);
    let roots = [&definition.query, &definition.mutation, &definition.subscription];
    for (what, root) in (26..).zip(roots) {
        if let Some(root) = root {
            rows.push((what, name_card(root.location()), origin_word(&root.origin)));
        }
    }
    for directive in schema.directive_definitions.values() {
        rows.push((3, item_card(directive.location()), NONE));
    }
    for definition in schema.types.values() {
        add_type(&mut rows, definition, kinds);
    }
    rows
}

fn add_type(rows: &mut Vec<Row>, definition: &ExtendedType, kinds: &[u32]) {
    let card = item_card(definition.location());
    let adopted = (12..=17).contains(&kinds[card as usize]);
    let origin = if adopted { card } else { NONE };
    let mut heading = |what| rows.push((what, card, origin));
    match definition {
        ExtendedType::Scalar(scalar) => {
            heading(5);
            add_directives(rows, &scalar.directives);
        }
        ExtendedType::Object(object) => {
            heading(6);
            add_names(rows, 21, &object.implements_interfaces);
            add_directives(rows, &object.directives);
            add_parts(rows, 22, &object.fields);
        }
        ExtendedType::Interface(interface) => {
            heading(7);
            add_names(rows, 21, &interface.implements_interfaces);
            add_directives(rows, &interface.directives);
            add_parts(rows, 22, &interface.fields);
        }
        ExtendedType::Union(union) => {
            heading(8);
            add_directives(rows, &union.directives);
            add_names(rows, 23, &union.members);
        }
        ExtendedType::Enum(enumeration) => {
            heading(9);
            add_directives(rows, &enumeration.directives);
            add_parts(rows, 24, &enumeration.values);
        }
        ExtendedType::InputObject(input) => {
            heading(10);
            add_directives(rows, &input.directives);
            add_parts(rows, 25, &input.fields);
        }
    }
}

fn add_directives(rows: &mut Vec<Row>, directives: &DirectiveList) {
    for directive in directives {
        rows.push((20, item_card(directive.location()), origin_word(&directive.origin)));
    }
}

fn add_names(rows: &mut Vec<Row>, what: u32, names: &IndexSet<ComponentName>) {
    for name in names {
        rows.push((what, name_card(name.location()), origin_word(&name.origin)));
    }
}

fn add_parts<T>(rows: &mut Vec<Row>, what: u32, parts: &IndexMap<Name, Component<T>>) {
    for part in parts.values() {
        rows.push((what, item_card(part.location()), origin_word(&part.origin)));
    }
}

/// Number, card and earlier card. Some errors are located at an item, others at a name.
fn error_row(errors: &DiagnosticList, index: usize) -> Row {
    use BuildError::*;
    let (at, error) = build_errors(errors)[index];
    match error {
        ExecutableDefinition { .. } => (1, item_card(at), NONE),
        SchemaDefinitionCollision { previous_location } => (2, item_card(at), item_card(*previous_location)),
        DirectiveDefinitionCollision { previous_location, .. } => (3, name_card(at), name_card(*previous_location)),
        TypeDefinitionCollision { previous_location, .. } => (4, name_card(at), name_card(*previous_location)),
        BuiltInScalarTypeRedefinition => (5, item_card(at), NONE),
        OrphanSchemaExtension => (6, item_card(at), NONE),
        OrphanTypeExtension { .. } => (7, name_card(at), NONE),
        TypeExtensionKindMismatch { def_location, .. } => (8, name_card(at), name_card(*def_location)),
        DuplicateRootOperation { previous_location, .. } => (9, item_card(at), name_card(*previous_location)),
        DuplicateImplementsInterfaceInObject { name_at_previous_location, .. } => {
            (10, name_card(at), name_card(name_at_previous_location.location()))
        }
        DuplicateImplementsInterfaceInInterface { name_at_previous_location, .. } => {
            (11, name_card(at), name_card(name_at_previous_location.location()))
        }
        ObjectFieldNameCollision { name_at_previous_location, .. } => (12, item_card(at), name_card(name_at_previous_location.location())),
        InterfaceFieldNameCollision { name_at_previous_location, .. } => (13, item_card(at), name_card(name_at_previous_location.location())),
        EnumValueNameCollision { name_at_previous_location, .. } => (14, item_card(at), name_card(name_at_previous_location.location())),
        UnionMemberNameCollision { name_at_previous_location, .. } => (15, name_card(at), name_card(name_at_previous_location.location())),
        InputFieldNameCollision { name_at_previous_location, .. } => (16, item_card(at), name_card(name_at_previous_location.location())),
    }
}
