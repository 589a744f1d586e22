//! Lookups in a schema that was built, asked in a file with one question a line and answered with one line each.

use crate::ast::OperationType;
use crate::cards::item_card;
use crate::cards::name_card;
use crate::cards::Folder;
use crate::listing;
use crate::listing::origin_word;
use crate::listing::word;
use crate::schema::FieldLookupError;
use crate::schema::Implementers;
use crate::schema::Schema;
use crate::Name;
use std::path::Path;

pub enum Question {
    Field(String, String),
    Subtype(String, String),
    Root(OperationType),
    Origins,
    Extensions,
    Implementers,
}

impl Question {
    pub fn read(path: &Path) -> Result<Vec<Question>, String> {
        let path = path.join("questions");
        let text = std::fs::read_to_string(&path);
        let text = text.map_err(|why| format!("{}: {why}", path.display()))?;
        text.lines().map(Question::parse).collect()
    }

    fn parse(line: &str) -> Result<Question, String> {
        let words: Vec<&str> = line.split(' ').collect();
        Ok(match words[..] {
            ["field", owner, field] => Question::Field(owner.to_owned(), field.to_owned()),
            ["subtype", owner, other] => Question::Subtype(owner.to_owned(), other.to_owned()),
            ["root", "26"] => Question::Root(OperationType::Query),
            ["root", "27"] => Question::Root(OperationType::Mutation),
            ["root", "28"] => Question::Root(OperationType::Subscription),
            ["origins"] => Question::Origins,
            ["extensions"] => Question::Extensions,
            ["implementers"] => Question::Implementers,
            _ => return Err(format!("no question: {line:?}")),
        })
    }

    pub fn kind(&self) -> &'static str {
        match self {
            Question::Field(..) => "field",
            Question::Subtype(..) => "subtype",
            Question::Root(_) => "root",
            Question::Origins => "origins",
            Question::Extensions => "extensions",
            Question::Implementers => "implementers",
        }
    }

    fn answer(&self, schema: &Schema) -> String {
        match self {
            Question::Field(owner, field) => answer_field(schema, owner, field),
            Question::Subtype(owner, other) => match schema.is_subtype(owner, other) {
                true => "yes".to_owned(),
                false => "no".to_owned(),
            },
            Question::Root(operation) => match schema.root_operation(*operation) {
                Some(name) => name.to_string(),
                None => "-".to_owned(),
            },
            Question::Origins => {
                let origins = schema.schema_definition.iter_origins();
                list(origins.map(origin_word).collect())
            }
            Question::Extensions => {
                let extensions = schema.schema_definition.extensions();
                list(extensions.iter().map(|id| item_card(id.location())).collect())
            }
            Question::Implementers => answer_implementers(schema),
        }
    }
}

pub fn run(path: &Path) -> Result<String, String> {
    let questions = Question::read(path)?;
    let folder = Folder::read(path)?;
    let drawn = match listing::draw(&folder) {
        Ok(drawn) => drawn,
        Err(stop) => return stop.told(),
    };
    let answers = questions.iter().map(|question| question.answer(&drawn.schema) + "\n");
    Ok(answers.collect())
}

fn answer_field(schema: &Schema, owner: &str, field: &str) -> String {
    match schema.type_field(owner, field) {
        Ok(found) if found.location().is_some() => format!("found {}", item_card(found.location())),
        Ok(meta) => match meta.name.as_str() {
            "__typename" => "meta 1".to_owned(),
            "__schema" => "meta 2".to_owned(),
            _ => "meta 3".to_owned(),
        },
        Err(FieldLookupError::NoSuchType) => "no type".to_owned(),
        Err(FieldLookupError::NoSuchField(_, found)) => {
            format!("no field {}", item_card(found.location()))
        }
    }
}

/// The count of words, then the words.
fn list(words: Vec<u32>) -> String {
    let mut text = words.len().to_string();
    for each in words {
        text += " ";
        text += &word(each);
    }
    text
}

/// The count of groups, then each group behind a colon: the interface's name, naming card, objects, interfaces, the types' cards in catalogue order. The map
/// has no order, so the groups are sorted by name.
fn answer_implementers(schema: &Schema) -> String {
    let map = schema.implementers_map();
    let mut groups: Vec<(&Name, &Implementers)> = map.iter().collect();
    groups.sort_by_key(|(name, _)| name.as_str());
    let mut text = groups.len().to_string();
    for (name, group) in groups {
        let mut places: Vec<usize> = group.iter().map(|ty| schema.types.get_index_of(ty).unwrap()).collect();
        places.sort();
        let (objects, interfaces) = (group.objects.len(), group.interfaces.len());
        text += &format!(" : {name} {} {objects} {interfaces}", name_card(name.location()));
        for place in places {
            let (_, found) = schema.types.get_index(place).unwrap();
            text += &format!(" {}", item_card(found.location()));
        }
    }
    text
}
