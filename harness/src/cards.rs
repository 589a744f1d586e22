//! Case folders, and documents made of their cards. A location is nothing to the builder but something to hand on, so card n (counted through all
//! documents) gets the offset 2n for its item and 2n + 1 for its name: every location that comes back tells its card.

use crate::ast;
use crate::ast::Definition;
use crate::ast::OperationType;
use crate::collections::IndexMap;
use crate::name;
use crate::parser::FileId;
use crate::parser::SourceFile;
use crate::parser::SourceSpan;
use crate::ty;
use crate::Name;
use crate::Node;
use rowan::TextRange;
use std::ops::Range;
use std::path::Path;
use std::sync::Arc;
use std::sync::Mutex;
use std::sync::OnceLock;

/// The word that is printed as `-`.
pub const NONE: u32 = u32::MAX;

/// How many words a card has. The first is its kind, the second and third are its item's offset and length, the fourth and fifth its name's; nothing
/// is built from what follows them.
const CARD_WORDS: usize = 5;
const WORD_BYTES: usize = 4;

type Card = [u32; CARD_WORDS];

const MOST_DOCUMENTS: usize = 64;
const MOST_TEXT: usize = 65_536;
const MOST_CARDS: usize = 2_300;

/// The documents of a case folder, and before which document each switch is turned on (the count of documents: after the last).
#[derive(Default)]
pub struct Folder {
    pub definitions: Vec<Definition>,
    pub documents: Vec<ast::Document>,
    pub kinds: Vec<u32>,
    pub cards_of_document_0: usize,
    pub adopt: Option<usize>,
    pub ignore: Option<usize>,
    pub undecided: Option<String>,
}

static BUILT_IN: Mutex<Vec<Definition>> = Mutex::new(Vec::new());

/// What stands in the place of the built-in file's definitions.
pub fn built_in_definitions() -> Vec<Definition> {
    BUILT_IN.lock().unwrap().clone()
}

pub fn set_built_in_definitions(definitions: Vec<Definition>) {
    *BUILT_IN.lock().unwrap() = definitions
}

/// The card that the location of an item tells, `-` where there is none.
pub fn item_card(location: Option<SourceSpan>) -> u32 {
    let Some(span) = location else { return NONE };
    assert!(span.offset() % 2 == 0, "an item was expected");
    (span.offset() / 2) as u32
}

/// The card that the location of a name tells, `-` where there is none.
pub fn name_card(location: Option<SourceSpan>) -> u32 {
    let Some(span) = location else { return NONE };
    assert!(span.offset() % 2 == 1, "a name was expected");
    (span.offset() / 2) as u32
}

impl Folder {
    /// Reads a case folder. What the builder can't be asked about is an error, in a later document one that waits until document 0 was opened.
    pub fn read(path: &Path) -> Result<Folder, String> {
        let mut folder = Folder::default();
        let mut text_used = 0;
        for document in 0.. {
            let text = path.join(format!("d{document}.txt"));
            let cards = path.join(format!("d{document}.crd"));
            if !text.exists() || !cards.exists() {
                break;
            }
            let text = read(&text)?;
            text_used += text.len();
            folder.undecided = folder.add(document, &text, &read(&cards)?).err();
            if document == MOST_DOCUMENTS || text_used > MOST_TEXT || folder.kinds.len() > MOST_CARDS {
                folder.undecided = Some(undecided(document, 0, "more than the store holds"));
            }
            match (document, &folder.undecided) {
                (0, Some(why)) => return Err(why.clone()),
                (_, Some(_)) => break,
                (_, None) => (),
            }
        }
        if !path.join("d0.txt").exists() || !path.join("d0.crd").exists() {
            return Err("undecided: no document 0".to_owned());
        }
        folder.read_switches(path)?;
        Ok(folder)
    }

    fn add(&mut self, document: usize, text: &[u8], bytes: &[u8]) -> Result<(), String> {
        let file = if document == 0 { FileId::BUILT_IN } else { FileId::new() };
        if bytes.len() % (CARD_WORDS * WORD_BYTES) != 0 {
            return Err(undecided(document, 0, "not in whole cards"));
        }
        let words = bytes.chunks(WORD_BYTES).map(|word| u32::from_le_bytes(word.try_into().unwrap()));
        let words: Vec<u32> = words.collect();
        let cards: Vec<Card> = words.chunks(CARD_WORDS).map(|card| card.try_into().unwrap()).collect();
        let reader = Reader { document, file, text, cards: &cards, first: self.kinds.len() };
        let definitions = reader.definitions()?;
        self.kinds.extend((0..cards.len()).map(|card| reader.kind(card)));
        if document == 0 {
            self.definitions = definitions;
            self.cards_of_document_0 = cards.len();
            return Ok(());
        }
        let source =
            SourceFile { path: format!("d{document}.txt").into(), source_text: String::from_utf8_lossy(text).into_owned(), source: OnceLock::new() };
        let mut sources = IndexMap::default();
        sources.insert(file, Arc::new(source));
        self.documents.push(ast::Document { sources: Arc::new(sources), definitions });
        Ok(())
    }

    fn read_switches(&mut self, path: &Path) -> Result<(), String> {
        let switches = path.join("switches");
        if switches.exists() {
            let (adopt, ignore) = match read(&switches)?.trim_ascii_end() {
                b"00" => (None, None),
                b"01" => (None, Some(1)),
                b"10" => (Some(1), None),
                b"11" => (Some(1), Some(1)),
                _ => return Err("undecided: switches are not two digits 0 or 1".to_owned()),
            };
            (self.adopt, self.ignore) = (adopt, ignore);
        }
        let turns = path.join("turns");
        if turns.exists() {
            let text = String::from_utf8(read(&turns)?).map_err(|why| why.to_string())?;
            for line in text.lines() {
                let document = line.split(' ').nth(1).and_then(|number| number.parse().ok());
                match (line.split(' ').next(), document) {
                    (Some("adopt"), Some(document)) => self.adopt = Some(document),
                    (Some("ignore"), Some(document)) => self.ignore = Some(document),
                    _ => return Err(format!("undecided: turns has the line {line:?}")),
                }
            }
        }
        Ok(())
    }
}

fn read(path: &Path) -> Result<Vec<u8>, String> {
    std::fs::read(path).map_err(|why| format!("{}: {why}", path.display()))
}

fn undecided(document: usize, card: usize, why: &str) -> String {
    format!("undecided: document {document}, card {card}: {why}")
}

/// The part kinds of a heading, in their order; kinds of equal place mix.
fn places(heading: u32) -> &'static [&'static [u32]] {
    match heading {
        4 | 11 => &[&[20], &[26, 27, 28]],
        5 | 12 => &[&[20]],
        6 | 7 | 13 | 14 => &[&[21], &[20], &[22]],
        8 | 15 => &[&[20], &[23]],
        9 | 16 => &[&[20], &[24]],
        10 | 17 => &[&[20], &[25]],
        _ => &[],
    }
}

struct Reader<'a> {
    document: usize,
    file: FileId,
    text: &'a [u8],
    cards: &'a [Card],
    first: usize,
}

impl Reader<'_> {
    fn kind(&self, card: usize) -> u32 {
        self.cards[card][0]
    }

    /// Offset and length of a card's name; both 0 where it has none.
    fn name_span(&self, card: usize) -> (u32, u32) {
        (self.cards[card][3], self.cards[card][4])
    }

    fn definitions(&self) -> Result<Vec<Definition>, String> {
        let mut definitions = Vec::new();
        let mut heading = 0;
        while heading < self.cards.len() {
            let is_part = |&card: &usize| (20..=28).contains(&self.kind(card));
            let end = (heading + 1..self.cards.len()).find(|card| !is_part(card)).unwrap_or(self.cards.len());
            let parts = heading + 1..end;
            self.check(heading, parts.clone())?;
            definitions.push(self.definition(heading, parts));
            heading = end;
        }
        Ok(definitions)
    }

    /// Asks only what a definition can't be made without.
    fn check(&self, heading: usize, parts: Range<usize>) -> Result<(), String> {
        let kind = self.kind(heading);
        if !(1..=17).contains(&kind) {
            return Err(undecided(self.document, heading, "no heading"));
        }
        let mut place = 0;
        for card in parts.clone() {
            let order = places(kind);
            let own = order.iter().position(|kinds| kinds.contains(&self.kind(card)));
            match own {
                Some(own) if own >= place => place = own,
                _ => return Err(undecided(self.document, card, "a part out of place")),
            }
        }
        for card in heading..parts.end {
            let absent = self.name_span(card) == (0, 0);
            let named = match self.kind(card) {
                4 | 11 => absent,
                1 => absent || self.name_text(card).is_some(),
                _ => self.name_text(card).is_some(),
            };
            if !named {
                return Err(undecided(self.document, card, "no Name"));
            }
        }
        Ok(())
    }

    /// A card's name, if it is one in its text.
    fn name_text(&self, card: usize) -> Option<&str> {
        let (start, length) = self.name_span(card);
        let end = (start as usize).checked_add(length as usize)?;
        let bytes = self.text.get(start as usize..end)?;
        let text = std::str::from_utf8(bytes).ok()?;
        Name::is_valid_syntax(text).then_some(text)
    }

    fn span(&self, offset: usize, length: u32) -> SourceSpan {
        SourceSpan { file_id: self.file, text_range: TextRange::at((offset as u32).into(), length.into()) }
    }

    fn name(&self, card: usize) -> Name {
        let name = Name::new(self.name_text(card).unwrap()).unwrap();
        name.with_location(self.span(2 * (self.first + card) + 1, self.name_span(card).1))
    }

    fn node<T>(&self, card: usize, value: T) -> Node<T> {
        Node::new_parsed(value, self.span(2 * (self.first + card), 0))
    }

    fn of_kinds(&self, parts: &Range<usize>, kinds: Range<u32>) -> impl Iterator<Item = usize> + '_ {
        parts.clone().filter(move |&card| kinds.contains(&self.kind(card)))
    }

    fn directives(&self, parts: &Range<usize>) -> ast::DirectiveList {
        let uses = self.of_kinds(parts, 20..21);
        uses.map(|card| self.node(card, ast::Directive::new(self.name(card)))).collect()
    }

    fn names(&self, parts: &Range<usize>, kind: u32) -> Vec<Name> {
        self.of_kinds(parts, kind..kind + 1).map(|card| self.name(card)).collect()
    }

    fn fields(&self, parts: &Range<usize>) -> Vec<Node<ast::FieldDefinition>> {
        let field = |card| {
            let field = ast::FieldDefinition {
                description: None,
                name: self.name(card),
                arguments: Vec::new(),
                ty: ty!(Int),
                directives: ast::DirectiveList::new(),
            };
            self.node(card, field)
        };
        self.of_kinds(parts, 22..23).map(field).collect()
    }

    fn values(&self, parts: &Range<usize>) -> Vec<Node<ast::EnumValueDefinition>> {
        let value = |card| {
            let value = ast::EnumValueDefinition { description: None, value: self.name(card), directives: ast::DirectiveList::new() };
            self.node(card, value)
        };
        self.of_kinds(parts, 24..25).map(value).collect()
    }

    fn input_fields(&self, parts: &Range<usize>) -> Vec<Node<ast::InputValueDefinition>> {
        let field = |card| {
            let field = ast::InputValueDefinition {
                description: None,
                name: self.name(card),
                ty: ty!(Int).into(),
                default_value: None,
                directives: ast::DirectiveList::new(),
            };
            self.node(card, field)
        };
        self.of_kinds(parts, 25..26).map(field).collect()
    }

    fn roots(&self, parts: &Range<usize>) -> Vec<Node<(OperationType, Name)>> {
        let root = |card: usize| {
            let operation = match self.kind(card) {
                26 => OperationType::Query,
                27 => OperationType::Mutation,
                _ => OperationType::Subscription,
            };
            self.node(card, (operation, self.name(card)))
        };
        self.of_kinds(parts, 26..29).map(root).collect()
    }

    /// What a card doesn't tell (descriptions, arguments, types, values, selections) is left empty or is the same everywhere.
    fn definition(&self, heading: usize, parts: Range<usize>) -> Definition {
        let parts = &parts;
        match self.kind(heading) {
            1 => self.operation(heading),
            2 => self.fragment(heading),
            3 => self.directive(heading),
            4 => {
                let schema = ast::SchemaDefinition { description: None, directives: self.directives(parts), root_operations: self.roots(parts) };
                self.node(heading, schema).into()
            }
            11 => {
                let extension = ast::SchemaExtension { directives: self.directives(parts), root_operations: self.roots(parts) };
                self.node(heading, extension).into()
            }
            5..=10 => self.type_definition(heading, parts),
            _ => self.type_extension(heading, parts),
        }
    }

    fn operation(&self, heading: usize) -> Definition {
        let operation = ast::OperationDefinition {
            operation_type: OperationType::Query,
            name: (self.name_span(heading) != (0, 0)).then(|| self.name(heading)),
            variables: Vec::new(),
            directives: ast::DirectiveList::new(),
            selection_set: Vec::new(),
        };
        self.node(heading, operation).into()
    }

    fn fragment(&self, heading: usize) -> Definition {
        let fragment = ast::FragmentDefinition {
            name: self.name(heading),
            type_condition: name!(Int),
            directives: ast::DirectiveList::new(),
            selection_set: Vec::new(),
        };
        self.node(heading, fragment).into()
    }

    fn directive(&self, heading: usize) -> Definition {
        let directive =
            ast::DirectiveDefinition { description: None, name: self.name(heading), arguments: Vec::new(), repeatable: false, locations: Vec::new() };
        self.node(heading, directive).into()
    }

    fn type_definition(&self, heading: usize, parts: &Range<usize>) -> Definition {
        let description = None;
        let name = self.name(heading);
        let directives = self.directives(parts);
        match self.kind(heading) {
            5 => {
                let scalar = ast::ScalarTypeDefinition { description, name, directives };
                self.node(heading, scalar).into()
            }
            6 => {
                let object = ast::ObjectTypeDefinition {
                    description,
                    name,
                    implements_interfaces: self.names(parts, 21),
                    directives,
                    fields: self.fields(parts),
                };
                self.node(heading, object).into()
            }
            7 => {
                let interface = ast::InterfaceTypeDefinition {
                    description,
                    name,
                    implements_interfaces: self.names(parts, 21),
                    directives,
                    fields: self.fields(parts),
                };
                self.node(heading, interface).into()
            }
            8 => {
                let union = ast::UnionTypeDefinition { description, name, directives, members: self.names(parts, 23) };
                self.node(heading, union).into()
            }
            9 => {
                let enumeration = ast::EnumTypeDefinition { description, name, directives, values: self.values(parts) };
                self.node(heading, enumeration).into()
            }
            _ => {
                let input = ast::InputObjectTypeDefinition { description, name, directives, fields: self.input_fields(parts) };
                self.node(heading, input).into()
            }
        }
    }

    fn type_extension(&self, heading: usize, parts: &Range<usize>) -> Definition {
        let name = self.name(heading);
        let directives = self.directives(parts);
        match self.kind(heading) {
            12 => {
                let scalar = ast::ScalarTypeExtension { name, directives };
                self.node(heading, scalar).into()
            }
            13 => {
                let object = ast::ObjectTypeExtension { name, implements_interfaces: self.names(parts, 21), directives, fields: self.fields(parts) };
                self.node(heading, object).into()
            }
            14 => {
                let interface =
                    ast::InterfaceTypeExtension { name, implements_interfaces: self.names(parts, 21), directives, fields: self.fields(parts) };
                self.node(heading, interface).into()
            }
            15 => {
                let union = ast::UnionTypeExtension { name, directives, members: self.names(parts, 23) };
                self.node(heading, union).into()
            }
            16 => {
                let enumeration = ast::EnumTypeExtension { name, directives, values: self.values(parts) };
                self.node(heading, enumeration).into()
            }
            _ => {
                let input = ast::InputObjectTypeExtension { name, directives, fields: self.input_fields(parts) };
                self.node(heading, input).into()
            }
        }
    }
}
