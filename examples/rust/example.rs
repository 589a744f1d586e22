//! The library from Rust: declarations of exported functions, and a safe wrapper for each that is used. The C example uses them all.

mod exported {
    #[repr(C)]
    pub struct Answer {
        pub number: u32,
        pub card: usize,
    }

    #[repr(C)]
    pub struct Tallies {
        pub counts: [u32; 16],
        pub total: u32,
    }

    #[repr(C)]
    pub struct Drawing {
        pub number: u32,
        pub rows: u32,
        pub reading_errors: u32,
        pub drawing_errors: u32,
        pub tallies: Tallies,
    }

    #[repr(C)]
    pub struct FieldLookup {
        pub refusal: u32,
        pub number: u32,
        pub meta: u32,
        pub card: u32,
    }

    #[repr(C)]
    pub struct SubtypeLookup {
        pub refusal: u32,
        pub yes: u32,
    }

    #[rustfmt::skip]
    unsafe extern "C" {
        pub fn gimletaspen_open(
            text: *mut u8, text_length: usize, words: *mut u32, words_length: usize,
            document: *const u8, document_length: usize, cards: *const u32, cards_length: usize,
        ) -> Answer;
        pub fn gimletaspen_add_ast(
            text: *mut u8, text_length: usize, words: *mut u32, words_length: usize,
            document: *const u8, document_length: usize, cards: *const u32, cards_length: usize,
        ) -> Answer;
        pub fn gimletaspen_build(
            text: *const u8, text_length: usize, words: *const u32, words_length: usize,
            rows: *mut u32, rows_length: usize, errors: *mut u32, errors_length: usize,
        ) -> Drawing;
        pub fn gimletaspen_type_field(
            text: *const u8, text_length: usize, words: *const u32, words_length: usize, rows: *const u32, rows_length: usize,
            type_name: *const u8, type_name_length: usize, field: *const u8, field_length: usize,
        ) -> FieldLookup;
        pub fn gimletaspen_is_subtype(
            text: *const u8, text_length: usize, words: *const u32, words_length: usize, rows: *const u32, rows_length: usize,
            general: *const u8, general_length: usize, other: *const u8, other_length: usize,
        ) -> SubtypeLookup;
    }
}

use exported::Answer;
use exported::Drawing;

/// A store with room for 65,536 bytes of text, 64 documents and 2,300 cards. Whatever is lent, each call answers.
struct Store {
    text: Vec<u8>,
    words: Vec<u32>,
}

/// What `type_field` answers.
#[derive(Debug)]
#[allow(dead_code, reason = "the numbers are printed, and nothing else is done with them")]
enum Field {
    Explicit(u32),
    Meta(u32),
    NoSuchType,
    NoSuchField(u32),
    Refused(u32),
}

impl Store {
    fn open(document: &str, cards: &[u32]) -> (Store, Answer) {
        let mut store = Store { text: vec![0; 65536], words: vec![0; 11761] };
        // Sound because the slices are live, and distinct since two of them are borrowed for writing.
        let answer = unsafe {
            exported::gimletaspen_open(
                store.text.as_mut_ptr(), store.text.len(), store.words.as_mut_ptr(), store.words.len(),
                document.as_ptr(), document.len(), cards.as_ptr(), cards.len(),
            )
        };
        (store, answer)
    }

    fn add_ast(&mut self, document: &str, cards: &[u32]) -> Answer {
        unsafe {
            exported::gimletaspen_add_ast(
                self.text.as_mut_ptr(), self.text.len(), self.words.as_mut_ptr(), self.words.len(),
                document.as_ptr(), document.len(), cards.as_ptr(), cards.len(),
            )
        }
    }

    fn build(&self, rows: &mut [u32], errors: &mut [u32]) -> Drawing {
        unsafe {
            exported::gimletaspen_build(
                self.text.as_ptr(), self.text.len(), self.words.as_ptr(), self.words.len(),
                rows.as_mut_ptr(), rows.len(), errors.as_mut_ptr(), errors.len(),
            )
        }
    }

    fn type_field(&self, rows: &[u32], type_name: &str, field: &str) -> Field {
        let found = unsafe {
            exported::gimletaspen_type_field(
                self.text.as_ptr(), self.text.len(), self.words.as_ptr(), self.words.len(), rows.as_ptr(), rows.len(),
                type_name.as_ptr(), type_name.len(), field.as_ptr(), field.len(),
            )
        };
        match (found.refusal, found.number, found.meta) {
            (0, 1, 0) => Field::Explicit(found.card),
            (0, 1, meta) => Field::Meta(meta),
            (0, 2, _) => Field::NoSuchType,
            (0, _, _) => Field::NoSuchField(found.card),
            (refusal, _, _) => Field::Refused(refusal),
        }
    }

    /// Whether it is one, or the refusal.
    fn is_subtype(&self, rows: &[u32], general: &str, other: &str) -> Result<bool, u32> {
        let told = unsafe {
            exported::gimletaspen_is_subtype(
                self.text.as_ptr(), self.text.len(), self.words.as_ptr(), self.words.len(), rows.as_ptr(), rows.len(),
                general.as_ptr(), general.len(), other.as_ptr(), other.len(),
            )
        };
        if told.refusal == 0 { Ok(told.yes == 1) } else { Err(told.refusal) }
    }
}

fn main() {
    let (mut store, answer) = Store::open("scalar Int", &[5, 0, 10, 7, 3]);
    println!("open: {} {}", answer.number, answer.card);
    let answer = store.add_ast("type A{n:Int n:Int}", &[6, 0, 19, 5, 1, 22, 7, 5, 7, 1, 22, 13, 5, 13, 1]);
    println!("add_ast: {} {}", answer.number, answer.card);
    let answer = store.add_ast("extend type A{m:Int}union U=A", &[13, 0, 20, 12, 1, 22, 14, 5, 14, 1, 8, 20, 9, 26, 1, 23, 28, 1, 28, 1]);
    println!("add_ast: {} {}", answer.number, answer.card);

    let (mut rows, mut errors) = (vec![0; 6912], vec![0; 6900]);
    let drawing = store.build(&mut rows, &mut errors);
    let drawn = &rows[..3 * drawing.rows as usize];
    println!("build: {}, {} rows, errors {} {}, of number 12: {}", drawing.number, drawing.rows, drawing.reading_errors, drawing.drawing_errors,
        drawing.tallies.counts[11]);
    for (type_name, field) in [("A", "m"), ("A", "__typename"), ("A", "k"), ("B", "m")] {
        println!("{type_name}.{field}: {:?}", store.type_field(drawn, type_name, field));
    }
    println!("A of U: {:?}, U of A: {:?}", store.is_subtype(drawn, "U", "A"), store.is_subtype(drawn, "A", "U"));
    println!("rows one word short: {:?}, {:?}", store.type_field(&drawn[1..], "A", "m"), store.is_subtype(&drawn[1..], "U", "A"));
}
