//! The oracle: apollo-compiler's own schema builder, fed with cards. Ten modules below are the crate's files, unchanged; `cards`, `listing`, `questions`
//! and `bench` are the harness; all others stand in for what is missing. README.md tells which is which.

#![allow(dead_code, unused_imports, unused_macros, clippy::all)]

/// In the crate this adds methods that write a value out as text, which nothing here does.
macro_rules! serialize_method {
    () => {};
}

pub mod ast;
pub mod collections;
pub mod coordinate;
pub(crate) mod diagnostic;
pub mod executable;
mod name;
mod node;
pub mod parser;
pub mod response;
pub mod schema;
pub mod validation;

pub use self::executable::ExecutableDocument;
pub use self::name::InvalidNameError;
pub use self::name::Name;
pub use self::node::Node;
pub use self::schema::Schema;

mod bench;
mod cards;
mod listing;
mod questions;

use std::path::Path;
use std::process::exit;

const USAGE: &str = "usage: oracle list FOLDER | oracle ask FOLDER | oracle bench FOLDER TIMES";

fn main() {
    let arguments: Vec<String> = std::env::args().skip(1).collect();
    let words: Vec<&str> = arguments.iter().map(String::as_str).collect();
    let done = match words[..] {
        ["list", folder] => listing::run(Path::new(folder)),
        ["ask", folder] => questions::run(Path::new(folder)),
        ["bench", folder, times] => match times.parse() {
            Ok(times) => bench::run(Path::new(folder), times),
            Err(_) => Err(USAGE.to_owned()),
        },
        _ => Err(USAGE.to_owned()),
    };
    match done {
        Ok(text) => print!("{text}"),
        Err(why) => {
            eprintln!("{why}");
            exit(3)
        }
    }
}
