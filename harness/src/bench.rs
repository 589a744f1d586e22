//! How long the crate's builder and its lookups take. Documents are prepared once; a build clones the built-in builder, adds each document and builds.

use crate::cards::Folder;
use crate::listing;
use crate::questions::Question;
use crate::schema::Schema;
use crate::schema::SchemaBuilder;
use crate::validation::DiagnosticList;
use std::fmt::Write;
use std::hint::black_box;
use std::path::Path;
use std::time::Instant;

/// How long a batch should take, in nanoseconds: long against reading the clock, short against being held up by other programs.
const BATCH: f64 = 50_000.0;

pub fn run(path: &Path, times: usize) -> Result<String, String> {
    let folder = Folder::read(path)?;
    if let Err(stop) = listing::opened(&folder) {
        return stop.told();
    }
    let mut text = String::new();
    let (builds, drops) = time_builds(&folder, times);
    tell(&mut text, "build", builds);
    tell(&mut text, "drop", drops);
    if !path.join("questions").exists() {
        return Ok(text);
    }
    let questions = Question::read(path)?;
    let (schema, _) = built(&folder);
    for kind in ["field", "subtype", "root", "origins", "extensions", "implementers"] {
        let asked: Vec<&Question> = questions.iter().filter(|question| question.kind() == kind).collect();
        if !asked.is_empty() {
            tell(&mut text, kind, time_lookups(&schema, &asked, times));
        }
    }
    Ok(text)
}

/// One line: what, and the nanoseconds that one took in the middle one of all batches.
fn tell(text: &mut String, what: &str, mut batches: Vec<f64>) {
    batches.sort_by(f64::total_cmp);
    let middle = batches.get(batches.len() / 2).unwrap_or(&0.0);
    writeln!(text, "{what} {middle:.1}").unwrap()
}

/// Kept apart, so that a profiler shows what one build costs.
#[inline(never)]
fn built(folder: &Folder) -> (Schema, DiagnosticList) {
    listing::filed(SchemaBuilder::new(), folder).build_inner()
}

/// Schemas are kept through a batch, so that dropping them is timed apart from building.
fn time_builds(folder: &Folder, times: usize) -> (Vec<f64>, Vec<f64>) {
    let batch = batch(|| drop(black_box(built(folder))));
    let (mut builds, mut drops) = (Vec::new(), Vec::new());
    let mut kept = Vec::with_capacity(batch);
    for _ in 0..times.div_ceil(batch) {
        builds.push(time(batch, || kept.push(built(black_box(folder)))));
        let start = Instant::now();
        kept.clear();
        drops.push(start.elapsed().as_nanos() as f64 / batch as f64);
    }
    (builds, drops)
}

fn time_lookups(schema: &Schema, asked: &[&Question], times: usize) -> Vec<f64> {
    let mut all = || asked.iter().for_each(|question| look_up(black_box(schema), black_box(question)));
    let batch = batch(&mut all);
    (0..times.div_ceil(batch)).map(|_| time(batch, &mut all) / asked.len() as f64).collect()
}

/// How many make a batch, judged by the third time, when caches are warm.
fn batch(mut what: impl FnMut()) -> usize {
    what();
    what();
    ((BATCH / time(1, what)) as usize).clamp(1, 1000)
}

/// Nanoseconds for one of so many.
fn time(times: usize, mut what: impl FnMut()) -> f64 {
    let start = Instant::now();
    for _ in 0..times {
        what()
    }
    start.elapsed().as_nanos() as f64 / times as f64
}

fn look_up(schema: &Schema, question: &Question) {
    match question {
        Question::Field(owner, field) => {
            let _ = black_box(schema.type_field(owner, field));
        }
        Question::Subtype(owner, other) => {
            let _ = black_box(schema.is_subtype(owner, other));
        }
        Question::Root(operation) => {
            let _ = black_box(schema.root_operation(*operation));
        }
        Question::Origins => {
            for origin in schema.schema_definition.iter_origins() {
                let _ = black_box(origin);
            }
        }
        Question::Extensions => {
            let _ = black_box(schema.schema_definition.extensions());
        }
        Question::Implementers => {
            let _ = black_box(schema.implementers_map());
        }
    }
}
