//! Prints the firing record of the tape in a file as each of its two readers sees it:
//! `cargo run --release --offline --example record TAPE`.
#![forbid(unsafe_code)]

use std::env;
use std::error::Error;
use std::fs;
use std::io::{self, Write};
use std::path::{Path, PathBuf};
use std::process::ExitCode;

use fibergravel::{read, record, Outcome, Record, Seen, LABORATORY_LENGTH, MOST_SERVICE};

fn main() -> ExitCode {
    let paths: Vec<PathBuf> = env::args_os().skip(1).map(PathBuf::from).collect();
    let [path] = paths.as_slice() else {
        eprintln!("usage: record TAPE");
        return ExitCode::from(2);
    };
    match print_record(path) {
        Ok(()) => ExitCode::SUCCESS,
        Err(error) => {
            eprintln!("{}: {error}", path.display());
            ExitCode::FAILURE
        }
    }
}

/// Prints the record of the tape in a file. A refused tape has none, and the refusal is the error.
fn print_record(path: &Path) -> Result<(), Box<dyn Error>> {
    let tape = fs::read(path)?;
    let (mut laboratory, mut service) = ([0; LABORATORY_LENGTH], [0; MOST_SERVICE]);
    let service = &mut service[..read(&tape)?.service_length()];
    record(&tape, &mut laboratory, service)?;
    // Each reader has its own bytes and nothing else.
    let seen = Seen::from_bytes(&laboratory).ok_or("the laboratory's bytes are no record")?;
    let record = Record::from_bytes(service).ok_or("the service's bytes are no record")?;
    let text = format!("laboratory\n  {seen}\nservice\n{}", in_words(&record));
    io::stdout().write_all(text.as_bytes())?;
    Ok(())
}

/// What the service sees, but for the gap, the plan's later steps and the multipliers.
fn in_words(record: &Record) -> String {
    let (states, inputs, steps) = (record.states, record.inputs, record.steps);
    let sizes = format!("states {states}, inputs {inputs}, steps {steps}");
    let first = match &record.outcome {
        Outcome::Proved { plan, .. } => {
            let (duties, reached) = plan[..inputs + states].split_at(inputs);
            format!("first step: duties {duties:?} lead to states {reached:?}")
        }
        Outcome::Impossible { .. } | Outcome::Open => "no plan in it".to_string(),
    };
    let (rounds, kind) = (record.rounds, record.kind());
    format!("  {sizes}\n  rounds {rounds}, {kind}\n  {first}\n")
}
