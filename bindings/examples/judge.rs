//! Judges the plan in a file by the tape in another, and prints in one line what comes of it, as
//! `examples/judge.c` of the repository does: `cargo run --release --offline --example judge TAPE
//! PLAN`. The exit status is 0 where there is a report, whatever it says.
#![forbid(unsafe_code)]

use std::env;
use std::fmt::Display;
use std::fs;
use std::io::{self, Write};
use std::path::{Path, PathBuf};
use std::process::ExitCode;

use fibergravel::{judge_report, Refusal};

fn main() -> ExitCode {
    let paths: Vec<PathBuf> = env::args_os().skip(1).map(PathBuf::from).collect();
    let [tape, plan] = paths.as_slice() else {
        eprintln!("usage: judge TAPE PLAN");
        return ExitCode::from(2);
    };
    match print_report(tape, plan) {
        Ok(status) => status,
        Err(error) => {
            eprintln!("{error}");
            ExitCode::FAILURE
        }
    }
}

/// Prints the report or the refusal of the plan in a file. A refusal is no report.
fn print_report(tape: &Path, plan: &Path) -> Result<ExitCode, String> {
    let bytes = fs::read(tape).map_err(|error| of(tape, error))?;
    let text = fs::read_to_string(plan).map_err(|error| of(plan, error))?;
    let (plan, multipliers) = lists(&text).ok_or_else(|| of(plan, "no plan file"))?;
    let (line, status) = match judge_report(&bytes, &plan, &multipliers) {
        Ok(report) => (report.to_string(), ExitCode::SUCCESS),
        Err(refusal) => (refused(refusal), ExitCode::FAILURE),
    };
    let printed = writeln!(io::stdout(), "{line}");
    printed.map_err(|error| format!("standard output: {error}"))?;
    Ok(status)
}

/// What is wrong with a file.
fn of(path: &Path, error: impl Display) -> String {
    format!("{}: {error}", path.display())
}

/// The line of a refusal.
fn refused(refusal: Refusal) -> String {
    let number = refusal.number();
    match refusal.carried() {
        Some(offset) => format!("refused {number} at {offset}"),
        None => format!("refused {number}"),
    }
}

/// Plan and multipliers of a plan file: each behind its word.
fn lists(text: &str) -> Option<(Vec<i32>, Vec<i32>)> {
    let words: Vec<&str> = text.split_ascii_whitespace().collect();
    let second = words.iter().position(|word| *word == "multipliers")?;
    match words.split_at(second) {
        (["plan", plan @ ..], [_, multipliers @ ..]) => {
            Some((numbers(plan)?, numbers(multipliers)?))
        }
        _ => None,
    }
}

/// The numbers that words are, where each is one.
fn numbers(words: &[&str]) -> Option<Vec<i32>> {
    words.iter().map(|word| word.parse().ok()).collect()
}
