//! Prints the firing slip of the tape in a file, and judges what the solve left before it does
//! so: `cargo run --release --offline --example slip TAPE`.
#![forbid(unsafe_code)]

use std::env;
use std::error::Error;
use std::fs;
use std::io::{self, Write};
use std::path::{Path, PathBuf};
use std::process::ExitCode;

use fibergravel::{
    judge_multipliers, judge_plan, ranges, read, solve, Refusal, Solved, MOST_MULTIPLIERS,
    MOST_PLAN,
};

fn main() -> ExitCode {
    let paths: Vec<PathBuf> = env::args_os().skip(1).map(PathBuf::from).collect();
    let [path] = paths.as_slice() else {
        eprintln!("usage: slip TAPE");
        return ExitCode::from(2);
    };
    match print_slip(path) {
        Ok(()) => ExitCode::SUCCESS,
        Err(error) => {
            eprintln!("{}: {error}", path.display());
            ExitCode::FAILURE
        }
    }
}

/// Prints the slip of the tape in a file.
fn print_slip(path: &Path) -> Result<(), Box<dyn Error>> {
    let slip = slip(&fs::read(path)?)?;
    io::stdout().write_all(slip.as_bytes())?;
    Ok(())
}

/// The slip of a tape. A refusal of it has one too.
fn slip(tape: &[u8]) -> Result<String, Refusal> {
    match answer(tape) {
        Err(Refusal::Open { rounds }) => Ok(format!("open\nrounds {rounds}\n")),
        Err(refusal) => match refusal.carried() {
            Some(offset) => Ok(format!("refused {} at {offset}\n", refusal.number())),
            None => Err(refusal),
        },
        Ok(slip) => Ok(slip),
    }
}

/// The slip of a tape that a solve has an answer to.
fn answer(tape: &[u8]) -> Result<String, Refusal> {
    let numbers = read(tape)?;
    let (mut plan, mut multipliers) = ([0; MOST_PLAN], [0; MOST_MULTIPLIERS]);
    let plan = &mut plan[..numbers.plan_length()];
    let multipliers = &mut multipliers[..numbers.multipliers_length()];
    match solve(tape, plan, multipliers)? {
        Solved::Proved { rounds, gap, first } => {
            let again = judge_plan(tape, plan, multipliers)?;
            assert_eq!(again, gap, "judging what a solve left gives its gap");
            let duties = first[..numbers.inputs]
                .iter()
                .map(|duty| format!(" {duty}"));
            let duties: String = duties.collect();
            let ranges = ranges(tape, plan, multipliers)?;
            let ranges = ranges.iter().map(|range| format!("range {range}\n"));
            let ranges: String = ranges.collect();
            Ok(format!(
                "proved\nrounds {rounds}\ngap {gap}\nfirst{duties}\n{ranges}"
            ))
        }
        Solved::Impossible { rounds } => {
            judge_multipliers(tape, multipliers)?;
            Ok(format!("impossible\nrounds {rounds}\n"))
        }
        // What later versions may add.
        other => unimplemented!("{other:?}"),
    }
}
