//! The program `benchmark`: the planner's time against the time of plain Rust that runs the same
//! rounds.
//!
//! Both get the same tapes and must leave the same answers, plans and multipliers; [`sides`] has
//! one solve of each, [`mixes`] the tapes of full size, and [`growth`] those of growing sizes and
//! rounds.
#![forbid(unsafe_code)]

mod furnaces;
mod growth;
mod mixes;
mod progress;
mod report;
mod shares;
mod sides;
mod timing;
mod tune;

use std::env;
use std::process::ExitCode;

use crate::mixes::{Mix, MANY_ROUNDS, TAPES};
use crate::progress::Progress;
use crate::shares::Shares;
use crate::sides::Case;
use crate::timing::{Counts, Times};

const USAGE: &str = "\
usage: benchmark [time]
       benchmark compare COUNT

time      Times the planner against plain Rust over three mixes of 1,000 tapes of 6 states,
          4 inputs and 12 steps, and over tapes of growing sizes and rounds, and prints tables in
          Markdown. It takes about a minute, and needs a build with --release.
compare   Has both solve the first COUNT tapes of each mix and all tapes of growing sizes and
          rounds, and prints how often each answer came.

Answers, plans and multipliers are compared in every solve. Exit status: 1 where they differ, 2 for
wrong arguments.
";

fn main() -> ExitCode {
    let arguments: Vec<String> = env::args().skip(1).collect();
    let words: Vec<&str> = arguments.iter().map(String::as_str).collect();
    let outcome = match words[..] {
        [] | ["time"] => time(),
        ["compare", count] => match count.parse() {
            Ok(count) => compare(count),
            Err(_) => return usage(),
        },
        _ => return usage(),
    };
    match outcome {
        Ok(()) => ExitCode::SUCCESS,
        Err(error) => {
            eprintln!("\nbenchmark: {error}");
            ExitCode::FAILURE
        }
    }
}

/// For wrong arguments.
fn usage() -> ExitCode {
    eprint!("{USAGE}");
    ExitCode::from(2)
}

/// The first tapes of a mix.
fn of_mix(mix: Mix, count: usize) -> Vec<Case> {
    (0..count).map(|place| Case::new(mix.tape(place))).collect()
}

/// The tapes of a row of growth.
fn of_row(row: &growth::Row) -> Vec<Case> {
    row.tapes().into_iter().map(Case::new).collect()
}

/// Solves the first tapes of each mix and all tapes of growth, and prints the answers.
fn compare(count: usize) -> Result<(), String> {
    for mix in Mix::ALL {
        compare_named(mix.name(), of_mix(mix, count))?;
    }
    let mut tables = growth::by_size();
    tables.push(growth::by_rounds());
    for row in tables.iter().flat_map(|table| &table.rows) {
        compare_named(&row.to_string(), of_row(row))?;
    }
    Ok(())
}

/// Solves some tapes, and prints how often each answer came.
fn compare_named(name: &str, mut cases: Vec<Case>) -> Result<(), String> {
    let compared = timing::compare(&mut cases, MANY_ROUNDS);
    let counts = compared.map_err(|difference| format!("{name}, {difference}"))?;
    let (proved, impossible, open) = (counts.proved, counts.impossible, counts.open);
    let answers = format!("{proved} proved, {impossible} impossible, {open} open");
    println!("{name}: {answers}, {} rounds, no difference", counts.rounds);
    Ok(())
}

/// Times everything, and prints the tables.
fn time() -> Result<(), String> {
    if cfg!(debug_assertions) {
        return Err("times need a build with --release".to_string());
    }
    println!("{}\n{}", report::settings(), report::method());
    let mut progress = Progress::default();
    time_mixes(&mut progress)?;
    for table in growth::by_size() {
        print_table(
            report::sizes_head(&table),
            &table,
            report::size_row,
            &mut progress,
        )?;
    }
    let table = growth::by_rounds();
    print_table(
        report::rounds_head(&table),
        &table,
        report::rounds_row,
        &mut progress,
    )
}

/// Times the mixes, and prints their tables.
fn time_mixes(progress: &mut Progress) -> Result<(), String> {
    let mut all_shares = Vec::new();
    println!("{}", report::mixes_head());
    for mix in Mix::ALL {
        progress.begin(mix.name());
        let mut cases = of_mix(mix, TAPES);
        let mut shares = Shares::default();
        for case in &cases {
            shares.add(&case.furnace());
        }
        all_shares.push((mix.name(), shares));
        let times = timing::time(&mut cases, MANY_ROUNDS, progress)?;
        progress.end();
        check(&times.counts)?;
        println!("{}", report::mix_row(mix.name(), &times));
    }
    println!("\n{}\n", report::shares_table(&all_shares));
    Ok(())
}

/// Fails unless a mix has all answers and enough tapes that enter many rounds.
fn check(counts: &Counts) -> Result<(), String> {
    let all_answers = counts.proved > 0 && counts.impossible > 0 && counts.open > 0;
    if counts.tapes() == TAPES && all_answers && 2 * counts.long >= TAPES {
        Ok(())
    } else {
        Err(format!("the tapes are not what they should be: {counts:?}"))
    }
}

/// Times the rows of a table, and prints it.
fn print_table(
    head: String,
    table: &growth::Table,
    of_times: fn(String, &Times) -> String,
    progress: &mut Progress,
) -> Result<(), String> {
    println!("{head}");
    for row in &table.rows {
        let label = (table.label)(row);
        progress.begin(&format!("{}: {label}", table.head));
        let times = timing::time(&mut of_row(row), MANY_ROUNDS, progress)?;
        progress.end();
        println!("{}", of_times(label, &times));
    }
    println!();
    Ok(())
}
