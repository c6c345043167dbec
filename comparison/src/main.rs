//! The program `comparison`: see `comparison --help`.
#![forbid(unsafe_code)]

mod banded;
mod calls;
mod cases;
mod compare;
mod comparison;
mod duties;
mod edges;
mod faults;
mod given;
mod guard;
mod imports;
mod memory;
mod part;
mod ranges;
mod records;
mod slip;
mod squares;
mod tune;
mod weights;
mod wrapper;

use std::env;
use std::process::ExitCode;

const HELP: &str = "\
comparison: the planner against the second program

comparison compare [COUNT [SEED]]
    Makes COUNT (20000) cases from the seeds SEED (0), SEED + 1, .., and for each seed a tape that
    gives a drawn set of places, 10 first duties, a tape with residuals for the banded step, 50
    entries and 2 models in floats, by the second program's generators and runs them through the
    twelve calls of libplanner.a and through the second program; before them tapes, slices and
    models of every length, tapes without each of the required places, squares of slopes beyond 64
    bits at every weight, plans with faults at every step and column, gaps of T and one above, tapes
    with weights of 0 at the edges, first duties at the edges of their ranges, records of every size
    and with numbers that look absent, banded steps of every size with residuals of every size,
    entries beside every number and every half, and inputs of the program slip. Every number of
    every answer and of everything lent is compared, refusals included, with guard cells around what
    is lent, floats bit by bit, but one NaN like another, records byte by byte; so are the words of
    a report and of a range and the text of the program slip. Records and banded steps are lent
    slices of wrong lengths too. Says every 10000 tapes
    on standard error where it is. Prints how often each answer and each refusal came, and each
    difference with its origin, everything lent and the command that repeats it. Fails if something
    differs or if a count is 0, which is to be expected of a small COUNT; only `third, gap 0, two
    numbers` is always 0, as no accepted plan has such a duty. Where one side crashes, it names the
    command that repeats that.

comparison compare-here COUNT SEED
    The same in this process, as `compare` runs it; a crash ends it. A line `at PART` on standard
    error says what comes next.

comparison replay PART
    Repeats one part of a comparison: the case of a seed, where PART is a number, and its tape that
    gives a drawn set of places (given-4711, say), first duties (ranges-4711), tape with residuals
    (banded-4711), entries (entries-4711) and models (models-4711); inputs of the program slip (slips), tapes of every
    length (tapes), the longest tape with a command left out, given again or alone (places), tapes
    of the largest sizes with all curves that lack one required place, two neighbours or more
    (missing), plans and multipliers of every length (slices), floors at the ceiling (equal),
    squares of large slopes at every weight (squares), plans with one fault, two and three at every
    step and column, and gaps of T and one above (faults), every weight, and all weights 0 with
    other numbers at their limits and with one number a column (weights), tapes made so that a first
    duty has each piece, limits from one number to the widest, gaps from the least to the widest,
    and ends at whole numbers and limits and just beyond (ranges), records of every size, with
    numbers of FF throughout, and with the widest gap (records), banded steps of all sizes, of zones
    that heat each other most and of tapes that fall back on g, with residuals of every size at
    every place and slices of every length, and weights of 0 with command 51 (banded), entries
    beside numbers, halves and powers of two (entries), models of every length and with a faulty
    entry at every place (models).

comparison memory [COUNT [SEED]]
    Compares COUNT (200) cases, tapes with drawn places, first duties, banded steps, and entries and
    models, from the seeds SEED (400), SEED + 1, .., with each thing that is lent in a block of just
    its size. Under valgrind, which then sees any read or
    write outside what is lent:
        valgrind -q --error-exitcode=1 target/release/comparison memory

The program slip is crates/slip/out/slip of the repository, or what FIBERGRAVEL_SLIP names.
";

fn main() -> ExitCode {
    let arguments: Vec<String> = env::args().skip(1).collect();
    let words: Vec<&str> = arguments.iter().map(String::as_str).collect();
    match run(&words) {
        Ok(code) => code,
        Err(error) => {
            eprintln!("comparison: {error}");
            ExitCode::FAILURE
        }
    }
}

/// Runs a subcommand.
fn run(words: &[&str]) -> Result<ExitCode, String> {
    match words {
        ["--help" | "-h" | "help"] => print!("{HELP}"),
        ["compare"] => return compare::compare(20_000, 0),
        ["compare", count] => return compare::compare(number(count)?, 0),
        ["compare", count, seed] => return compare::compare(number(count)?, number(seed)?),
        ["compare-here", count, seed] => compare::compare_here(number(count)?, number(seed)?)?,
        ["replay", part] => compare::replay(part.parse()?)?,
        ["memory"] => memory::memory(200, memory::SEED)?,
        ["memory", count] => memory::memory(number(count)?, memory::SEED)?,
        ["memory", count, seed] => memory::memory(number(count)?, number(seed)?)?,
        _ => return Err("no such subcommand; see comparison --help".to_string()),
    }
    Ok(ExitCode::SUCCESS)
}

/// A whole number from an argument.
fn number(word: &str) -> Result<u64, String> {
    word.parse()
        .map_err(|_| format!("`{word}` is not a whole number"))
}
