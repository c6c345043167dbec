//! The program `reference`: see `reference --help`.
#![forbid(unsafe_code)]

use std::env;
use std::fs;
use std::io::{self, Read, Write};
use std::process::ExitCode;

use reference::cases::expect;
use reference::count::count_cases;
use reference::plan_file::PlanFile;
use reference::slip::refused;
use reference::{record, report, slip};

const HELP: &str = "\
reference: a second program for the sinter furnace planner, written from the papers alone

reference slip < TAPE
    Writes the firing slip of the tape on standard input. A proved one ends with a line
    `range LOW HIGH` for each first duty.

reference record < TAPE
    Writes the firing record of the tape on standard input: a line `laboratory ..` and a line
    `service ..` with the bytes that each reader sees, two hex digits a byte, or the refusal as the
    slip has it. An open tape has a record.

reference judge TAPE PLAN
    Judges the plan in the file PLAN on the tape in the file TAPE and writes a line: the report on
    it, or the refusal as the slip has it, without an offset where the tape is accepted.
        gap GAP
        step STEP, state STATE: NUMBER found, the model gives NUMBER
        step STEP, input INPUT: NUMBER found, above the limit LIMIT
        step STEP, input INPUT: NUMBER found, below the limit LIMIT
        cost COST, floor FLOOR: the gap, GAP, is above the wanted one
    A state can pass a limit as well. PLAN is a text of words: `plan` and then the plan's numbers,
    `multipliers` and then the multipliers, with blanks and line ends between them. Exit status: 0
    where there is a report, whatever it says; 1 for a refusal, and where a file cannot be read or
    PLAN is no such text.

reference expect < CASES
    Writes the output expected from the planner's test programs. CASES is a text, one case a
    line; blank lines and lines that begin with # are passed over. Parts may be empty; hex
    digits may have blanks between bytes.
        read HEX
        steps HEX
        judge HEX / plan numbers / multipliers
        ranges HEX / plan numbers / multipliers
        show HEX / multipliers
        solve HEX / plan numbers / multipliers
        entry HEX
        model HEX / n m a_len b_len out_len
        missing HEX / n m N
        count HEX
        banded HEX
        pivot HEX
        next HEX / y
        correction HEX / residuals
    A float is the 16 hex digits of its bits, in upper case, the first of them first:
    3FF0000000000000 is 1. `model` has the a_len entries of A and then the b_len entries of B;
    its lent out has out_len bytes, all of them 7. `missing` has 18 bytes of marks: the place
    8j + b is given where bit b of byte j, the lowest being 0, is 1; the places are columns 0 to
    9, start values 0 to 5, the rounds command, then steps 0 to 11 of column 0, of column 1 and
    so on, 137 in all. `count` has 48 bytes: three words of 64 bits of what is asked for, each
    low byte first, then three of what is given. `banded` and `correction` have a tape, `pivot` and
    `next` a float. y is a multiplier, and residuals are within 32 bits. A correction is lent as
    many places for pivots and for d as there are residuals, all of them 7.0.
    Each case gives one line:
        refused NUMBER CARRIED    CARRIED is an offset, R, an entry's count, or - for nothing
        refused 10 STEP COLUMN FOUND DUE    of judge and ranges: the place, the number there,
                                            the model's
        refused 11 STEP COLUMN FOUND DUE    of judge and ranges: the place, the number there,
                                            the limit
        refused 13 COST FLOOR     of judge and ranges
        read ..                   118 numbers: n m N, A by rows of 6, B by rows of 4, w, lo,
                                  hi, r, h, x(0), g, R, T; places beyond the sizes are 0
        steps ..                  240 numbers: the reference of command 31 for column c and
                                  step k at 12c + k, 0 where none is given; its mark, 1 where
                                  one is given, at 120 + 12c + k
        gap GAP                   of judge
        ranges ..                 8 numbers: the low and the high end of u(0,j) at 2j and 2j + 1;
                                  places beyond m are 0
        shown                     of show
        proved ROUNDS GAP d d d d    of solve, with u(0) in 4 places
        impossible ROUNDS         of solve
        whole NUMBER              of entry
        near NUMBER BITS          of entry, with the leftover's bits as an unsigned number
        written                   of model
        missing COUNT             required places of these sizes without a mark
        count COUNT               bits that are asked for and not given
        step STEP                 of banded: 0 for command 50, 1 for command 51
        usable 0 or usable 1      of pivot
        next Y                    y plus the whole number nearest to the float, limited
        correction OUT / PIVOTS / D    what the lent places hold at exit, each float as its bits,
                                  an unsigned number, or nan; OUT is 1 where they were written
    After the line of a solve, refused or not, come two more lines, `plan ..` and
    `multipliers ..`, with what the slices hold at exit; after that of a model, refused or
    not, a line `out ..` with the bytes that out holds at exit.
    Cases of whole numbers give the word again and a result for each part, `range` two:
        quotient DIVIDEND DIVISOR / ..    rounded down
        quotient_up DIVIDEND DIVISOR / .. rounded up
        limit NUMBER LO HI / ..           the number limited to lo and hi
        size NUMBER / ..                  without its sign
        square SLOPE DIVISOR / ..         the quotient of the square, rounded up
        range WEIGHT LO HI REFERENCE SLOPE GAP / ..    the ends of a plan number's range
        root NUMBER / ..                  the least number from 0 whose square is NUMBER or more
        operands HEX                      of 4 bytes: the first as unsigned, the first 2 as
                                          unsigned and as signed, the last 2 as signed, all as
                                          unsigned and as signed

reference generate [COUNT [SEED]]
    Makes COUNT (10000) cases from the seeds SEED (0), SEED + 1, .., and for each seed a tape that
    gives a drawn set of places, 50 entries and 2 models in floats, 10 columns with slopes and
    gaps, a tape with residuals and 10 multipliers with floats to add, runs them through the calls and writes how often each answer and each refusal came, how
    often 'proved' and 'impossible' came by rounds, sizes, rare shapes, curves and weights of 0,
    what a solve came to with these, how often a command 31 brought a refusal about, the first
    faults of plans by kind, side and step, how many faults plans had, gaps at T and one above it,
    how many required places were missing, answers to entries and models by kinds, sizes and rare
    shapes, records by kind, m, rare shapes and wrong lengths, which answers of judging and solving
    are others since the third piece's quotient is rounded up, the ranges of first duties and
    of the columns by pieces, limits that they reach, m and rare shapes, and for the banded step
    tapes by their command 50 or 51, refusals that these bring about, what solves come to with
    51, corrections by answers, wrong lengths and rare shapes, next multipliers and pivots. Fails if a count is 0,
    which is to be expected of a small COUNT.
";

fn main() -> ExitCode {
    let arguments: Vec<String> = env::args().skip(1).collect();
    let words: Vec<&str> = arguments.iter().map(String::as_str).collect();
    match run(&words) {
        Ok(code) => code,
        Err(error) => {
            eprintln!("reference: {error}");
            ExitCode::FAILURE
        }
    }
}

/// Runs a subcommand.
fn run(words: &[&str]) -> Result<ExitCode, String> {
    match words {
        ["--help" | "-h" | "help"] => write_out(HELP)?,
        ["slip"] => write_out(&slip(&standard_input()?))?,
        ["record"] => write_out(&record::text(&standard_input()?))?,
        ["judge", tape, plan] => return judge(tape, plan),
        ["expect"] => {
            let text = String::from_utf8(standard_input()?);
            let text = text.map_err(|_| "the cases are no text")?;
            write_out(&expect(&text)?)?;
        }
        ["generate"] => generate(10_000, 0)?,
        ["generate", count] => generate(number(count)?, 0)?,
        ["generate", count, seed] => generate(number(count)?, number(seed)?)?,
        _ => return Err("no such subcommand; see reference --help".to_string()),
    }
    Ok(ExitCode::SUCCESS)
}

/// Writes the report on a plan, or the refusal, which fails without another word.
fn judge(tape: &str, plan: &str) -> Result<ExitCode, String> {
    let bytes = file(tape)?;
    let text = String::from_utf8(file(plan)?).map_err(|_| format!("{plan}: no text"))?;
    let lent: PlanFile = text.parse().map_err(|error| format!("{plan}: {error}"))?;
    let report = report::text(&bytes, &lent.plan, &lent.multipliers);
    let code = match report {
        Ok(_) => ExitCode::SUCCESS,
        Err(_) => ExitCode::FAILURE,
    };
    write_out(&report.unwrap_or_else(refused))?;
    Ok(code)
}

/// All bytes of a file.
fn file(name: &str) -> Result<Vec<u8>, String> {
    fs::read(name).map_err(|error| format!("{name}: {error}"))
}

/// Writes the counts, and fails if one is 0.
fn generate(count: u64, seed: u64) -> Result<(), String> {
    let counts = count_cases(count, seed);
    write_out(&counts.text())?;
    counts.require_all()?;
    write_out("no count is 0\n")
}

/// A whole number from an argument.
fn number(word: &str) -> Result<u64, String> {
    word.parse()
        .map_err(|_| format!("`{word}` is not a whole number"))
}

/// All bytes of standard input.
fn standard_input() -> Result<Vec<u8>, String> {
    let mut bytes = Vec::new();
    match io::stdin().read_to_end(&mut bytes) {
        Ok(_) => Ok(bytes),
        Err(error) => Err(error.to_string()),
    }
}

/// Writes a text to standard output.
fn write_out(text: &str) -> Result<(), String> {
    let written = io::stdout().write_all(text.as_bytes());
    written.map_err(|error| error.to_string())
}
