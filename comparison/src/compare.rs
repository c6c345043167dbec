//! The commands `compare` and `replay`.

use std::env;
use std::io::{BufRead, BufReader};
use std::process::{Command, ExitCode, Stdio};

use crate::comparison::Comparison;
use crate::guard::Beside;
use crate::part::Part;
use crate::{banded, edges, faults, given, imports, ranges, records, slip, squares, weights};

/// Says where a long run is once in so many tapes.
const SAY_ONE_IN: u64 = 10_000;

/// Begins a line of the child's standard error that names the part it comes to.
const AT: &str = "at ";

/// Runs [`compare_here`] as a child, which tells each part that it comes to. So a crash, which
/// ends the child, can be told with the part that it came in.
pub fn compare(count: u64, first_seed: u64) -> Result<ExitCode, String> {
    let mut child = Command::new(env::current_exe().map_err(text)?)
        .args(["compare-here", &count.to_string(), &first_seed.to_string()])
        .stderr(Stdio::piped())
        .spawn()
        .map_err(text)?;
    let mut part = None;
    if let Some(told) = child.stderr.take() {
        for line in BufReader::new(told).split(b'\n') {
            let line = String::from_utf8_lossy(&line.map_err(text)?).into_owned();
            match line.strip_prefix(AT) {
                Some(at) => part = Some(at.parse::<Part>()?),
                None => eprintln!("{line}"),
            }
        }
    }
    let status = child.wait().map_err(text)?;
    match (status.code(), part) {
        (Some(0), _) => Ok(ExitCode::SUCCESS),
        // It has said why.
        (Some(1), _) => Ok(ExitCode::FAILURE),
        (_, Some(part)) => Err(format!("{status} in {}", part.origin())),
        (_, None) => Err(format!("{status} before the first part")),
    }
}

/// An error in words.
fn text(error: std::io::Error) -> String {
    error.to_string()
}

/// Compares the parts that have no seed, and the cases, tapes with drawn places, ranges of drawn
/// duties, banded steps, entries and models of `count` seeds from `first_seed` on, and prints what was
/// tried. Fails where something differs or was never met.
pub fn compare_here(count: u64, first_seed: u64) -> Result<(), String> {
    let mut comparison = Comparison::new(Beside::Guards, Some(slip::program()?));
    for edge in Part::EDGES {
        tell(edge);
        add(&mut comparison, edge);
    }
    for place in 1..=count {
        if comparison.ends() {
            break;
        }
        let seed = first_seed.wrapping_add(place - 1);
        for part in Part::of_seed(seed) {
            tell(part);
            add(&mut comparison, part);
        }
        if place.is_multiple_of(SAY_ONE_IN) {
            eprintln!("{place} tapes, seed {seed}: {}", comparison.summary());
        }
    }
    print!("{}", comparison.text());
    println!(
        "open tapes of which no change ends: {}",
        comparison.open_unchanged
    );
    println!("{}", comparison.summary());
    comparison.verdict()?;
    comparison.require_all()
}

/// Compares a part alone.
pub fn replay(part: Part) -> Result<(), String> {
    let mut comparison = Comparison::new(Beside::Guards, Some(slip::program()?));
    add(&mut comparison, part);
    println!("{}", comparison.summary());
    comparison.verdict()
}

/// Tells the parent what comes next.
fn tell(part: Part) {
    // One write for the whole line, since there are many.
    let line = format!("{AT}{part}\n");
    eprint!("{line}");
}

/// Compares a part.
pub fn add(comparison: &mut Comparison, part: Part) {
    comparison.part = part;
    match part {
        Part::Slips => edges::add_slips(comparison),
        Part::Tapes => edges::add_tapes(comparison),
        Part::Places => edges::add_places(comparison),
        Part::Missing => given::add_missing(comparison),
        Part::Slices => edges::add_slices(comparison),
        Part::Equal => edges::add_equal(comparison),
        Part::Squares => squares::add_squares(comparison),
        Part::Faults => faults::add_faults(comparison),
        Part::Weights => weights::add_weights(comparison),
        Part::Ranges => ranges::add_ranges(comparison),
        Part::Records => records::add_records(comparison),
        Part::Banded => banded::add_banded(comparison),
        Part::Entries => imports::add_entries(comparison),
        Part::Models => imports::add_models(comparison),
        Part::Case(seed) => comparison.add_case(seed),
        Part::GivenOf(seed) => comparison.add_given_of(seed),
        Part::RangesOf(seed) => comparison.add_ranges_of(seed),
        Part::BandedOf(seed) => comparison.add_banded_of(seed),
        Part::EntriesOf(seed) => comparison.add_entries_of(seed),
        Part::ModelsOf(seed) => comparison.add_models_of(seed),
    }
}
