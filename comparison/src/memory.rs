//! The command `memory`.

use reference::count::{BANDED, CALLS, GIVEN, IMPORTS, RANGES, RECORDS, REPORTS};
use reference::generate::{kind, Kind};

use crate::compare;
use crate::comparison::{Comparison, REFERENCES, STEP};
use crate::guard::Beside;
use crate::part::Part;

/// The first seed of those that meet every answer and every refusal.
pub const SEED: u64 = 400;

/// Compares the cases, tapes with drawn places, ranges of drawn duties, banded steps, entries and models
/// of `count` seeds with nothing beside what is lent. To be run under valgrind, which is slow: late
/// tapes, edges and slips are left out. Fails where something differs, or where a call's answer or
/// one of its refusals was never met.
pub fn memory(count: u64, first_seed: u64) -> Result<(), String> {
    let mut comparison = Comparison::new(Beside::Nothing, None);
    let seeds = (0..count).map(|place| first_seed.wrapping_add(place));
    for seed in seeds.filter(|seed| kind(*seed) != Kind::Late) {
        for part in Part::of_seed(seed) {
            compare::add(&mut comparison, part);
        }
    }
    let of_calls = |heading: &str| {
        CALLS.contains(&heading)
            || IMPORTS.contains(&heading)
            || RANGES.contains(&heading)
            || [REFERENCES, STEP, GIVEN, RECORDS, REPORTS, BANDED[3]].contains(&heading)
    };
    print!("{}", comparison.counts.text_of(of_calls));
    println!("{}", comparison.summary());
    comparison.verdict()?;
    comparison.counts.require(of_calls)
}
