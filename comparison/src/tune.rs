//! Open tapes, changed a little so that the planner shows the multipliers of their rounds.
//!
//! An open solve writes nothing, so its rounds are seen by neither call. The same tape with T at
//! the gap of one of its rounds is 'proved' in that round, and one with narrower limits becomes
//! 'impossible': both write the multipliers.

use reference::generate::furnaces::{trial, MOST_GAP};
use reference::generate::Random;
use reference::model::Furnace;

/// How an open tape was changed, in a word for the counts.
pub const ROUNDS_CUT: &str = "R cut";
/// See [`ROUNDS_CUT`].
pub const GAP_RAISED: &str = "T raised";
/// See [`ROUNDS_CUT`].
pub const LIMITS_NARROWED: &str = "limits narrowed";

/// The most rounds of a changed tape that ends with 'proved'.
const MOST_PROVED: u32 = 300;

/// The most rounds of a changed tape that ends with 'impossible'.
const MOST_IMPOSSIBLE: u32 = 40;

/// How far limits lie from the reference when they are narrowed, tried in turn.
const WIDTHS: [i128; 6] = [5_000, 1_000, 200, 40, 8, 0];

/// The tape's variants: with R cut, with T raised to the gaps of two of its rounds, and with
/// narrowed limits, each where there is one.
pub fn variants(open: &Furnace, random: &mut Random) -> Vec<(&'static str, Furnace)> {
    let mut all = Vec::new();
    if open.rounds > 1 {
        let mut furnace = open.clone();
        furnace.rounds = 1 + random.below(open.rounds as usize - 1) as u32;
        all.push((ROUNDS_CUT, furnace));
    }
    for furnace in gap_raised(open, random) {
        all.push((GAP_RAISED, furnace));
    }
    if let Some(furnace) = limits_narrowed(open, random) {
        all.push((LIMITS_NARROWED, furnace));
    }
    all
}

/// T at the smallest gap of the tape's rounds, and at that of another round.
fn gap_raised(open: &Furnace, random: &mut Random) -> Vec<Furnace> {
    let mut records = trial(open, open.rounds.min(MOST_PROVED)).records;
    records.retain(|(_, gap)| *gap <= MOST_GAP);
    let Some(last) = records.len().checked_sub(1) else {
        return Vec::new();
    };
    let mut places = vec![last, random.below(records.len())];
    places.dedup();
    let raised = |place: usize| {
        let (rounds, gap) = records[place];
        let mut furnace = open.clone();
        furnace.rounds = rounds + random.below(3) as u32;
        furnace.wanted_gap = gap;
        furnace
    };
    places.into_iter().map(raised).collect()
}

/// Limits as wide around the references of step 0 as 'impossible' allows.
fn limits_narrowed(open: &Furnace, random: &mut Random) -> Option<Furnace> {
    for width in WIDTHS {
        let mut furnace = open.clone();
        for (place, column) in furnace.columns.iter_mut().enumerate() {
            let middle = column.limit(open.reference(place, 0));
            column.lo = column.lo.max(middle - width);
            column.hi = column.hi.min(middle + width);
        }
        if let Some(rounds) = trial(&furnace, MOST_IMPOSSIBLE).impossible {
            furnace.rounds = rounds + random.below(3) as u32;
            return Some(furnace);
        }
    }
    None
}
