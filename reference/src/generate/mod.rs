//! Tapes, plans, multipliers, entries, models, duties and residuals made from a seed, the same for the
//! same seed on every machine.
//!
//! [`tape`] gives a tape; [`case`] gives the same tape with slices to lend to the calls.
//! [`given()`] gives a tape that lacks required places or does not. [`entries()`] and [`models()`]
//! give what is to be imported, [`duties()`] columns with slopes and gaps, [`lendings()`] tapes with
//! residuals for the banded step, [`next_steps()`] multipliers with floats to add. [`records`] has furnaces
//! whose records have present numbers that look absent.

pub mod banded;
mod ceilings;
pub mod commands;
pub mod curves;
pub mod damage;
pub mod duties;
pub mod entries;
pub mod faulty;
pub mod furnaces;
pub mod given;
pub mod late;
pub mod lent;
pub mod models;
pub mod random;
pub mod rare;
pub mod records;
pub mod weights;

pub use banded::{Lending, NextStep};
pub use duties::Duty;
pub use entries::{EntryKind, GeneratedEntry};
pub use given::GivenTape;
pub use lent::Lent;
pub use models::Model;
pub use random::Random;

use self::weights::Zeros;
use crate::model::Furnace;
use crate::tape::read;

/// What a generated tape is meant to be.
#[derive(Clone, Copy, Debug, PartialEq, Eq, PartialOrd, Ord)]
pub enum Kind {
    /// Accepted, with numbers of all sizes.
    Plain,
    /// Accepted, with every number at a limit of its range.
    Limits,
    /// Accepted, tuned to end with 'proved'.
    Proved,
    /// Accepted, tuned to end with 'impossible'.
    Impossible,
    /// Accepted, of a shape that the kinds above hardly have, tuned to end with either.
    Rare,
    /// Accepted, tuned to end with either after 1,000 rounds or more.
    Late,
    /// A tape of the kinds above with damages. Some are still accepted.
    Damaged,
    /// Bytes that are hardly a tape.
    Noise,
}

impl Kind {
    /// All kinds.
    pub const ALL: [Kind; 8] = [
        Kind::Plain,
        Kind::Limits,
        Kind::Proved,
        Kind::Impossible,
        Kind::Rare,
        Kind::Late,
        Kind::Damaged,
        Kind::Noise,
    ];
}

/// A generated tape.
#[derive(Clone, Debug, PartialEq, Eq)]
pub struct GeneratedTape {
    /// What it is meant to be.
    pub kind: Kind,
    /// The tape's bytes.
    pub bytes: Vec<u8>,
}

/// A generated tape with slices for the calls.
#[derive(Clone, Debug, PartialEq, Eq)]
pub struct Case {
    /// The tape.
    pub tape: GeneratedTape,
    /// Slices to judge: each plan with its multipliers, and each multipliers alone.
    pub judged: Vec<Lent>,
    /// Slices to lend to a solve.
    pub solved: Vec<Lent>,
}

/// The tape of a seed.
pub fn tape(seed: u64) -> GeneratedTape {
    tape_from(&mut Random::new(seed))
}

/// The tape of a seed, and slices for the calls.
pub fn case(seed: u64) -> Case {
    let mut random = Random::new(seed);
    let tape = tape_from(&mut random);
    let (judged, solved) = match read(&tape.bytes) {
        Ok(furnace) => (
            lent::judged(&tape.bytes, &furnace, &mut random),
            lent::to_solve(&furnace, &mut random),
        ),
        Err(_) => {
            let (plan, multipliers) = (random.below(20), random.below(12));
            let lent = lent::any_values(plan, multipliers, &mut random);
            (vec![lent.clone()], vec![lent])
        }
    };
    Case {
        tape,
        judged,
        solved,
    }
}

/// The tape of a seed that gives a drawn set of places.
pub fn given(seed: u64) -> GivenTape {
    given::any(&mut Random::new(seed))
}

/// How many entries a seed has.
pub const ENTRIES: usize = 50;

/// How many models a seed has.
pub const MODELS: usize = 2;

/// The entries of a seed.
pub fn entries(seed: u64) -> Vec<GeneratedEntry> {
    let mut random = Random::new(seed);
    (0..ENTRIES).map(|_| entries::any(&mut random)).collect()
}

/// The models of a seed.
pub fn models(seed: u64) -> Vec<Model> {
    let mut random = Random::new(seed);
    (0..MODELS).map(|_| models::any(&mut random)).collect()
}

/// How many duties a seed has.
pub const DUTIES: usize = 10;

/// The duties of a seed.
pub fn duties(seed: u64) -> Vec<Duty> {
    let mut random = Random::new(seed);
    (0..DUTIES).map(|_| duties::any(&mut random)).collect()
}

/// The tapes and residuals of a seed for the banded step.
pub fn lendings(seed: u64) -> Vec<Lending> {
    let mut random = Random::new(seed);
    (0..LENDINGS).map(|_| banded::any(&mut random)).collect()
}

/// How many tapes with residuals a seed has.
pub const LENDINGS: usize = 1;

/// The multipliers and floats of a seed.
pub fn next_steps(seed: u64) -> Vec<NextStep> {
    let mut random = Random::new(seed);
    (0..NEXT_STEPS)
        .map(|_| NextStep::any(&mut random))
        .collect()
}

/// How many multipliers with floats a seed has.
pub const NEXT_STEPS: usize = 10;

/// The kind of a seed's tape, which is not made for it.
pub fn kind(seed: u64) -> Kind {
    kind_from(&mut Random::new(seed))
}

/// The kind of the next tape of a generator.
fn kind_from(random: &mut Random) -> Kind {
    // Late ones are few: each costs as much as a hundred others.
    match random.below(200) {
        0..=29 => Kind::Plain,
        30..=39 => Kind::Limits,
        40..=89 => Kind::Proved,
        90..=124 => Kind::Impossible,
        125..=137 => Kind::Rare,
        138..=139 => Kind::Late,
        140..=189 => Kind::Damaged,
        _ => Kind::Noise,
    }
}

/// The next tape of a generator.
fn tape_from(random: &mut Random) -> GeneratedTape {
    let kind = kind_from(random);
    let bytes = match kind {
        Kind::Plain => whole(&plain(random), random),
        Kind::Limits => whole(&limits(random), random),
        Kind::Proved => whole(&furnaces::proved(random), random),
        Kind::Impossible => whole(&furnaces::impossible(random), random),
        Kind::Rare => whole(&rare::any(random), random),
        Kind::Late => whole(&late::any(random), random),
        Kind::Damaged => {
            let furnace = match random.below(4) {
                0 => limits(random),
                1 => furnaces::proved(random),
                _ => plain(random),
            };
            damage::damaged(commands::of_furnace(&furnace, random), random)
        }
        Kind::Noise => damage::noise(random),
    };
    GeneratedTape { kind, bytes }
}

/// A furnace of all value ranges, some with curves, some with weights of 0, some with a command 51. One
/// in 20 is strongly coupled.
fn plain(random: &mut Random) -> Furnace {
    if random.one_in(20) {
        return banded::strong(random);
    }
    let mut furnace = furnaces::plain(random);
    if curves::drawn(random) {
        curves::put_any(&mut furnace, random, furnaces::any_size);
    }
    Zeros::any(random).put(&mut furnace, random);
    banded::put(&mut furnace, banded::drawn(random));
    furnace
}

/// A furnace with every number at a limit of its range, some with curves, some with weights of 0, some
/// with a command 51.
fn limits(random: &mut Random) -> Furnace {
    let mut furnace = furnaces::limits(random);
    if curves::drawn(random) {
        curves::put_any(&mut furnace, random, furnaces::at_end);
    }
    Zeros::any(random).put(&mut furnace, random);
    banded::put(&mut furnace, banded::drawn(random));
    furnace
}

/// The whole tape of a furnace.
fn whole(furnace: &Furnace, random: &mut Random) -> Vec<u8> {
    commands::of_furnace(furnace, random).concat()
}
