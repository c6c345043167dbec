//! Furnaces of full size for the mixes, each drawn with g but without R and T.

use reference::generate::furnaces::{
    any_size, fill, put_near_rest, put_out_of_reach, rest_drift, sized, tuned_step_size,
};
use reference::generate::weights::Zeros;
use reference::generate::{curves, Random};
use reference::model::{Furnace, Whole};
use reference::tape::{
    DRIFT_RANGE, MOST_INPUTS, MOST_STATES, MOST_STEPS, MOST_WEIGHT, NUMBER_RANGE,
};

use crate::tune::Wanted;

/// A furnace without numbers.
fn blank() -> Furnace {
    sized(MOST_STATES, MOST_INPUTS, MOST_STEPS)
}

/// A furnace near its references, as real ones are. Some have curves, some weights of 0.
pub fn usual(random: &mut Random, wanted: Wanted) -> Furnace {
    let mut furnace = put_near_rest(blank(), random);
    curves::put_near_rest(&mut furnace, random);
    Zeros::any(random).put(&mut furnace, random);
    finished(furnace, random, wanted)
}

/// A furnace with limits at most two units from its references: whole duties hardly ever suit the
/// drift, so that multipliers grow until the numbers stand at an end. Some have curves within the
/// limits and beyond, some weights of 0.
pub fn narrow(random: &mut Random, wanted: Wanted) -> Furnace {
    let mut furnace = put_near_rest(blank(), random);
    let width = random.choose(&[1, 2]);
    for column in &mut furnace.columns {
        column.lo = in_range(column.reference - random.between(0, width));
        column.hi = in_range(column.reference + random.between(0, width));
    }
    for i in 0..furnace.states {
        let drift = rest_drift(&furnace, i) + random.between(-2_500, 2_500);
        furnace.drift[i] = drift.clamp(-DRIFT_RANGE, DRIFT_RANGE);
        let start = furnace.columns[i].reference + random.between(-1, 1);
        furnace.start[i] = in_range(start);
    }
    if random.one_in(3) {
        put_narrow_curves(&mut furnace, random, 2 * width);
    }
    Zeros::any(random).put(&mut furnace, random);
    finished(furnace, random, wanted)
}

/// Curves on half of the columns that leave r by up to `most`.
fn put_narrow_curves(furnace: &mut Furnace, random: &mut Random, most: Whole) {
    for (column, curve) in furnace.columns.iter().zip(&mut furnace.curves) {
        if random.one_in(2) {
            let mut reference = |_| in_range(column.reference + random.between(-most, most));
            *curve = Some((0..furnace.horizon).map(&mut reference).collect());
        }
    }
}

/// A furnace with limits out of reach where 'impossible' is wanted, and with a g at which the
/// rounds converge where no weight is 0, or a part of it.
fn finished(mut furnace: Furnace, random: &mut Random, wanted: Wanted) -> Furnace {
    if wanted == Wanted::Impossible {
        let margin = random.choose(&[1, 4, 20, 100]);
        put_out_of_reach(&mut furnace, random, margin);
    }
    let denominator = random.choose(&[1, 1, 4, 16, 64]);
    furnace.step_size = tuned_step_size(&furnace, 1, denominator);
    furnace
}

/// A furnace of all value ranges, with any g. Some have curves, some weights of 0.
pub fn any(random: &mut Random, wanted: Wanted) -> Furnace {
    let mut furnace = blank();
    fill(&mut furnace, random, any_size);
    for column in &mut furnace.columns {
        column.weight = random.between(1, MOST_WEIGHT);
    }
    if random.one_in(3) {
        curves::put_any(&mut furnace, random, any_size);
    }
    Zeros::any(random).put(&mut furnace, random);
    furnace.step_size = random.between(1, 65_535);
    if wanted == Wanted::Proved {
        put_provable(&mut furnace, random);
    }
    furnace
}

/// Numbers of all sizes hardly ever leave a plan whose gap T can be. For 'proved' a furnace gets a
/// model that does not leave the range by itself, wide limits of its states, small weights and a g
/// to suit them.
fn put_provable(furnace: &mut Furnace, random: &mut Random) {
    for entry in furnace.a.iter_mut().chain(&mut furnace.b).flatten() {
        *entry /= 16;
    }
    let states = furnace.states;
    for (c, column) in furnace.columns.iter_mut().enumerate() {
        if c < states {
            column.lo = random.between(-NUMBER_RANGE, -NUMBER_RANGE / 2);
            column.hi = random.between(NUMBER_RANGE / 2, NUMBER_RANGE);
        }
        column.weight = random.choose(&[0, 1, 1, 2]);
    }
    furnace.step_size = tuned_step_size(furnace, 1, random.choose(&[1, 4, 16]));
}

/// A number limited to the range of references and limits.
fn in_range(number: Whole) -> Whole {
    number.clamp(-NUMBER_RANGE, NUMBER_RANGE)
}
