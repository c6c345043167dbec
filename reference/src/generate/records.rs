//! Furnaces whose records have numbers of FF throughout, as absent fields are, and lengths of the
//! slices for a record's two readers. Nothing is drawn: the numbers are worked out by hand.

use super::furnaces::{sized, MOST_GAP};
use crate::marks::Sizes;
use crate::model::{Column, Furnace, Whole};
use crate::record::{service_length, LABORATORY_LENGTH};

/// One state, one step and some inputs: 'proved' in round 1 with the widest gap that T allows,
/// 4,294,967,295, and with all duties −1.
///
/// All weights are 0, so that costs and ceiling are 0. Round 0 takes duty −6, which gives
/// S = 81,102 − 15,564 = 65,538 and state 16, above its limit 15: the candidate is dropped. With
/// e = 65,538 and g = 65,535 the next y is 65,537. Round 1 takes the upper duty −1, which gives
/// S = 13,517 − 15,564 = −2,047 and state 0. The gap is 65,537 × (4096 × 15 + 2048 + 2,047), which
/// is 65,537 × 65,535. Inputs beyond the first heat nothing and have −1 alone.
pub fn widest_gap(inputs: usize) -> Furnace {
    let mut furnace = sized(1, inputs, 1);
    furnace.columns = vec![unweighted(-1, -1); 1 + inputs];
    furnace.columns[0] = unweighted(0, 15);
    furnace.columns[1] = unweighted(-6, -1);
    furnace.b[0][0] = -13_517;
    furnace.drift[0] = -15_564;
    furnace.step_size = 65_535;
    furnace.rounds = 2;
    furnace.wanted_gap = MOST_GAP;
    furnace
}

/// 'Proved' in round 0 with gap 0 and every number of the plan −1: the drift alone keeps the states
/// there, and all else is without choice.
pub fn proved(sizes: Sizes) -> Furnace {
    let mut furnace = sized(sizes.states, sizes.inputs, sizes.horizon);
    furnace.columns.fill(Column {
        lo: -1,
        hi: -1,
        reference: -1,
        weight: 1,
    });
    furnace.drift.fill(-4096);
    furnace
}

/// 'Impossible' in round 1 with all multipliers −1. Nothing moves the states from 0, and they have 1
/// alone: each e is −4096 and with g = 16 each y is −1, which adds 4096 − 2048 to the floor. The
/// ceiling is 0.
pub fn impossible(sizes: Sizes) -> Furnace {
    let mut furnace = sized(sizes.states, sizes.inputs, sizes.horizon);
    furnace.columns.fill(unweighted(0, 0));
    furnace.columns[..sizes.states].fill(unweighted(1, 1));
    furnace.step_size = 16;
    furnace.rounds = 2;
    furnace
}

/// 'Open' after 2 rounds, with the y of [`impossible`]. States up to 2, which would cost 4096 each,
/// raise the ceiling above the floor. Our service's bytes differ from those of [`impossible`] in the
/// kind alone.
pub fn open(sizes: Sizes) -> Furnace {
    let mut furnace = impossible(sizes);
    furnace.columns[..sizes.states].fill(Column {
        lo: 1,
        hi: 2,
        reference: 1,
        weight: 1,
    });
    furnace
}

/// A column of weight 0.
fn unweighted(lo: Whole, hi: Whole) -> Column {
    Column {
        lo,
        hi,
        reference: 0,
        weight: 0,
    }
}

/// Lengths of the laboratory's and the service's slice of which one or both are wrong: one less, one
/// more, 0, or the other's.
pub fn wrong_lengths(sizes: Sizes) -> Vec<[usize; 2]> {
    let (laboratory, service) = (LABORATORY_LENGTH, service_length(sizes));
    let tried = |right: usize, other: usize| [right, right - 1, right + 1, 0, other];
    let mut all = Vec::new();
    for of_laboratory in tried(laboratory, service) {
        for of_service in tried(service, laboratory) {
            all.push([of_laboratory, of_service]);
        }
    }
    all.retain(|lengths| *lengths != [laboratory, service]);
    all
}
