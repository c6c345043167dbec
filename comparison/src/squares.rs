//! Reports on plans whose floor has the square of a large slope, at every weight: the quotient of the
//! third piece is to be exact beyond 64 bits, and rounded up by whatever rest it leaves.

use reference::floor::{state_slope, Multipliers, MULTIPLIER_RANGE};
use reference::generate::commands::of_furnace;
use reference::generate::furnaces::sized;
use reference::generate::Random;
use reference::model::{Column, Furnace, Whole, UNIT};
use reference::tape::NUMBER_RANGE;

use crate::calls::{Call, Lending};
use crate::comparison::{Comparison, LARGE_SQUARES, REST_OF_1, SMALL_SQUARES, WHOLE_QUOTIENT};
use crate::faults::followed;

/// The seed of everything here.
const SEED: u64 = 8;

/// The largest weight.
const MOST_WEIGHT: Whole = 255;

/// Slopes that are tried at each weight.
const SLOPES: usize = 60;

/// Judges plans with slopes of all sizes at every weight.
pub fn add_squares(comparison: &mut Comparison) {
    let mut random = Random::new(SEED);
    for weight in 1..=MOST_WEIGHT {
        for _ in 0..SLOPES {
            add_slope(comparison, weight, &mut random);
        }
        if comparison.ends() {
            return;
        }
    }
}

/// Judges a plan of two steps with a drawn slope of x(1), for which the third piece applies. T is 0,
/// so that the report has the floor, and ranges are refused.
fn add_slope(comparison: &mut Comparison, weight: Whole, random: &mut Random) {
    let y = multipliers(weight, random);
    let furnace = furnace(weight, y[0].signum(), random);
    let tape = of_furnace(&furnace, random).concat();
    let lent = followed(&furnace, random);
    let origin = rest(&furnace, &y.map(|number| vec![number]).to_vec());
    let multipliers = y.map(|number| number as i32);
    let lending = Lending::new(origin, &tape, &lent.plan, &multipliers);
    comparison.also(Call::JudgeReport, &lending);
    comparison.also(Call::Ranges, &lending);
}

/// y(0), a multiple of 4h, so that its part of the slope is one of 4P, and y(1), which is added to
/// the slope where A is 1: the rest of the square is 0 with 0, and 1 with 1 and −1.
fn multipliers(weight: Whole, random: &mut Random) -> [Whole; 2] {
    // Beyond these the least is at an end of the limits.
    let most = MULTIPLIER_RANGE.min(80_000 * weight) / (4 * weight) - 1;
    let least = random.choose(&[1, most / 2, most - 3]);
    let first = 4 * weight * random.between(least, most) * random.choose(&[-1, 1]);
    let drawn = random.between(-1_000, 1_000);
    [first, random.choose(&[-1, 0, 1, drawn])]
}

/// A furnace with A 1, whose state is kept from where its cost and the slope are least by neither
/// limit. Every plan within the limits of its input follows the tape.
fn furnace(weight: Whole, sign: Whole, random: &mut Random) -> Furnace {
    let mut furnace = sized(1, 1, 2);
    furnace.a[0][0] = 1;
    furnace.b[0][0] = random.between(-3 * UNIT, 3 * UNIT);
    furnace.columns[0] = Column {
        lo: -NUMBER_RANGE,
        hi: NUMBER_RANGE,
        reference: -sign * NUMBER_RANGE,
        weight,
    };
    furnace.columns[1] = Column {
        lo: -5_000,
        hi: 5_000,
        reference: random.between(-5_000, 5_000),
        weight: random.between(1, MOST_WEIGHT),
    };
    furnace
}

/// How the square of x(1)'s slope is divided, in words for the counts.
fn rest(furnace: &Furnace, y: &Multipliers) -> &'static str {
    let slope = state_slope(furnace, y, 1, 0);
    let square = slope * slope;
    let rest = square % (4 * furnace.columns[0].price());
    match (square >> 64, rest) {
        (0, _) => SMALL_SQUARES,
        (_, 0) => WHOLE_QUOTIENT,
        (_, 1) => REST_OF_1,
        _ => LARGE_SQUARES,
    }
}

#[cfg(test)]
mod tests {
    use reference::rounds::minimiser;
    use reference::{judge_plan, Refusal};

    use super::*;

    #[test]
    fn the_least_is_between_the_limits_and_the_plan_follows_the_tape() {
        let mut random = Random::new(SEED);
        for weight in 1..=MOST_WEIGHT {
            for _ in 0..SLOPES {
                let y = multipliers(weight, &mut random);
                let furnace = furnace(weight, y[0].signum(), &mut random);
                let column = furnace.columns[0];
                let slope = state_slope(&furnace, &y.map(|number| vec![number]).to_vec(), 1, 0);
                let least = minimiser(&column, slope);
                assert!(column.lo < least && least < column.hi, "{weight} {y:?}");
                let tape = of_furnace(&furnace, &mut random).concat();
                let lent = followed(&furnace, &mut random);
                let judged = judge_plan(&tape, &lent.plan, &y.map(|number| number as i32));
                assert!(matches!(judged, Err(Refusal::Wide { .. })), "{judged:?}");
            }
        }
    }
}
