//! Furnaces and residuals for the banded step, and floats to add to multipliers.

use super::commands;
use super::damage;
use super::furnaces::{any_size, at_end, fill, largest, limits, near_rest, plain, sized, MOST_GAP};
use super::random::Random;
use crate::calls::RESIDUAL_RANGE;
use crate::floor::MULTIPLIER_RANGE;
use crate::model::{Correction, Furnace, Whole};
use crate::shapes::some_weight_0;
use crate::tape::{ENTRY_RANGE, MOST_INPUTS, MOST_STATES, MOST_STEPS, MOST_WEIGHT};

/// Is a furnace to have a command 51? Since a third of the furnaces have a weight of 0, where it would be
/// refused, it is drawn for more than a quarter.
pub(super) fn drawn(random: &mut Random) -> bool {
    random.below(8) < 3
}

/// Puts a command 51 where one is drawn and no weight is 0.
pub(super) fn put(furnace: &mut Furnace, is_drawn: bool) {
    if is_drawn && !some_weight_0(furnace) {
        furnace.correction = Correction::Banded;
    }
}

/// What is lent to [`banded_correction`](crate::banded_correction).
#[derive(Clone, Debug, PartialEq, Eq)]
pub struct Lending {
    /// The tape's bytes.
    pub tape: Vec<u8>,
    /// The residuals.
    pub residuals: Vec<i64>,
    /// How many places for pivots.
    pub pivots: usize,
    /// How many places for d.
    pub correction: usize,
}

/// What a furnace for the banded step is to be.
#[derive(Clone, Copy)]
enum Family {
    /// Near rest, as real ones are.
    Ordinary,
    /// Of all value ranges.
    Plain,
    /// Every number at a limit of its range.
    Extreme,
    /// Zones that heat each other as strongly as A allows, over all steps.
    Coupled,
    /// One or two states, inputs and steps.
    Small,
    /// The largest sizes.
    Largest,
    /// Strongly coupled, with inputs that heat little or nothing: most have a pivot that falls to 0 or
    /// below by rounding.
    Falling,
}

impl Family {
    /// All families, the smaller furnaces more often: W of the largest costs most.
    const DRAWN: [Family; 12] = [
        Family::Ordinary,
        Family::Ordinary,
        Family::Ordinary,
        Family::Plain,
        Family::Plain,
        Family::Extreme,
        Family::Coupled,
        Family::Small,
        Family::Small,
        Family::Small,
        Family::Largest,
        Family::Falling,
    ];

    /// A furnace of the family.
    fn make(self, random: &mut Random) -> Furnace {
        match self {
            Family::Ordinary => near_rest(random),
            Family::Plain => plain(random),
            Family::Extreme => limits(random),
            Family::Coupled => coupled(random),
            Family::Small => small(random),
            Family::Largest => largest(random),
            Family::Falling => falling(random),
        }
    }
}

/// A strongly coupled furnace with a command 51. Some fall back on g.
pub(super) fn strong(random: &mut Random) -> Furnace {
    let family = random.choose(&[Family::Coupled, Family::Falling]);
    let mut furnace = family.make(random);
    furnace.wanted_gap = random.choose(&[0, 1_000_000, MOST_GAP]);
    furnace.correction = Correction::Banded;
    furnace
}

/// A furnace of the sizes with numbers of all sizes and any weights from 1. T is 0.
fn filled(states: usize, inputs: usize, horizon: usize, random: &mut Random) -> Furnace {
    let mut furnace = sized(states, inputs, horizon);
    fill(&mut furnace, random, any_size);
    let most = random.choose(&[1, 4, MOST_WEIGHT]);
    for column in &mut furnace.columns {
        column.weight = random.between(1, most);
    }
    furnace.step_size = random.between(1, 65_535);
    furnace.rounds = random.between(1, 30) as u32;
    furnace
}

/// Two or three states that heat each other as strongly as A allows, over all steps.
fn coupled(random: &mut Random) -> Furnace {
    let (states, inputs) = (2 + random.below(2), 1 + random.below(3));
    let mut furnace = filled(states, inputs, MOST_STEPS, random);
    put_at_ends(&mut furnace, random);
    furnace
}

/// Puts the entries of A at the ends of their range, or next to them.
fn put_at_ends(furnace: &mut Furnace, random: &mut Random) {
    for entry in furnace.a.iter_mut().flatten() {
        *entry = at_end(random, ENTRY_RANGE);
    }
}

/// One or two states, inputs and steps.
fn small(random: &mut Random) -> Furnace {
    let [states, inputs, horizon] = [(); 3].map(|()| 1 + random.below(2));
    filled(states, inputs, horizon, random)
}

/// Strongly coupled, with inputs that heat little or nothing and weights of all sizes or at both ends.
fn falling(random: &mut Random) -> Furnace {
    let states = 2 + random.below(MOST_STATES - 1);
    let inputs = 1 + random.below(MOST_INPUTS);
    let mut furnace = filled(states, inputs, MOST_STEPS, random);
    put_at_ends(&mut furnace, random);
    let most = random.choose(&[0, 0, 0, 10]);
    for entry in furnace.b.iter_mut().flatten() {
        *entry = random.between(-most, most);
    }
    let graded = random.one_in(3);
    for column in &mut furnace.columns {
        let any = random.between(1, MOST_WEIGHT);
        column.weight = if graded {
            random.choose(&[1, MOST_WEIGHT])
        } else {
            any
        };
    }
    furnace
}

/// A tape with residuals. One in five has a command 50, one in five damages, and one in five a slice of
/// another length.
pub fn any(random: &mut Random) -> Lending {
    let mut furnace = random.choose(&Family::DRAWN).make(random);
    if !random.one_in(5) {
        furnace.correction = Correction::Banded;
    }
    let commands = commands::of_furnace(&furnace, random);
    let tape = if random.one_in(5) {
        damage::damaged(commands, random)
    } else {
        commands.concat()
    };
    let size = furnace.multipliers_length();
    let mut lengths = [size; 3];
    if random.one_in(5) {
        let wrong = random.choose(&[0, size - 1, size + 1]);
        lengths[random.below(3)] = wrong;
    }
    let [residuals, pivots, correction] = lengths;
    Lending {
        tape,
        residuals: any_residuals(residuals, random),
        pivots,
        correction,
    }
}

/// Residuals of one size, from 0 to 2^40, or at both ends. One list in eight has a number beyond.
fn any_residuals(count: usize, random: &mut Random) -> Vec<i64> {
    let most = 1 << random.below(41);
    let at_ends = random.one_in(5);
    let mut residuals: Vec<i64> = (0..count)
        .map(|_| {
            if at_ends {
                RESIDUAL_RANGE * random.choose(&[-1, 1])
            } else {
                random.between(-most, most) as i64
            }
        })
        .collect();
    if random.one_in(12) {
        residuals.fill(0);
    }
    if count > 0 && random.one_in(8) {
        let beyond = RESIDUAL_RANGE + 1;
        let place = random.below(count);
        residuals[place] = random.choose(&[beyond, -beyond, beyond, -beyond, i64::MAX, i64::MIN]);
    }
    residuals
}

/// A multiplier, and a float that step 4 is to add to it.
#[derive(Clone, Copy, Debug, PartialEq)]
pub struct NextStep {
    /// y~.
    pub y: Whole,
    /// d.
    pub d: f64,
}

impl NextStep {
    /// Any: at halves and beside them, of all sizes, about as far as the limits are away, and not finite.
    pub fn any(random: &mut Random) -> NextStep {
        let range = MULTIPLIER_RANGE;
        let drawn = random.between(-range, range);
        let y = random.choose(&[0, 1, -1, range, -range, drawn, drawn]);
        let half = random.between(-range, range) as f64 / 2.0;
        let room = random.choose(&[range - y, -range - y]) as f64;
        let power = random.between(-70, 120) as i32;
        let sign = random.choose(&[-1.0, 1.0]);
        let digits = random.next_bits() as f64;
        let d = match random.below(10) {
            0 => half,
            1 => half.next_up(),
            2 => half.next_down(),
            3 => random.choose(&[0.5, -0.5, 0.5_f64.next_down(), (-0.5_f64).next_down()]),
            4 => room + random.choose(&[-1.0, -0.5, 0.0, 0.5, 1.0]),
            5 => (room + 0.5).next_down(),
            6 => f64::from_bits(random.next_bits()),
            7 => random.choose(&[f64::INFINITY, f64::NEG_INFINITY, f64::NAN, 0.0, -0.0]),
            // Digits are below 2^64.
            _ => sign * digits * power_of_two(power - 64),
        };
        NextStep { y, d }
    }
}

/// 2^power, which is no subnormal.
fn power_of_two(power: i32) -> f64 {
    f64::from_bits(((1023 + power) as u64) << 52)
}

#[cfg(test)]
mod tests {
    use super::*;
    use crate::banded::Elimination;

    #[test]
    fn falling_furnaces_fall() {
        let mut fallen = 0;
        for seed in 0..40 {
            let mut furnace = falling(&mut Random::new(seed));
            furnace.correction = Correction::Banded;
            fallen += u32::from(Elimination::of_tape(&furnace).is_none());
        }
        assert!(fallen > 15, "{fallen}");
    }

    #[test]
    fn no_family_has_a_weight_of_0() {
        for family in Family::DRAWN {
            for seed in 0..20 {
                let furnace = family.make(&mut Random::new(seed));
                assert!(!some_weight_0(&furnace), "seed {seed}");
            }
        }
    }

    #[test]
    fn powers_of_two() {
        let powers = [-1_022, -1, 0, 1, 10, 1_023].map(power_of_two);
        assert_eq!(powers[..2], [f64::MIN_POSITIVE, 0.5]);
        assert_eq!(powers[2..5], [1.0, 2.0, 1_024.0]);
        assert!(powers[5].is_finite() && (2.0 * powers[5]).is_infinite());
    }
}
