//! Weights of 0 at the edges: every byte as a weight, all weights 0 with all other numbers at their
//! limits, and columns of weight 0 with one number.

use reference::calls::{input_place, state_place};
use reference::floor::MULTIPLIER_RANGE;
use reference::generate::commands::of_furnace;
use reference::generate::furnaces::limits;
use reference::generate::Random;
use reference::model::{Furnace, UNIT};
use reference::tape::{COLUMN, MOST_INPUTS, MOST_STATES, MOST_STEPS};

use crate::calls::{Call, Lending};
use crate::comparison::{Comparison, ALL_WEIGHTS_0, EVERY_WEIGHT, ONE_NUMBER};
use crate::edges::{of_all_sizes, put_curves};

/// The seed of everything here.
const SEED: u64 = 8;

/// How many tapes have all weights 0 and all other numbers at their limits.
const TAPES: usize = 60;

/// Calls on all tapes of these kinds.
pub fn add_weights(comparison: &mut Comparison) {
    let mut random = Random::new(SEED);
    add_every_weight(comparison, &mut random);
    for _ in 0..TAPES {
        let mut furnace = at_limits(&mut random);
        put_weights_0(&mut furnace);
        add_furnace(comparison, ALL_WEIGHTS_0, &furnace, &mut random);
    }
    for mut furnace in of_all_sizes(&mut random) {
        put_weights_0(&mut furnace);
        put_one_number(&mut furnace);
        add_furnace(comparison, ONE_NUMBER, &furnace, &mut random);
        put_at_rest(&mut furnace);
        add_furnace(comparison, ONE_NUMBER, &furnace, &mut random);
        if comparison.ends() {
            return;
        }
    }
}

/// Reads a tape of the largest sizes with each byte as the weight of each column.
fn add_every_weight(comparison: &mut Comparison, random: &mut Random) {
    for tape in every_weight(random) {
        let lending = Lending::new(EVERY_WEIGHT, &tape, &[], &[]);
        comparison.also(Call::Read, &lending);
    }
}

/// The tapes of [`add_every_weight`].
fn every_weight(random: &mut Random) -> Vec<Vec<u8>> {
    let furnace = at_limits(random);
    let mut commands = of_furnace(&furnace, random);
    let mut tapes = Vec::new();
    for place in 0..commands.len() {
        let [COLUMN, .., given] = commands[place][..] else {
            continue;
        };
        for weight in 0..=u8::MAX {
            put_last(&mut commands[place], weight);
            tapes.push(commands.concat());
        }
        put_last(&mut commands[place], given);
    }
    tapes
}

/// Puts the last byte of a command, which is the weight in a command 30.
fn put_last(command: &mut [u8], weight: u8) {
    *command.last_mut().expect("a command has its byte") = weight;
}

/// A furnace of the largest sizes with every number at a limit of its range and few rounds. Half of
/// them have a curve of any references on every column.
fn at_limits(random: &mut Random) -> Furnace {
    loop {
        let mut furnace = limits(random);
        let sizes = (furnace.states, furnace.inputs, furnace.horizon);
        if sizes == (MOST_STATES, MOST_INPUTS, MOST_STEPS) && furnace.rounds <= 10 {
            if random.one_in(2) {
                put_curves(&mut furnace, random);
            }
            return furnace;
        }
    }
}

/// Puts all weights at 0.
fn put_weights_0(furnace: &mut Furnace) {
    for column in &mut furnace.columns {
        column.weight = 0;
    }
}

/// Leaves each column its lower limit. The reference stays where it was.
fn put_one_number(furnace: &mut Furnace) {
    for column in &mut furnace.columns {
        column.hi = column.lo;
    }
}

/// Makes the furnace one that stays where it is, and begins at its limits: of limits with one number
/// the numbers are then a plan.
fn put_at_rest(furnace: &mut Furnace) {
    for i in 0..furnace.states {
        furnace.a[i].fill(0);
        furnace.a[i][i] = UNIT;
        furnace.b[i].fill(0);
        furnace.drift[i] = 0;
        furnace.start[i] = furnace.columns[i].lo;
    }
}

/// All calls on a furnace's tape, with the plan of lower limits and multipliers of several sizes, 0
/// and the ends of their range included.
fn add_furnace(comparison: &mut Comparison, origin: &str, furnace: &Furnace, random: &mut Random) {
    let tape = of_furnace(furnace, random).concat();
    let plan = lower_limits(furnace);
    for size in [0, 1, 1_000, MULTIPLIER_RANGE as i32] {
        let multipliers = ends(furnace.multipliers_length(), size, random);
        for call in Call::ALL {
            comparison.also(call, &Lending::new(origin, &tape, &plan, &multipliers));
        }
    }
}

/// The lower limits in the places of a plan.
fn lower_limits(furnace: &Furnace) -> Vec<i32> {
    let mut plan = vec![0; furnace.plan_length()];
    for k in 0..furnace.horizon {
        for j in 0..furnace.inputs {
            plan[input_place(furnace, k, j)] = furnace.input_column(j).lo as i32;
        }
        for i in 0..furnace.states {
            plan[state_place(furnace, k + 1, i)] = furnace.state_column(i).lo as i32;
        }
    }
    plan
}

/// Multipliers of one size, of both signs.
fn ends(count: usize, size: i32, random: &mut Random) -> Vec<i32> {
    let ends = (0..count).map(|_| random.choose(&[-size, size]));
    ends.collect()
}

#[cfg(test)]
mod tests {
    use reference::floor::ceiling;
    use reference::{judge_plan, read, Refusal};

    use super::*;

    #[test]
    fn every_weight_is_accepted() {
        let tapes = every_weight(&mut Random::new(SEED));
        assert_eq!(tapes.len(), 2_560);
        let mut with_0 = 0;
        for tape in tapes {
            let furnace = read(&tape).expect("an accepted tape");
            with_0 += furnace.columns.iter().filter(|c| c.weight == 0).count();
        }
        assert_eq!(with_0, 10);
    }

    #[test]
    fn no_cost_at_the_limits() {
        let mut furnace = at_limits(&mut Random::new(SEED));
        assert!(ceiling(&furnace) > 0);
        put_weights_0(&mut furnace);
        assert_eq!(ceiling(&furnace), 0);
    }

    #[test]
    fn the_gap_at_rest_is_the_allowance_for_rounding() {
        // Every residual is 0, and so is the cost: what is left is 2048 × the sum of |y|.
        let mut random = Random::new(SEED);
        for mut furnace in of_all_sizes(&mut random) {
            put_weights_0(&mut furnace);
            put_one_number(&mut furnace);
            put_at_rest(&mut furnace);
            furnace.wanted_gap = 0xffff_ffff;
            let tape = of_furnace(&furnace, &mut random).concat();
            let count = furnace.multipliers_length();
            let judged = |size: i32, random: &mut Random| {
                let multipliers = ends(count, size, random);
                judge_plan(&tape, &lower_limits(&furnace), &multipliers)
            };
            assert_eq!(judged(0, &mut random), Ok(0));
            assert_eq!(judged(1_000, &mut random), Ok(2_048_000 * count as i128));
            let floor = -2_048 * 16_777_216 * count as i128;
            let wide = Refusal::Wide { cost: 0, floor };
            assert_eq!(judged(16_777_216, &mut random), Err(wide));
        }
    }
}
