//! Plans with faults at drawn or given places.

use std::collections::BTreeSet;

use super::lent::{saturated, Lent};
use super::random::Random;
use crate::calls::{lent_plan, write_plan};
use crate::model::{next_state, Column, Furnace, Whole};

/// The most numbers of a plan that are put wrong.
const MOST_FAULTS: usize = 3;

/// The step and the column of a number of a plan.
pub type Place = (usize, usize);

/// One to three numbers of a plan put wrong, at any steps and columns.
pub(super) fn faulty(furnace: &Furnace, from: &Lent, random: &mut Random) -> Lent {
    let places = 0..1 + random.below(MOST_FAULTS);
    let wrong = places.map(|_| any_place(furnace, random)).collect();
    with_faults(furnace, from, &wrong, random)
}

/// The numbers of a plan at these places put wrong. In half of the plans the states behind them are
/// what the model gives from there, and so are no faults themselves unless they leave their limits.
pub fn with_faults(
    furnace: &Furnace,
    from: &Lent,
    wrong: &BTreeSet<Place>,
    random: &mut Random,
) -> Lent {
    let follows = random.one_in(2);
    let mut plan = lent_plan(furnace, &from.plan);
    for k in 0..furnace.horizon {
        for j in 0..furnace.inputs {
            if wrong.contains(&(k, furnace.states + j)) {
                plan.u[k][j] = beyond(furnace.input_column(j), random);
            }
        }
        for i in 0..furnace.states {
            let right = next_state(furnace, &plan.x[k], &plan.u[k], i);
            if wrong.contains(&(k, i)) {
                plan.x[k + 1][i] = other(furnace.state_column(i), right, random);
            } else if follows {
                plan.x[k + 1][i] = Whole::from(saturated(right));
            }
        }
    }
    let mut lent = from.clone();
    lent.origin = "faulty";
    write_plan(furnace, &plan, &mut lent.plan);
    lent
}

/// Any place.
fn any_place(furnace: &Furnace, random: &mut Random) -> Place {
    let step = random.below(furnace.horizon);
    (step, random.below(furnace.columns.len()))
}

/// A number outside the limits.
fn beyond(column: &Column, random: &mut Random) -> Whole {
    let ends = [i32::MIN, i32::MAX].map(Whole::from);
    let below = random.between(ends[0], column.lo - 1);
    let above = random.between(column.hi + 1, ends[1]);
    random.choose(&[column.lo - 1, column.hi + 1, below, above, ends[0], ends[1]])
}

/// A number other than the model's, mostly beside it.
fn other(column: &Column, right: Whole, random: &mut Random) -> Whole {
    let beside = right + random.choose(&[-1, 1]);
    let drawn = random.between(column.lo, column.hi);
    let beyond = beyond(column, random);
    let chosen = random.choose(&[beside, beside, drawn, beyond]);
    let chosen = if chosen == right { beside } else { chosen };
    Whole::from(saturated(chosen))
}
