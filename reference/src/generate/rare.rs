//! Furnaces of shapes that random numbers hardly have, tuned to end with 'proved' or 'impossible'.

use super::ceilings;
use super::curves;
use super::furnaces::{
    near_rest, put_at_rest, put_near_rest, put_out_of_reach, sized, tuned_to_fail, tuned_to_prove,
};
use super::random::Random;
use crate::model::{Column, Furnace, Whole, UNIT};
use crate::shapes::{HOT, LARGE};
use crate::tape::{DRIFT_RANGE, ENTRY_RANGE, MOST_INPUTS, MOST_STATES, MOST_STEPS, NUMBER_RANGE};

/// What is rare about a furnace.
#[derive(Clone, Copy)]
enum Shape {
    /// References below lo.
    Below,
    /// References above hi.
    Above,
    /// A column with lo = hi.
    Fixed,
    /// Entries of A and B of both signs and of at least half their range.
    LargeEntries,
    /// Every temperature above [`HOT`].
    Hot,
    /// The largest sizes.
    Largest,
}

/// A furnace of any of the shapes, or with a floor at the ceiling.
pub fn any(random: &mut Random) -> Furnace {
    if random.one_in(12) {
        return ceilings::any(random);
    }
    let shape = random.choose(&[
        Shape::Below,
        Shape::Above,
        Shape::Fixed,
        Shape::LargeEntries,
        Shape::Hot,
        Shape::Largest,
    ]);
    if random.one_in(2) {
        tuned_to_prove(random, |random| {
            let mut furnace = shape.make(random);
            shape.finish(&mut furnace, random);
            furnace
        })
    } else {
        tuned_to_fail(random, |random, margin| {
            let mut furnace = shape.make(random);
            put_out_of_reach(&mut furnace, random, margin);
            shape.finish(&mut furnace, random);
            furnace
        })
    }
}

impl Shape {
    /// A furnace near rest.
    fn make(self, random: &mut Random) -> Furnace {
        match self {
            Shape::Below | Shape::Above | Shape::Fixed => near_rest(random),
            Shape::LargeEntries => large_entries(random),
            Shape::Hot => hot(random),
            Shape::Largest => largest(random),
        }
    }

    /// What is done to limits and references after all else.
    fn finish(self, furnace: &mut Furnace, random: &mut Random) {
        match self {
            Shape::Below => put_references(furnace, random, |column, by| column.lo - by),
            Shape::Above => put_references(furnace, random, |column, by| column.hi + by),
            Shape::Fixed if random.one_in(2) => fix_input(furnace, random),
            Shape::Fixed => fix_state(furnace, random),
            Shape::LargeEntries | Shape::Hot | Shape::Largest => (),
        }
    }
}

/// A furnace of the largest sizes near rest. Some have curves.
fn largest(random: &mut Random) -> Furnace {
    let furnace = sized(MOST_STATES, MOST_INPUTS, MOST_STEPS);
    let mut furnace = put_near_rest(furnace, random);
    curves::put_near_rest(&mut furnace, random);
    furnace
}

/// Puts the references of some columns, at least one, where `place` says, in every step.
fn put_references(furnace: &mut Furnace, random: &mut Random, place: fn(&Column, Whole) -> Whole) {
    let first = random.below(furnace.columns.len());
    for index in 0..furnace.columns.len() {
        if index == first || random.one_in(3) {
            let most = random.choose(&[1, 10, 100]);
            let column = furnace.columns[index];
            let mut reference = || {
                let by = random.between(1, most);
                place(&column, by).clamp(-NUMBER_RANGE, NUMBER_RANGE)
            };
            furnace.columns[index].reference = reference();
            for step in furnace.curves[index].iter_mut().flatten() {
                *step = reference();
            }
        }
    }
}

/// Leaves an input no choice.
fn fix_input(furnace: &mut Furnace, random: &mut Random) {
    let place = furnace.states + random.below(furnace.inputs);
    let column = &mut furnace.columns[place];
    column.lo = column.limit(column.reference);
    column.hi = column.lo;
}

/// Makes a state one that stays where it is, and leaves it no choice.
fn fix_state(furnace: &mut Furnace, random: &mut Random) {
    let i = random.below(furnace.states);
    furnace.a[i].fill(0);
    furnace.a[i][i] = UNIT;
    furnace.b[i].fill(0);
    furnace.drift[i] = 0;
    let column = &mut furnace.columns[i];
    column.lo = column.limit(column.reference);
    column.hi = column.lo;
    furnace.start[i] = column.lo;
}

/// A furnace near rest at temperatures above [`HOT`].
fn hot(random: &mut Random) -> Furnace {
    loop {
        let mut furnace = near_rest(random);
        let Some(raise) = raise_columns(&mut furnace, random) else {
            continue;
        };
        for i in 0..furnace.states {
            furnace.start[i] = (furnace.start[i] + raise[i]).min(NUMBER_RANGE);
            furnace.drift[i] += UNIT * raise[i];
            for j in 0..furnace.states {
                furnace.drift[i] -= furnace.a[i][j] * raise[j];
            }
        }
        if furnace.drift.iter().all(|drift| drift.abs() <= DRIFT_RANGE) {
            return furnace;
        }
    }
}

/// Raises limits and references of each state by a number of its own. Gives these numbers, or
/// nothing where a state's are too far apart to lie above [`HOT`].
fn raise_columns(furnace: &mut Furnace, random: &mut Random) -> Option<Vec<Whole>> {
    let states = furnace.columns[..furnace.states].iter_mut();
    let raised = states.zip(&mut furnace.curves).map(|(column, curve)| {
        let steps = curve.iter().flatten().copied();
        let highest = steps.fold(column.hi.max(column.reference), Whole::max);
        let (least, most) = (HOT + 1 - column.lo, NUMBER_RANGE - highest);
        if least > most {
            return None;
        }
        let raise = random.between(least, most);
        column.lo += raise;
        column.hi += raise;
        column.reference += raise;
        for reference in curve.iter_mut().flatten() {
            *reference += raise;
        }
        Some(raise)
    });
    raised.collect()
}

/// A large entry.
fn large(random: &mut Random) -> Whole {
    random.between(LARGE, ENTRY_RANGE) * random.choose(&[-1, 1])
}

/// A furnace near rest with large entries of both signs.
fn large_entries(random: &mut Random) -> Furnace {
    let states = 3 + random.below(MOST_STATES - 2);
    let inputs = 1 + random.below(MOST_INPUTS);
    let mut furnace = sized(states, inputs, 1 + random.below(MOST_STEPS));
    put_large_a(&mut furnace, random);
    put_large_b(&mut furnace, random);
    put_wide_columns(&mut furnace, random);
    let deviation = random.choose(&[2, 10, 40]);
    put_at_rest(&mut furnace, random, deviation);
    curves::put_near_rest(&mut furnace, random);
    furnace
}

/// Large entries of A: in few steps anywhere; in more steps above the diagonal only, in an order
/// of the states, so that temperatures do not run away.
fn put_large_a(furnace: &mut Furnace, random: &mut Random) {
    let mut order: Vec<usize> = (0..furnace.states).collect();
    random.shuffle(&mut order);
    for p in 0..furnace.states {
        for q in 0..furnace.states {
            let entry = if p < q || furnace.horizon <= 2 {
                large(random) * random.choose(&[0, 1])
            } else if p == q {
                random.between(-UNIT, UNIT)
            } else {
                0
            };
            furnace.a[order[p]][order[q]] = entry;
        }
    }
    furnace.a[order[0]][order[1]] = ENTRY_RANGE;
    furnace.a[order[1]][order[2]] = -ENTRY_RANGE;
}

/// Large entries of B.
fn put_large_b(furnace: &mut Furnace, random: &mut Random) {
    for row in &mut furnace.b {
        row.fill_with(|| large(random) * random.choose(&[0, 1]));
    }
    (furnace.b[0][0], furnace.b[1][0]) = (ENTRY_RANGE, -ENTRY_RANGE);
}

/// Wide limits around references that are small, so that the drift that keeps them at rest is in
/// its range.
fn put_wide_columns(furnace: &mut Furnace, random: &mut Random) {
    let most_weight = random.choose(&[1, 4, 20]);
    for column in &mut furnace.columns {
        let reference = random.between(-40, 40);
        *column = Column {
            lo: reference - random.between(500, 8_000),
            hi: reference + random.between(500, 8_000),
            reference,
            weight: random.between(1, most_weight),
        };
    }
}
