//! Curves: references that change from step to step, on a third of the accepted furnaces.

use super::random::Random;
use crate::model::{next_state, Furnace, Whole};
use crate::tape::NUMBER_RANGE;

/// Is this furnace one of those with curves?
pub(super) fn drawn(random: &mut Random) -> bool {
    random.one_in(3)
}

/// The columns that get a curve: all of them, or some, at least one.
fn chosen_columns(furnace: &Furnace, random: &mut Random) -> Vec<usize> {
    let columns = furnace.columns.len();
    if random.one_in(2) {
        return (0..columns).collect();
    }
    let first = random.below(columns);
    let chosen = (0..columns).filter(|c| *c == first || random.one_in(2));
    chosen.collect()
}

/// Curves of numbers that `number` gives within plus and minus the range, on all or some columns.
pub fn put_any(
    furnace: &mut Furnace,
    random: &mut Random,
    number: fn(&mut Random, Whole) -> Whole,
) {
    for c in chosen_columns(furnace, random) {
        let steps = 0..furnace.horizon;
        let curve = steps.map(|_| number(random, NUMBER_RANGE)).collect();
        furnace.curves[c] = Some(curve);
    }
}

/// Curves for a third of the furnaces near rest: mostly ones that they can follow.
pub fn put_near_rest(furnace: &mut Furnace, random: &mut Random) {
    if drawn(random) {
        match random.below(4) {
            0 => put_wild(furnace, random),
            _ => {
                let off_by = random.choose(&[1, 5, 20, 60]);
                put_ramps(furnace, random, off_by);
            }
        }
    }
}

/// Curves that jump from step to step, within the limits and a little beyond.
pub(super) fn put_wild(furnace: &mut Furnace, random: &mut Random) {
    for c in chosen_columns(furnace, random) {
        let column = furnace.columns[c];
        let beyond = (column.hi - column.lo) / 4;
        let steps = 0..furnace.horizon;
        let reference = |_| in_range(random.between(column.lo - beyond, column.hi + beyond));
        furnace.curves[c] = Some(steps.map(reference).collect());
    }
}

/// Ramps of duties, and the temperatures that come of them, each state's moved by a number up to
/// `off_by` and shaken by a quarter of it. The states' limits are moved so far apart that the
/// furnace can follow.
pub(super) fn put_ramps(furnace: &mut Furnace, random: &mut Random, off_by: Whole) {
    let chosen = chosen_columns(furnace, random);
    for c in chosen.iter().filter(|c| **c >= furnace.states) {
        let column = furnace.columns[*c];
        let from = random.between(column.lo, column.hi);
        let to = random.between(column.lo, column.hi);
        furnace.curves[*c] = Some(ramp(from, to, furnace.horizon));
    }
    let path = path(furnace, |k, j| {
        let column = furnace.input_at(k, j);
        column.limit(column.reference)
    });
    for i in 0..furnace.states {
        let temperatures: Vec<Whole> = path.iter().map(|x| x[i]).collect();
        make_room(furnace, random, i, &temperatures);
        if chosen.contains(&i) {
            let off = random.between(-off_by, off_by);
            let near = |x: &Whole| in_range(x + off + random.between(-off_by / 4, off_by / 4));
            furnace.curves[i] = Some(temperatures.iter().map(near).collect());
        }
    }
}

/// Equal steps from one number to another.
fn ramp(from: Whole, to: Whole, horizon: usize) -> Vec<Whole> {
    let steps = (horizon as Whole - 1).max(1);
    let place = |k: usize| from + (to - from) * k as Whole / steps;
    (0..horizon).map(place).collect()
}

/// x(1) to x(N), `duty` being u(k,j).
pub(super) fn path(furnace: &Furnace, duty: impl Fn(usize, usize) -> Whole) -> Vec<Vec<Whole>> {
    let mut x = furnace.start.clone();
    let mut path = Vec::new();
    for k in 0..furnace.horizon {
        let u: Vec<Whole> = (0..furnace.inputs).map(|j| duty(k, j)).collect();
        let states = (0..furnace.states).map(|i| in_range(next_state(furnace, &x, &u, i)));
        x = states.collect();
        path.push(x.clone());
    }
    path
}

/// Moves the limits of state i apart until the temperatures are well within.
pub(super) fn make_room(
    furnace: &mut Furnace,
    random: &mut Random,
    i: usize,
    temperatures: &[Whole],
) {
    let column = &mut furnace.columns[i];
    let span = (column.hi - column.lo) / 2;
    for temperature in temperatures {
        let room = random.between(span / 2, span);
        column.lo = in_range(column.lo.min(temperature - room));
        column.hi = in_range(column.hi.max(temperature + room));
    }
}

/// A number limited to the range of references and limits.
pub(super) fn in_range(number: Whole) -> Whole {
    number.clamp(-NUMBER_RANGE, NUMBER_RANGE)
}

#[cfg(test)]
mod tests {
    use super::*;
    use crate::generate::furnaces::sized;

    #[test]
    fn ramps_reach_their_ends() {
        assert_eq!(ramp(10, 70, 4), [10, 30, 50, 70]);
        assert_eq!(ramp(70, 10, 2), [70, 10]);
        assert_eq!(ramp(10, 70, 1), [10]);
    }

    #[test]
    fn the_path_follows_the_model() {
        // Half of the state and all of the input, which is 10 and then 30.
        let mut furnace = sized(1, 1, 2);
        furnace.a[0][0] = 2048;
        furnace.b[0][0] = 4096;
        furnace.start[0] = 100;
        assert_eq!(path(&furnace, |k, _| [10, 30][k]), [[60], [60]]);
    }
}
