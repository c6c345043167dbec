//! Tapes with a plan and multipliers of which the first duties have chosen columns and slopes, and
//! the gap is a chosen one, so that the call itself gives the ranges that are wanted.
//!
//! Such a tape has one step, and its multipliers are minus powers of 4096. Entries of B make up the
//! slopes. Residuals make up what the duties leave of the gap: each adds its power 0 to 4,095 times.
//! Nothing else adds to the gap, since each state has one number.

use reference::floor::piece;
use reference::generate::commands::of_furnace;
use reference::generate::furnaces::{sized, MOST_GAP};
use reference::generate::{Duty, Lent, Random};
use reference::model::{floor_div, Column, Furnace, Whole, HALF_UNIT, UNIT};
use reference::rounds::minimiser;
use reference::tape::{ENTRY_RANGE, MOST_STATES, MOST_WEIGHT, NUMBER_RANGE};

/// The multiplier of each state but for its sign. Three states make up any gap, and the slope of any
/// third piece; the others make up larger slopes.
const POWERS: [Whole; MOST_STATES] = [1, 4_096, 16_777_216, 16_777_216, 16_777_216, 16_777_216];

/// The largest slope that so many states make up for sure.
fn most_slope(states: usize) -> Whole {
    let large: Whole = POWERS[2..states].iter().sum();
    ENTRY_RANGE * large
}

/// The duties with a gap that they share: the wanted one, or the least that a plan can have with them
/// where that is more. A slope that the states cannot make up becomes the largest that they can, at
/// which the same piece applies.
pub fn sharing(wanted: Whole, duties: &[Duty]) -> Vec<Duty> {
    let most = most_slope(MOST_STATES);
    let mut duties = duties.to_vec();
    for duty in &mut duties {
        duty.slope = duty.slope.clamp(-most, most);
    }
    let least: Whole = duties.iter().map(|duty| loss(duty, best(duty))).sum();
    for duty in &mut duties {
        duty.gap = wanted.max(least);
    }
    duties
}

/// What a number adds to the gap.
fn loss(duty: &Duty, number: Whole) -> Whole {
    let Duty { column, slope, .. } = duty;
    column.cost(number) + slope * number - piece(column, *slope)
}

/// The whole number that adds least to the gap.
fn best(duty: &Duty) -> Whole {
    minimiser(&duty.column, duty.slope)
}

/// A tape, and a plan with multipliers to be judged by it, with these first duties. They share a gap.
pub fn tape_of(origin: &'static str, duties: &[Duty], random: &mut Random) -> (Vec<u8>, Lent) {
    let gap = duties[0].gap;
    let mut furnace = sized(states(duties, random), duties.len(), 1);
    let (mut plan, rest) = numbers(gap, duties, random);
    for (j, duty) in duties.iter().enumerate() {
        put_slope(&mut furnace, j, duty.slope, plan[j]);
        put_column(&mut furnace, j, duty.column, random);
    }
    plan.extend(put_residuals(&mut furnace, rest, random));
    let any = random.between(gap, MOST_GAP);
    furnace.wanted_gap = random.choose(&[gap, any, MOST_GAP]);
    let multipliers = POWERS[..furnace.states].iter();
    let lent = Lent {
        origin,
        plan: plan.iter().map(|number| *number as i32).collect(),
        multipliers: multipliers.map(|power| -*power as i32).collect(),
    };
    (of_furnace(&furnace, random).concat(), lent)
}

/// A number of states that can make up the slopes, and is not below the number of inputs.
fn states(duties: &[Duty], random: &mut Random) -> usize {
    let makes_up = |states: &usize| {
        let most = most_slope(*states);
        duties.iter().all(|duty| duty.slope.abs() <= most)
    };
    let least = duties.len().max(3);
    let enough: Vec<usize> = (least..=MOST_STATES).filter(makes_up).collect();
    random.choose(&enough)
}

/// The plan's number for each duty, and what they leave of the gap: the best, or one as far from it
/// as the gap may allow.
fn numbers(gap: Whole, duties: &[Duty], random: &mut Random) -> (Vec<Whole>, Whole) {
    let mut numbers: Vec<Whole> = duties.iter().map(best).collect();
    let losses = duties.iter().zip(&numbers);
    let losses = losses.map(|(duty, number)| loss(duty, *number));
    let mut rest = gap - losses.sum::<Whole>();
    for (duty, number) in duties.iter().zip(&mut numbers) {
        let away = (gap / duty.column.price().max(1)).isqrt();
        let far = *number + random.choose(&[-away, 0, away]);
        let far = duty.column.limit(far);
        let more = loss(duty, far) - loss(duty, *number);
        if more <= rest {
            *number = far;
            rest -= more;
        }
    }
    (numbers, rest)
}

/// Puts the entries that make up the slope of input j. Those of A take from each state what the
/// input's number brings to it.
fn put_slope(furnace: &mut Furnace, j: usize, slope: Whole, number: Whole) {
    let mut rest = slope;
    for i in (0..furnace.states).rev() {
        let nearest = floor_div(2 * rest + POWERS[i], 2 * POWERS[i]);
        let entry = nearest.clamp(-ENTRY_RANGE, ENTRY_RANGE);
        rest -= entry * POWERS[i];
        (furnace.b[i][j], furnace.a[i][j]) = (-entry, entry);
    }
    assert_eq!(rest, 0, "the states make up the slope");
    furnace.start[j] = number;
}

/// Puts the column of input j. Half of them have the reference by a curve, and another r.
fn put_column(furnace: &mut Furnace, j: usize, column: Column, random: &mut Random) {
    let place = furnace.states + j;
    furnace.columns[place] = column;
    if random.one_in(2) {
        furnace.curves[place] = Some(vec![column.reference]);
        furnace.columns[place].reference = random.between(-NUMBER_RANGE, NUMBER_RANGE);
    }
}

/// Puts the drifts that make up the rest of the gap, and columns that have the state's number alone.
/// Gives the states.
fn put_residuals(furnace: &mut Furnace, rest: Whole, random: &mut Random) -> Vec<Whole> {
    let mut rest = rest;
    let mut states = vec![0; furnace.states];
    for i in (0..furnace.states).rev() {
        let times = (rest / POWERS[i]).min(UNIT - 1);
        rest -= times * POWERS[i];
        states[i] = random.between(-4_000, 4_000);
        furnace.drift[i] = UNIT * states[i] + times - HALF_UNIT;
        furnace.columns[i] = Column {
            lo: states[i],
            hi: states[i],
            reference: random.between(-NUMBER_RANGE, NUMBER_RANGE),
            weight: random.between(0, MOST_WEIGHT),
        };
    }
    assert_eq!(rest, 0, "the states make up the gap");
    states
}
