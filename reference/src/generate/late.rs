//! Furnaces whose rounds end late: with 'proved' or 'impossible' after 1,000 to 10,000 rounds.
//! Most are small, since all these rounds are run several times.

use super::curves;
use super::furnaces::{
    put_near_rest, put_out_of_reach, rest_drift, rounds_around, sized, trial, MOST_GAP,
};
use super::random::Random;
use super::weights::Zeros;
use crate::floor::ceiling;
use crate::model::{Column, Furnace, Whole, UNIT};
use crate::rounds::{run, Round};
use crate::tape::{
    DRIFT_RANGE, MOST_INPUTS, MOST_ROUNDS, MOST_STATES, MOST_STEPS, MOST_WEIGHT, NUMBER_RANGE,
};

/// What a late furnace is to be.
#[derive(Clone, Copy, PartialEq, Eq)]
struct Aim {
    /// The first of the rounds in which its answer is to come.
    first: u32,
    /// The last of them.
    last: u32,
    /// Has it the largest sizes?
    largest: bool,
}

impl Aim {
    /// The earliest of the small ones.
    const EARLY: Aim = Aim::small(1_000, 2_999);

    /// An answer from round `first` to round `last`, with small sizes.
    const fn small(first: u32, last: u32) -> Aim {
        Aim {
            first,
            last,
            largest: false,
        }
    }

    /// Any. Few have the largest sizes, whose rounds cost most.
    fn any(random: &mut Random) -> Aim {
        let most = MOST_ROUNDS as u32;
        let aims = [
            Aim::EARLY,
            Aim::small(3_000, most - 1),
            Aim::small(most, most),
        ];
        let aim = random.choose(&aims);
        if aim == Aim::EARLY && random.one_in(6) {
            return Aim {
                first: 1_000,
                last: 1_499,
                largest: true,
            };
        }
        aim
    }

    /// A blank furnace.
    fn blank(self, random: &mut Random) -> Furnace {
        if self.largest {
            return sized(MOST_STATES, MOST_INPUTS, MOST_STEPS);
        }
        let most = if random.one_in(12) { 4 } else { 2 };
        let (states, inputs) = (1 + random.below(most), 1 + random.below(most));
        sized(states, inputs, 1 + random.below(2 * most))
    }
}

/// A furnace whose rounds end late.
pub fn any(random: &mut Random) -> Furnace {
    if random.one_in(2) {
        proved(random)
    } else {
        impossible(random)
    }
}

/// A furnace whose rounds end with 'proved', late: T is the gap of a late round.
fn proved(random: &mut Random) -> Furnace {
    let aim = Aim::any(random);
    // Later on, and with the largest sizes, gaps that swing hardly come to a new smallest one.
    let swings = aim == Aim::EARLY && random.one_in(2);
    loop {
        let mut furnace = put_slow(aim.blank(random), random, swings);
        let mut records = trial(&furnace, aim.last).records;
        records.retain(|(rounds, gap)| *rounds >= aim.first && *gap <= MOST_GAP);
        if !records.is_empty() {
            let (rounds, gap) = random.choose(&records);
            furnace.rounds = late_rounds(random, rounds);
            furnace.wanted_gap = gap;
            return furnace;
        }
    }
}

/// R for an answer that comes in round `rounds`, now and then one too few.
fn late_rounds(random: &mut Random, rounds: u32) -> u32 {
    rounds_around(random, rounds).min(MOST_ROUNDS as u32)
}

/// A blank furnace with the numbers of one that comes to its best plan slowly: weights are heavy
/// and g is small, so that the numbers of a plan hardly feel a round. The multipliers of the first
/// state swing where `swings` says so, all others creep. Some have weights of 0, as far as these
/// end late: the caller tries again.
fn put_slow(mut furnace: Furnace, random: &mut Random, swings: bool) -> Furnace {
    // With a larger g `creeping` is less, which keeps the gaps of larger furnaces within T.
    furnace.step_size = if furnace.multipliers_length() > 8 {
        random.between(6, 24)
    } else {
        random.between(1, 3)
    };
    put_heavy_columns(&mut furnace, random);
    put_weak_entries(&mut furnace, random);
    let disturbances: Vec<Whole> = (0..furnace.states)
        .map(|i| {
            if swings && i == 0 {
                swinging(&mut furnace, random, i)
            } else {
                creeping(&furnace, random)
            }
        })
        .collect();
    for i in 0..furnace.states {
        furnace.drift[i] = rest_drift(&furnace, i);
        furnace.start[i] = furnace.columns[i].reference;
    }
    // With a larger g the rounding of a ramp's temperatures would stop the creeping.
    if furnace.step_size <= 3 && curves::drawn(random) {
        curves::put_ramps(&mut furnace, random, 0);
    }
    for (drift, disturbance) in furnace.drift.iter_mut().zip(disturbances) {
        *drift = (*drift + disturbance).clamp(-DRIFT_RANGE, DRIFT_RANGE);
    }
    Zeros::any(random).put(&mut furnace, random);
    furnace
}

/// References of moderate size with limits around them and heavy weights.
fn put_heavy_columns(furnace: &mut Furnace, random: &mut Random) {
    for column in &mut furnace.columns {
        let reference = random.between(-2_000, 2_000);
        *column = Column {
            lo: reference - random.between(100, 400),
            hi: reference + random.between(100, 400),
            reference,
            weight: random.between(MOST_WEIGHT / 2, MOST_WEIGHT),
        };
    }
}

/// States that do not touch each other, and inputs that do little.
fn put_weak_entries(furnace: &mut Furnace, random: &mut Random) {
    for i in 0..furnace.states {
        furnace.a[i][i] = random.between(2_400, 4_200);
        furnace.b[i].fill_with(|| random.between(-600, 600));
    }
}

/// A disturbance under which a multiplier rises by a unit a round: step 4 adds a unit where e × g
/// is from 32,768 to 98,303, and step 1 adds nothing to a rise of one unit.
fn creeping(furnace: &Furnace, random: &mut Random) -> Whole {
    random.between(32_768, 98_303) / furnace.step_size
}

/// A disturbance under which a multiplier swings widely around its best value for thousands of
/// rounds, since step 1 carries it past. State i gets limits that leave room for it.
fn swinging(furnace: &mut Furnace, random: &mut Random, i: usize) -> Whole {
    furnace.a[i][i] = random.between(0, UNIT);
    furnace.columns[i].lo = -NUMBER_RANGE;
    furnace.columns[i].hi = NUMBER_RANGE;
    UNIT * random.between(500, 3_000) * random.choose(&[-1, 1])
}

/// A furnace whose rounds end with 'impossible', late: its ceiling lies just below the floor of a
/// late round.
fn impossible(random: &mut Random) -> Furnace {
    let aim = Aim::any(random);
    loop {
        let mut furnace = put_idle(aim.blank(random), random);
        let records = floor_records(&furnace, aim);
        if let Some((rounds, column)) = idle_column(&furnace, &records, random) {
            *idle(&mut furnace) = column;
            furnace.rounds = late_rounds(random, rounds);
            return furnace;
        }
    }
}

/// The column of the last input.
fn idle(furnace: &mut Furnace) -> &mut Column {
    furnace.columns.last_mut().expect("there is an input")
}

/// A blank furnace with the numbers of one out of reach, whose last input heats nothing. The
/// slope of an input that heats nothing is always 0: its hi raises the ceiling and changes no
/// round. Here it is as high as it can be. Some of the others have weight 0.
fn put_idle(blank: Furnace, random: &mut Random) -> Furnace {
    let mut furnace = put_near_rest(blank, random);
    curves::put_near_rest(&mut furnace, random);
    for row in &mut furnace.b {
        *row.last_mut().expect("there is an input") = 0;
    }
    let margin = random.choose(&[1, 4, 20, 100]);
    put_out_of_reach(&mut furnace, random, margin);
    Zeros::any(random).put(&mut furnace, random);
    *idle(&mut furnace) = Column {
        lo: -NUMBER_RANGE,
        hi: NUMBER_RANGE,
        reference: -NUMBER_RANGE,
        weight: MOST_WEIGHT,
    };
    *furnace.curves.last_mut().expect("there is an input") = None;
    furnace.step_size = random.choose(&[1, 2, 4, 8, 16]);
    furnace.wanted_gap = random.choose(&[0, 1_000, 1_000_000]);
    furnace
}

/// A round whose floor is above those of all rounds before it.
#[derive(Clone, Copy)]
struct FloorRecord {
    /// Rounds entered.
    rounds: u32,
    /// The largest floor before.
    before: Whole,
    /// The floor.
    floor: Whole,
}

/// The rounds in which the answer is to come whose floor is a new record.
fn floor_records(furnace: &Furnace, aim: Aim) -> Vec<FloorRecord> {
    let mut furnace = furnace.clone();
    furnace.rounds = aim.last;
    // No gap is below 0.
    furnace.wanted_gap = -1;
    let mut records = Vec::new();
    let mut before = Whole::MIN;
    run(&furnace, &mut |round: &Round| {
        let (rounds, floor) = (round.k + 1, round.floor);
        if floor > before && rounds >= aim.first {
            records.push(FloorRecord {
                rounds,
                before,
                floor,
            });
        }
        before = before.max(floor);
    });
    records
}

/// A column of the idle input under which 'impossible' comes in one of the rounds, with that
/// round.
fn idle_column(
    furnace: &Furnace,
    records: &[FloorRecord],
    random: &mut Random,
) -> Option<(u32, Column)> {
    let mut without = furnace.clone();
    idle(&mut without).hi = -NUMBER_RANGE;
    let others = ceiling(&without);
    let first = random.below(records.len().max(1));
    let mut in_turn = records[first..].iter().chain(&records[..first]);
    in_turn.find_map(|record| {
        let (weight, width) = idle_width(record, others, furnace.horizon)?;
        let lo = random.between(-NUMBER_RANGE, NUMBER_RANGE - width);
        let column = Column {
            lo,
            hi: lo + width,
            reference: lo,
            weight,
        };
        Some((record.rounds, column))
    })
}

/// A weight and a width of the idle input's limits, which begin at its reference, that put the
/// ceiling below the record's floor and not below the floors before it. `others` is the other
/// columns' part of the ceiling.
fn idle_width(record: &FloorRecord, others: Whole, horizon: usize) -> Option<(Whole, Whole)> {
    let room = (record.floor - 1 - others).max(0);
    (1..=MOST_WEIGHT).find_map(|weight| {
        let price = UNIT * weight * horizon as Whole;
        let width = (room / price).isqrt().min(2 * NUMBER_RANGE);
        let ceiling = others + price * width * width;
        let fits = (record.before..record.floor).contains(&ceiling);
        fits.then_some((weight, width))
    })
}

#[cfg(test)]
mod tests {
    use super::*;

    #[test]
    fn the_ceiling_lies_between_two_floors() {
        let record = FloorRecord {
            rounds: 1_000,
            before: 4_990_000,
            floor: 5_010_000,
        };
        // 3 steps × 4096 × 13 × 5² = 3,993,600. Lighter weights give 324 × 12,288 at most.
        assert_eq!(idle_width(&record, 1_000_000, 3), Some((13, 5)));
        // The other columns alone are at the floor.
        assert_eq!(idle_width(&record, 5_010_000, 3), None);
    }
}
