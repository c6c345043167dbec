//! Plans and multipliers to lend to the calls.

use super::faulty::faulty;
use super::furnaces::best_candidate;
use super::random::Random;
use crate::calls::{input_place, state_place, write_multipliers, write_plan};
use crate::floor::MULTIPLIER_RANGE;
use crate::model::{next_state, Furnace, Whole};
use crate::quotient::solve_both;
use crate::rounds::Outcome;

/// A plan and multipliers as lent slices, of whatever lengths.
#[derive(Clone, Debug, PartialEq, Eq)]
pub struct Lent {
    /// Where they come from, in a word.
    pub origin: &'static str,
    /// The lent plan.
    pub plan: Vec<i32>,
    /// The lent multipliers.
    pub multipliers: Vec<i32>,
}

impl Lent {
    /// Do both hold the same numbers?
    fn equals(&self, other: &Lent) -> bool {
        (&self.plan, &self.multipliers) == (&other.plan, &other.multipliers)
    }
}

/// Slices to judge on an accepted tape.
pub fn judged(tape: &[u8], furnace: &Furnace, random: &mut Random) -> Vec<Lent> {
    let mut all = Vec::new();
    let (solved, rounded_down) = solved(tape, furnace, random);
    if let Some(solved) = &solved {
        all.push(solved.clone());
        all.push(unit_in_plan(solved, random));
        all.push(unit_in_multipliers(solved, random));
        all.push(scaled(solved, random));
    }
    let simulated = simulated(furnace, random);
    all.push(unit_in_plan(&simulated, random));
    if let Some(solved) = &solved {
        all.push(Lent {
            origin: "simulated, solved multipliers",
            plan: simulated.plan.clone(),
            multipliers: solved.multipliers.clone(),
        });
    }
    let is_solved = |lent: &Lent| solved.as_ref().is_some_and(|solved| solved.equals(lent));
    all.extend(rounded_down.filter(|lent| !is_solved(lent)));
    let base = solved.unwrap_or_else(|| simulated.clone());
    all.push(simulated);
    all.push(in_range(furnace, random));
    all.push(extreme(furnace, &base, random));
    if random.one_in(2) {
        all.push(faulty(furnace, &base, random));
    }
    all.push(wrong_length(&base, random));
    all
}

/// Slices to lend to a solve of an accepted tape: of the right lengths, and now and then not.
pub fn to_solve(furnace: &Furnace, random: &mut Random) -> Vec<Lent> {
    let right = any_values(furnace.plan_length(), furnace.multipliers_length(), random);
    let mut all = Vec::new();
    if random.one_in(8) {
        all.push(wrong_length(&right, random));
    }
    all.push(right);
    all
}

/// Slices of arbitrary values.
pub fn any_values(plan: usize, multipliers: usize, random: &mut Random) -> Lent {
    Lent {
        origin: "any values",
        plan: (0..plan).map(|_| random.any_i32()).collect(),
        multipliers: (0..multipliers).map(|_| random.any_i32()).collect(),
    }
}

/// What a solve leaves; for an open tape the best candidate of its rounds. Then, what a solve with
/// quotients rounded down would leave: where its answer comes earlier, 13 or 14 comes in its place.
fn solved(tape: &[u8], furnace: &Furnace, random: &mut Random) -> (Option<Lent>, Option<Lent>) {
    let plan = simulated(furnace, random).plan;
    let multipliers = vec![0; furnace.multipliers_length()];
    let mut lent = Lent {
        origin: "solved",
        plan,
        multipliers,
    };
    let (answer, rounded_down) = solve_both(tape, &mut lent.plan, &mut lent.multipliers);
    let rounded_down = left(furnace, &lent, rounded_down);
    if answer.is_ok() {
        return (Some(lent), rounded_down);
    }
    let best = best_candidate(furnace).map(|(best, y)| {
        lent.origin = "best candidate";
        write_plan(furnace, &best, &mut lent.plan);
        write_multipliers(furnace, &y, &mut lent.multipliers);
        lent
    });
    (best, rounded_down)
}

/// What rounds with this outcome leave in the slices.
fn left(furnace: &Furnace, slices: &Lent, outcome: Outcome) -> Option<Lent> {
    let mut lent = slices.clone();
    let multipliers = match outcome {
        Outcome::Open => return None,
        Outcome::Impossible { multipliers, .. } => multipliers,
        Outcome::Proved {
            plan, multipliers, ..
        } => {
            write_plan(furnace, &plan, &mut lent.plan);
            multipliers
        }
    };
    lent.origin = "quotients rounded down";
    write_multipliers(furnace, &multipliers, &mut lent.multipliers);
    Some(lent)
}

/// Random inputs within their limits and the states that the model gives, which may leave their
/// limits. The multipliers are 0.
fn simulated(furnace: &Furnace, random: &mut Random) -> Lent {
    let mut plan = vec![0; furnace.plan_length()];
    let mut x = furnace.start.clone();
    for k in 0..furnace.horizon {
        let mut u = Vec::new();
        for j in 0..furnace.inputs {
            let column = furnace.input_at(k, j);
            let number = match random.below(3) {
                0 => column.limit(column.reference),
                1 => random.choose(&[column.lo, column.hi]),
                _ => random.between(column.lo, column.hi),
            };
            plan[input_place(furnace, k, j)] = saturated(number);
            u.push(number);
        }
        let mut next = Vec::new();
        for i in 0..furnace.states {
            let number = next_state(furnace, &x, &u, i);
            plan[state_place(furnace, k + 1, i)] = saturated(number);
            next.push(number);
        }
        x = next;
    }
    Lent {
        origin: "simulated",
        plan,
        multipliers: vec![0; furnace.multipliers_length()],
    }
}

/// The nearest 32-bit number. States beyond their limits can grow past 32 bits.
pub(super) fn saturated(number: Whole) -> i32 {
    number.clamp(Whole::from(i32::MIN), Whole::from(i32::MAX)) as i32
}

/// A unit more or less in one number of the plan.
fn unit_in_plan(from: &Lent, random: &mut Random) -> Lent {
    let mut lent = from.clone();
    lent.origin = "unit in plan";
    add_unit(&mut lent.plan, random);
    lent
}

/// A unit more or less in one multiplier.
fn unit_in_multipliers(from: &Lent, random: &mut Random) -> Lent {
    let mut lent = from.clone();
    lent.origin = "unit in multipliers";
    add_unit(&mut lent.multipliers, random);
    lent
}

/// A unit more or less in one number.
fn add_unit(numbers: &mut [i32], random: &mut Random) {
    let place = random.below(numbers.len());
    numbers[place] = numbers[place].saturating_add(random.choose(&[-1, 1]));
}

/// All multipliers doubled or halved, within their range.
fn scaled(from: &Lent, random: &mut Random) -> Lent {
    let mut lent = from.clone();
    lent.origin = "scaled multipliers";
    let double = random.one_in(2);
    for number in &mut lent.multipliers {
        let range = MULTIPLIER_RANGE as i32;
        *number = if double { *number * 2 } else { *number / 2 };
        *number = (*number).clamp(-range, range);
    }
    lent
}

/// Plan numbers within their limits and multipliers within their range.
fn in_range(furnace: &Furnace, random: &mut Random) -> Lent {
    let mut plan = vec![0; furnace.plan_length()];
    for k in 0..furnace.horizon {
        for j in 0..furnace.inputs {
            let column = furnace.input_column(j);
            plan[input_place(furnace, k, j)] = saturated(random.between(column.lo, column.hi));
        }
        for i in 0..furnace.states {
            let column = furnace.state_column(i);
            plan[state_place(furnace, k + 1, i)] = saturated(random.between(column.lo, column.hi));
        }
    }
    let range = random.choose(&[3, 1_000, 1_000_000, MULTIPLIER_RANGE]);
    let multipliers = (0..furnace.multipliers_length())
        .map(|_| saturated(random.between(-range, range)))
        .collect();
    Lent {
        origin: "in range",
        plan,
        multipliers,
    }
}

/// One or all numbers at extremes: the ends of 32 bits, the limits and next to them.
fn extreme(furnace: &Furnace, from: &Lent, random: &mut Random) -> Lent {
    let mut lent = from.clone();
    lent.origin = "extreme";
    let range = MULTIPLIER_RANGE as i32;
    if random.one_in(2) {
        let values = [range, -range, range + 1, -range - 1, i32::MIN, i32::MAX];
        replace(&mut lent.multipliers, random, |_, random| {
            random.choose(&values)
        });
    } else if random.one_in(2) {
        replace(&mut lent.multipliers, random, |_, random| {
            random.choose(&[range, -range])
        });
    }
    let period = furnace.inputs + furnace.states;
    replace(&mut lent.plan, random, |place, random| {
        let within = place % period;
        let column = if within < furnace.inputs {
            furnace.input_column(within)
        } else {
            furnace.state_column(within - furnace.inputs)
        };
        let (lo, hi) = (saturated(column.lo), saturated(column.hi));
        random.choose(&[lo, hi, lo - 1, hi + 1, i32::MIN, i32::MAX])
    });
    lent
}

/// Replaces none, one or all of the numbers.
fn replace(numbers: &mut [i32], random: &mut Random, value: impl Fn(usize, &mut Random) -> i32) {
    match random.below(3) {
        0 => (),
        1 => {
            let place = random.below(numbers.len());
            numbers[place] = value(place, random);
        }
        _ => {
            for (place, number) in numbers.iter_mut().enumerate() {
                *number = value(place, random);
            }
        }
    }
}

/// One of the two slices empty, one short or one long; sometimes both.
fn wrong_length(from: &Lent, random: &mut Random) -> Lent {
    let mut lent = from.clone();
    lent.origin = "wrong length";
    let which = random.below(3);
    if which != 0 {
        change_length(&mut lent.plan, random);
    }
    if which != 1 {
        change_length(&mut lent.multipliers, random);
    }
    lent
}

/// Empties, shortens or lengthens a slice.
fn change_length(numbers: &mut Vec<i32>, random: &mut Random) {
    match random.below(4) {
        0 => numbers.clear(),
        1 => {
            numbers.pop();
        }
        2 => numbers.push(0),
        _ => numbers.push(random.any_i32()),
    }
}
