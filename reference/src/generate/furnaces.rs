//! Furnaces whose tapes are accepted: of all value ranges, at the limits of all numbers, and
//! tuned so that the rounds end with 'proved' or 'impossible' after a chosen number of rounds.

use super::banded;
use super::curves;
use super::random::Random;
use super::weights::{bind_states, Zeros};
use crate::floor::Multipliers;
use crate::model::{floor_div, Column, Correction, Furnace, Plan, Whole, UNIT};
use crate::rounds::{run, Candidate, Outcome, Round};
use crate::tape::{
    DRIFT_RANGE, ENTRY_RANGE, MOST_INPUTS, MOST_ROUNDS, MOST_STATES, MOST_STEPS, MOST_WEIGHT,
    NUMBER_RANGE,
};

/// The largest T.
pub const MOST_GAP: Whole = 0xffff_ffff;

/// [`sized`] with random sizes.
pub(super) fn blank(random: &mut Random) -> Furnace {
    let states = 1 + random.below(MOST_STATES);
    let inputs = 1 + random.below(MOST_INPUTS);
    let horizon = 1 + random.below(MOST_STEPS);
    sized(states, inputs, horizon)
}

/// A furnace of the given sizes for command 50. Its weights, g and R are 1, all other numbers 0.
pub fn sized(states: usize, inputs: usize, horizon: usize) -> Furnace {
    let column = Column {
        lo: 0,
        hi: 0,
        reference: 0,
        weight: 1,
    };
    Furnace {
        states,
        inputs,
        horizon,
        a: vec![vec![0; states]; states],
        b: vec![vec![0; inputs]; states],
        drift: vec![0; states],
        columns: vec![column; states + inputs],
        curves: vec![None; states + inputs],
        start: vec![0; states],
        correction: Correction::Gain,
        step_size: 1,
        rounds: 1,
        wanted_gap: 0,
    }
}

/// Sets every number of a furnace: `number` gives one within plus and minus the range.
pub fn fill(furnace: &mut Furnace, random: &mut Random, number: fn(&mut Random, Whole) -> Whole) {
    for i in 0..furnace.states {
        for j in 0..furnace.states {
            furnace.a[i][j] = number(random, ENTRY_RANGE);
        }
        for j in 0..furnace.inputs {
            furnace.b[i][j] = number(random, ENTRY_RANGE);
        }
        furnace.drift[i] = number(random, DRIFT_RANGE);
        furnace.start[i] = number(random, NUMBER_RANGE);
    }
    for column in &mut furnace.columns {
        let one = number(random, NUMBER_RANGE);
        let other = number(random, NUMBER_RANGE);
        column.lo = one.min(other);
        column.hi = one.max(other);
        column.reference = number(random, NUMBER_RANGE);
    }
}

/// A number of any size within the range.
pub fn any_size(random: &mut Random, range: Whole) -> Whole {
    match random.below(6) {
        0 => 0,
        1 => random.between(-10, 10),
        2 => random.between(-range / 64, range / 64),
        3 => random.between(-range / 8, range / 8),
        _ => random.between(-range, range),
    }
}

/// A number at an end of the range, or next to it.
pub(super) fn at_end(random: &mut Random, range: Whole) -> Whole {
    random.choose(&[-range, range, -range, range, range - 1, 1 - range])
}

/// A furnace of all value ranges.
pub fn plain(random: &mut Random) -> Furnace {
    let mut furnace = blank(random);
    fill(&mut furnace, random, any_size);
    for column in &mut furnace.columns {
        column.weight = random.between(1, MOST_WEIGHT);
    }
    furnace.step_size = random.between(1, 65_535);
    furnace.rounds = if random.one_in(50) {
        random.between(31, 300) as u32
    } else {
        random.between(1, 30) as u32
    };
    furnace.wanted_gap = random.choose(&[0, MOST_GAP, MOST_GAP / 2, 1_000_000]);
    furnace
}

/// A furnace with every number at a limit of its range.
pub fn limits(random: &mut Random) -> Furnace {
    let mut furnace = blank(random);
    if random.one_in(4) {
        // The largest sizes, for the largest sums.
        while furnace.states < MOST_STATES || furnace.horizon < MOST_STEPS {
            furnace = blank(random);
        }
    }
    fill(&mut furnace, random, at_end);
    for column in &mut furnace.columns {
        column.weight = random.choose(&[1, MOST_WEIGHT]);
    }
    furnace.step_size = random.choose(&[1, 65_535]);
    // Few have the largest R, since all its rounds are entered.
    furnace.rounds = if random.one_in(40) {
        MOST_ROUNDS as u32
    } else {
        random.choose(&[1, 1, 2, 3, 10])
    };
    furnace.wanted_gap = random.choose(&[0, MOST_GAP]);
    furnace
}

/// A furnace that stays near its references under its reference inputs, as real ones do. Some have
/// curves.
pub(super) fn near_rest(random: &mut Random) -> Furnace {
    let furnace = blank(random);
    let mut furnace = put_near_rest(furnace, random);
    curves::put_near_rest(&mut furnace, random);
    furnace
}

/// A furnace of the largest sizes near its references, with a converging g. R is 1, T is 0.
pub fn largest(random: &mut Random) -> Furnace {
    let furnace = sized(MOST_STATES, MOST_INPUTS, MOST_STEPS);
    let mut furnace = put_near_rest(furnace, random);
    furnace.step_size = tuned_step_size(&furnace, 1, 1);
    furnace
}

/// A blank furnace with the numbers of one near rest.
pub fn put_near_rest(mut furnace: Furnace, random: &mut Random) -> Furnace {
    let deviation = random.choose(&[2, 10, 40, 150, 400]);
    put_columns(&mut furnace, random, deviation);
    put_entries(&mut furnace, random);
    put_at_rest(&mut furnace, random, deviation);
    if random.one_in(5) {
        // A reference outside its limits.
        let place = random.below(furnace.columns.len());
        let column = &mut furnace.columns[place];
        column.reference = column.hi + random.between(1, deviation);
    }
    furnace
}

/// References of moderate size, and limits around them: those of states about `deviation` away.
fn put_columns(furnace: &mut Furnace, random: &mut Random, deviation: Whole) {
    let most_weight = random.choose(&[1, 4, 20, MOST_WEIGHT]);
    let input_span = random.choose(&[10, 40, 200, 1000]);
    for place in 0..furnace.states + furnace.inputs {
        let is_state = place < furnace.states;
        let span = if is_state { deviation } else { input_span };
        let reference = random.between(-400, 400) * random.choose(&[0, 1, 1, 5]);
        furnace.columns[place] = Column {
            lo: reference - random.between(span / 2, 3 * span),
            hi: reference + random.between(span / 2, 3 * span),
            reference,
            weight: random.between(1, most_weight),
        };
    }
}

/// States that hardly move by themselves, and inputs that each heat some of them.
pub(super) fn put_entries(furnace: &mut Furnace, random: &mut Random) {
    for i in 0..furnace.states {
        for j in 0..furnace.states {
            if i == j {
                furnace.a[i][j] = random.between(2_400, 4_200);
            } else if random.one_in(2) {
                furnace.a[i][j] = random.between(-500, 500);
            }
        }
        for j in 0..furnace.inputs {
            if i % furnace.inputs == j {
                furnace.b[i][j] = random.between(200, 3_000);
            } else if random.one_in(2) {
                furnace.b[i][j] = random.between(-300, 300);
            }
        }
    }
}

/// The drift that keeps the references at rest with a disturbance, and a start near them.
pub(super) fn put_at_rest(furnace: &mut Furnace, random: &mut Random, deviation: Whole) {
    for i in 0..furnace.states {
        let drift = rest_drift(furnace, i) + random.between(-300, 300) * deviation;
        furnace.drift[i] = drift.clamp(-DRIFT_RANGE, DRIFT_RANGE);
        let start = furnace.columns[i].reference + random.between(-deviation, deviation);
        furnace.start[i] = start.clamp(-NUMBER_RANGE, NUMBER_RANGE);
    }
}

/// The drift of state i under which its reference follows from all references.
pub fn rest_drift(furnace: &Furnace, i: usize) -> Whole {
    let mut drift = UNIT * furnace.columns[i].reference;
    for j in 0..furnace.states {
        drift -= furnace.a[i][j] * furnace.columns[j].reference;
    }
    for j in 0..furnace.inputs {
        drift -= furnace.b[i][j] * furnace.input_column(j).reference;
    }
    drift
}

/// P of a column for the rule of g, which divides by it: a weight of 0 counts as 1. The numbers of
/// such a column jump from end to end, and no g makes them settle; of all weights that the rule can
/// take, 1 gives the smallest g, at which they move the multipliers least.
fn price_for_step_size(column: &Column) -> Whole {
    UNIT * column.weight.max(1)
}

/// The step size at which the rounds surely converge, times `numerator` / `denominator`. It is
/// 65,536 over a bound of the largest eigenvalue of M H⁻¹ Mᵀ, where M has a row for each
/// residual and H is diagonal with 2P; the bound is the largest sum of a row's entries. Where a
/// weight is 0 nothing is sure, and it counts as 1.
pub fn tuned_step_size(furnace: &Furnace, numerator: Whole, denominator: Whole) -> Whole {
    let mut bound = 1;
    for i in 0..furnace.states {
        let twice_price = |c: usize| 2 * price_for_step_size(&furnace.columns[c]);
        let mut row = UNIT * UNIT / twice_price(i);
        for q in 0..furnace.states {
            for j in 0..furnace.inputs {
                row += (furnace.b[i][j] * furnace.b[q][j]).abs() / twice_price(furnace.states + j);
            }
            if furnace.horizon > 1 {
                row += UNIT * furnace.a[i][q].abs() / twice_price(q);
                row += UNIT * furnace.a[q][i].abs() / twice_price(i);
                for c in 0..furnace.states {
                    row += (furnace.a[i][c] * furnace.a[q][c]).abs() / twice_price(c);
                }
            }
        }
        bound = bound.max(row);
    }
    (65_536 * numerator / (denominator * bound)).clamp(1, 65_535)
}

/// What a trial of the rounds showed.
pub struct Trial {
    /// Rounds entered, and the gap, of each candidate with a smaller gap than all before it.
    pub records: Vec<(u32, Whole)>,
    /// Rounds entered up to 'impossible', if it came.
    pub impossible: Option<u32>,
}

/// Runs at most `most` rounds that cannot end with 'proved'.
pub fn trial(furnace: &Furnace, most: u32) -> Trial {
    let mut furnace = furnace.clone();
    furnace.rounds = most;
    // No gap is below 0.
    furnace.wanted_gap = -1;
    let mut records: Vec<(u32, Whole)> = Vec::new();
    let outcome = run(&furnace, &mut |round: &Round| {
        if let Candidate::Follows { gap, .. } = round.candidate {
            if records.last().is_none_or(|(_, least)| gap < *least) {
                records.push((round.k + 1, gap));
            }
        }
    });
    let impossible = match outcome {
        Outcome::Impossible { rounds, .. } => Some(rounds),
        _ => None,
    };
    Trial {
        records,
        impossible,
    }
}

/// R for an answer that comes in round `rounds`: mostly enough, some exactly enough, some one
/// too few.
pub(super) fn rounds_around(random: &mut Random, rounds: u32) -> u32 {
    match random.below(8) {
        0 if rounds > 1 => rounds - 1,
        1 | 2 => rounds,
        _ => rounds + 1 + random.below(40) as u32,
    }
}

/// A furnace whose rounds mostly end with 'proved'.
pub fn proved(random: &mut Random) -> Furnace {
    tuned_to_prove(random, near_rest)
}

/// A furnace of `make` whose rounds mostly end with 'proved'. Some have weights of 0, some a command 51.
pub(super) fn tuned_to_prove(
    random: &mut Random,
    make: impl Fn(&mut Random) -> Furnace,
) -> Furnace {
    // Drawn once: what is harder to prove keeps its share.
    let (zeros, binds) = (Zeros::any(random), !random.one_in(3));
    let is_banded = banded::drawn(random);
    let target = random.choose(&[2, 3, 5, 10, 20, 50, 100, 200, 300, 400]);
    let make = |random: &mut Random| {
        let mut furnace = make(random);
        zeros.put(&mut furnace, random);
        if binds {
            bind_states(&mut furnace, random);
        }
        banded::put(&mut furnace, is_banded);
        furnace
    };
    let mut furnace = make(random);
    for _attempt in 0..6 {
        if tune_to_prove(&mut furnace, random, target) {
            return furnace;
        }
        furnace = make(random);
    }
    furnace
}

/// Puts g, and R and T for an answer in a round of a trial of `most` rounds: T is that round's gap.
/// False where no round has a gap that T can be.
fn tune_to_prove(furnace: &mut Furnace, random: &mut Random, most: u32) -> bool {
    // Small steps lower the gap for more rounds.
    let (numerator, denominator) = if most < 50 {
        random.choose(&[(3, 1), (2, 1), (1, 1), (1, 1), (1, 2), (1, 8)])
    } else {
        random.choose(&[(2, 1), (1, 1), (1, 8), (1, 32), (1, 128), (1, 512)])
    };
    furnace.step_size = tuned_step_size(furnace, numerator, denominator);
    let mut records = trial(furnace, most).records;
    records.retain(|(_, gap)| *gap <= MOST_GAP);
    // Mostly the last round that lowers the gap, so that many answers come late.
    let chosen = if random.one_in(4) {
        records.get(random.below(records.len().max(1)))
    } else {
        records.last()
    };
    let Some((rounds, gap)) = chosen else {
        return false;
    };
    furnace.rounds = rounds_around(random, *rounds);
    furnace.wanted_gap = *gap;
    if random.one_in(8) {
        furnace.wanted_gap = (*gap - 1).max(0);
    }
    true
}

/// Moves the limits of one state out of reach: above the highest, or below the lowest, that the
/// model gives it in some step.
pub fn put_out_of_reach(furnace: &mut Furnace, random: &mut Random, margin: Whole) {
    let i = random.below(furnace.states);
    let upwards = random.one_in(2);
    let step = random.below(furnace.horizon);
    let mut lowest = furnace.start.clone();
    let mut highest = furnace.start.clone();
    for _ in 0..=step {
        let bounds: Vec<(Whole, Whole)> = (0..furnace.states)
            .map(|q| reach(furnace, &lowest, &highest, q))
            .collect();
        for (q, (low, high)) in bounds.into_iter().enumerate() {
            lowest[q] = low;
            highest[q] = high;
        }
    }
    let width = random.choose(&[0, 5, 30, 200]);
    let column = &mut furnace.columns[i];
    if upwards {
        column.lo = (highest[i] + margin).clamp(-NUMBER_RANGE, NUMBER_RANGE);
        column.hi = (column.lo + width).min(NUMBER_RANGE);
    } else {
        column.hi = (lowest[i] - margin).clamp(-NUMBER_RANGE, NUMBER_RANGE);
        column.lo = (column.hi - width).max(-NUMBER_RANGE);
    }
    column.reference = random.between(column.lo, column.hi);
    for reference in furnace.curves[i].iter_mut().flatten() {
        *reference = random.between(column.lo, column.hi);
    }
}

/// The lowest and highest next state i, the states lying between `lowest` and `highest` and the
/// inputs within their limits.
fn reach(furnace: &Furnace, lowest: &[Whole], highest: &[Whole], i: usize) -> (Whole, Whole) {
    let mut low = furnace.drift[i];
    let mut high = furnace.drift[i];
    let mut add = |factor: Whole, from: Whole, to: Whole| {
        low += (factor * from).min(factor * to);
        high += (factor * from).max(factor * to);
    };
    for j in 0..furnace.states {
        add(furnace.a[i][j], lowest[j], highest[j]);
    }
    for j in 0..furnace.inputs {
        let column = furnace.input_column(j);
        add(furnace.b[i][j], column.lo, column.hi);
    }
    (floor_div(low, UNIT), floor_div(high, UNIT) + 1)
}

/// A furnace whose rounds mostly end with 'impossible'.
pub fn impossible(random: &mut Random) -> Furnace {
    tuned_to_fail(random, |random, margin| {
        let mut furnace = near_rest(random);
        put_out_of_reach(&mut furnace, random, margin);
        furnace
    })
}

/// A furnace of `make`, which is told how far out of reach it should be, whose rounds mostly end
/// with 'impossible'. Some have weights of 0, some a command 51.
pub(super) fn tuned_to_fail(
    random: &mut Random,
    make: impl Fn(&mut Random, Whole) -> Furnace,
) -> Furnace {
    // Drawn once: what is harder to show keeps its share.
    let zeros = Zeros::any(random);
    let is_banded = banded::drawn(random);
    let most = random.choose(&[5, 20, 60, 150, 300]);
    let mut attempt = 0;
    loop {
        // Later attempts are further out of reach and take larger steps.
        let margin = random.choose(&[1, 4, 20, 100, 300]) << attempt;
        let mut furnace = make(random, margin);
        zeros.put(&mut furnace, random);
        banded::put(&mut furnace, is_banded);
        let (numerator, denominator) =
            random.choose(&[(8, 1), (4, 1), (1, 1), (1, 4), (1, 16), (1, 64)]);
        furnace.step_size = tuned_step_size(&furnace, numerator << attempt, denominator);
        furnace.wanted_gap = random.choose(&[0, 1_000, 1_000_000, MOST_GAP]);
        furnace.rounds = most;
        attempt += 1;
        if let Some(rounds) = trial(&furnace, most).impossible {
            let rounds = delay(&mut furnace, random, rounds, most);
            furnace.rounds = rounds_around(random, rounds);
            return furnace;
        }
        if attempt == 6 || random.one_in(10) {
            return furnace;
        }
    }
}

/// Lowers g so that 'impossible' comes after `rounds` or more rounds, but at most `most`. With a
/// command 51 that would change nothing. Returns the rounds that it takes.
fn delay(furnace: &mut Furnace, random: &mut Random, rounds: u32, most: u32) -> u32 {
    let mut rounds = rounds;
    let is_banded = furnace.correction == Correction::Banded;
    while !is_banded && rounds < most / 3 && furnace.step_size > 1 && !random.one_in(4) {
        let mut slower = furnace.clone();
        slower.step_size = (furnace.step_size / 4).max(1);
        match trial(&slower, most).impossible {
            Some(later) => {
                *furnace = slower;
                rounds = later;
            }
            None => break,
        }
    }
    rounds
}

/// The best candidate of a solve's rounds with its y~, by gap, if any candidate followed the
/// tape.
pub fn best_candidate(furnace: &Furnace) -> Option<(Plan, Multipliers)> {
    let mut best: Option<(Whole, Plan, Multipliers)> = None;
    run(furnace, &mut |round: &Round| {
        if let Candidate::Follows { plan, gap, .. } = &round.candidate {
            if best.as_ref().is_none_or(|(least, _, _)| gap < least) {
                best = Some((*gap, plan.clone(), round.y_tilde.clone()));
            }
        }
    });
    best.map(|(_, plan, y)| (plan, y))
}
