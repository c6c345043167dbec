//! Furnaces with the floor of a round at their ceiling or just below it: with quotients rounded down,
//! as before request 7, that round would show impossibility.

use super::curves;
use super::furnaces::{blank, put_at_rest, put_entries, rounds_around, trial, MOST_GAP};
use super::random::Random;
use super::weights::Zeros;
use crate::model::{ceil_div, floor_div, Column, Furnace};
use crate::quotient::lowered;
use crate::rounds::{run, Round};
use crate::tape::DRIFT_RANGE;

/// How often a drift is moved before another furnace is tried.
const MOVES: usize = 8;

/// The most rounds in which a furnace is to show impossibility.
const MOST: u32 = 60;

/// A furnace with the floor of one of its first rounds at the ceiling. R is mostly enough for a later
/// round to show impossibility, and else ends with that one.
pub(super) fn any(random: &mut Random) -> Furnace {
    loop {
        let mut furnace = narrow(random);
        let rounds = 2 + random.below(8) as u32;
        if put_floor_at_ceiling(&mut furnace, random, rounds) {
            furnace.wanted_gap = random.choose(&[0, 1_000, 1_000_000, MOST_GAP]);
            furnace.rounds = match trial(&furnace, MOST).impossible {
                Some(later) if !random.one_in(3) => rounds_around(random, later),
                _ => rounds,
            };
            return furnace;
        }
    }
}

/// A furnace near rest with limits near its references and a small g, so that the multipliers of its
/// first rounds are small. Some have curves, some weights of 0.
fn narrow(random: &mut Random) -> Furnace {
    let mut furnace = blank(random);
    for column in &mut furnace.columns {
        let reference = random.between(-400, 400);
        *column = Column {
            lo: reference - random.between(2, 8),
            hi: reference + random.between(2, 8),
            reference,
            weight: random.between(1, 4),
        };
    }
    put_entries(&mut furnace, random);
    put_at_rest(&mut furnace, random, 2);
    if curves::drawn(random) {
        curves::put_wild(&mut furnace, random);
    }
    Zeros::any(random).put(&mut furnace, random);
    furnace.step_size = random.between(1, 16);
    furnace
}

/// Puts a state out of reach and moves its drift until the floor of the last of so many rounds is at
/// the ceiling. False where that does not come about.
///
/// As long as no multiplier changes, the floor moves with the drift by the sum of that state's
/// multipliers. Step 4 rounds small moves away, so that in the end none changes.
fn put_floor_at_ceiling(furnace: &mut Furnace, random: &mut Random, rounds: u32) -> bool {
    let i = random.below(furnace.states);
    furnace.drift[i] += random.between(50_000, 400_000) * random.choose(&[-1, 1]);
    for _ in 0..MOVES {
        if furnace.drift[i].abs() > DRIFT_RANGE {
            return false;
        }
        let last = last_of(furnace, rounds);
        if is_at_ceiling(furnace, &last) {
            return true;
        }
        let short = last.ceiling - last.floor;
        furnace.drift[i] += match last.y_tilde.iter().map(|y| y[i]).sum() {
            0 => return false,
            slope @ 1.. => floor_div(short, slope),
            slope => ceil_div(-short, -slope),
        };
    }
    false
}

/// The last of at most so many rounds, none of which can end with 'proved'.
fn last_of(furnace: &Furnace, rounds: u32) -> Round {
    let mut furnace = furnace.clone();
    furnace.rounds = rounds;
    // No gap is below 0.
    furnace.wanted_gap = -1;
    let mut last = None;
    run(&furnace, &mut |round: &Round| last = Some(round.clone()));
    last.expect("a round is entered")
}

/// Does the floor not exceed the ceiling, and would it with quotients rounded down?
fn is_at_ceiling(furnace: &Furnace, round: &Round) -> bool {
    let higher = round.floor + lowered(furnace, &round.y_tilde);
    (round.floor..higher).contains(&round.ceiling)
}

#[cfg(test)]
mod tests {
    use super::*;
    use crate::quotient::outcome_rounded_down;
    use crate::rounds::Outcome;

    #[test]
    fn rounding_up_puts_the_answer_off() {
        for seed in 0..20 {
            let furnace = any(&mut Random::new(seed));
            let mut before = Vec::new();
            let outcome = run(&furnace, &mut |round: &Round| {
                before.push(outcome_rounded_down(&furnace, round));
            });
            let first = before.iter().position(|before| *before != Outcome::Open);
            let first = first.expect("an answer with quotients rounded down");
            assert!(matches!(before[first], Outcome::Impossible { .. }));
            match outcome {
                Outcome::Impossible { rounds, .. } => assert!(rounds as usize > first + 1),
                outcome => assert_eq!(outcome, Outcome::Open),
            }
        }
    }
}
