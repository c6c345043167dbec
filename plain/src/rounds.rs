//! The rounds.

use crate::floor::{ceiling, floor, slopes};
use crate::furnace::{next_state, Column, Furnace, Multipliers, Numbers, UNIT};
use crate::{MOST_STATES, MOST_STEPS};

/// Multipliers are from −16,777,216 to 16,777,216.
const MULTIPLIER_RANGE: i64 = 16_777_216;

/// How the rounds end.
#[derive(Clone, Debug, PartialEq, Eq)]
pub enum Outcome {
    /// A candidate follows the tape with a gap of at most T.
    Proved {
        /// Rounds entered.
        rounds: i64,
        /// Its gap.
        gap: i64,
        /// It.
        candidate: Numbers,
        /// The round's y~.
        y: Multipliers,
    },
    /// The floor is above the ceiling.
    Impossible {
        /// Rounds entered.
        rounds: i64,
        /// The round's y~.
        y: Multipliers,
    },
    /// R rounds without either.
    Open,
}

/// What can be seen of a round.
pub struct Round<'a> {
    /// Rounds entered, this one included.
    pub rounds: i64,
    /// The numbers of step 2.
    pub numbers: &'a Numbers,
    /// The candidate's gap, where it follows the tape.
    pub gap: Option<i64>,
}

/// Runs the rounds, and shows each to `seen`.
pub fn watch(furnace: &Furnace, mut seen: impl FnMut(&Round)) -> Outcome {
    let ceiling = ceiling(furnace);
    let mut previous = [[0; MOST_STATES]; MOST_STEPS];
    let mut y = previous;
    for k in 0..furnace.rounds {
        let rounds = k + 1;
        let ahead = ahead(furnace, k, &y, &previous);
        let slopes = slopes(furnace, &ahead);
        let numbers = minimisers(furnace, &slopes);
        let floor = floor(furnace, &ahead, &slopes);
        let candidate = candidate(furnace, &numbers);
        let gap = candidate.as_ref().map(|plan| furnace.cost(plan) - floor);
        seen(&Round {
            rounds,
            numbers: &numbers,
            gap,
        });
        match (candidate, gap) {
            (Some(candidate), Some(gap)) if gap <= furnace.wanted_gap => {
                return Outcome::Proved {
                    rounds,
                    gap,
                    candidate,
                    y: ahead,
                };
            }
            _ => (),
        }
        if floor > ceiling {
            return Outcome::Impossible { rounds, y: ahead };
        }
        previous = y;
        y = corrected(furnace, &ahead, &numbers);
    }
    Outcome::Open
}

/// A multiplier limited to its range.
fn limited(y: i64) -> i64 {
    y.clamp(-MULTIPLIER_RANGE, MULTIPLIER_RANGE)
}

/// Step 1: y~, the multipliers moved on by their last change.
fn ahead(furnace: &Furnace, k: i64, y: &Multipliers, previous: &Multipliers) -> Multipliers {
    let mut ahead = [[0; MOST_STATES]; MOST_STEPS];
    for step in 0..furnace.steps {
        for i in 0..furnace.states {
            let change = y[step][i] - previous[step][i];
            ahead[step][i] = limited(y[step][i] + ((k - 1) * change).div_euclid(k + 2));
        }
    }
    ahead
}

/// Step 2: the number nearest to where a column's piece is least, at step k with slope s.
fn minimiser(column: &Column, k: usize, s: i64) -> i64 {
    let Column { lo, hi, price, .. } = *column;
    if price == 0 {
        return if s >= 0 { lo } else { hi };
    }
    let number = (2 * price * column.reference[k] - s + price).div_euclid(2 * price);
    number.clamp(lo, hi)
}

/// Step 2 for all numbers.
fn minimisers(furnace: &Furnace, slopes: &Numbers) -> Numbers {
    let mut numbers = Numbers::ZERO;
    for k in 0..furnace.steps {
        for j in 0..furnace.inputs {
            numbers.inputs[k][j] = minimiser(furnace.input(j), k, slopes.inputs[k][j]);
        }
        for i in 0..furnace.states {
            numbers.states[k][i] = minimiser(furnace.state(i), k, slopes.states[k][i]);
        }
    }
    numbers
}

/// Step 3: the inputs of step 2 with the model's states; none where a state is outside its limits.
fn candidate(furnace: &Furnace, numbers: &Numbers) -> Option<Numbers> {
    let mut plan = Numbers {
        inputs: numbers.inputs,
        ..Numbers::ZERO
    };
    for k in 0..furnace.steps {
        for i in 0..furnace.states {
            let x = furnace.states_before(&plan, k);
            let state = next_state(furnace.model_sum(x, &plan.inputs[k], i));
            if !furnace.state(i).contains(state) {
                return None;
            }
            plan.states[k][i] = state;
        }
    }
    Some(plan)
}

/// Step 4: the next y, y~ moved by the gain times the residuals of step 2's numbers.
fn corrected(furnace: &Furnace, ahead: &Multipliers, numbers: &Numbers) -> Multipliers {
    let mut next = [[0; MOST_STATES]; MOST_STEPS];
    for k in 0..furnace.steps {
        let x = furnace.states_before(numbers, k);
        for i in 0..furnace.states {
            let sum = furnace.model_sum(x, &numbers.inputs[k], i);
            let residual = sum - UNIT * numbers.states[k][i];
            let step = (residual * furnace.gain + 32_768).div_euclid(65_536);
            next[k][i] = limited(ahead[k][i] + step);
        }
    }
    next
}

#[cfg(test)]
mod tests {
    use super::*;
    use crate::tapes::{tape_f, tape_m9};
    use crate::{solve, Answer};

    /// The answer to a tape of one step, and what it leaves of a plan and a multiplier of 7.
    fn solved(tape: &[u8]) -> (Option<Answer>, [i32; 2], [i32; 1]) {
        let (mut plan, mut multipliers) = ([7; 2], [7; 1]);
        let answer = solve(tape, &mut plan, &mut multipliers);
        (answer, plan, multipliers)
    }

    #[test]
    fn tape_f_and_figures_m7_and_m8() {
        let mut tape = tape_f();
        let answer = Answer::Proved {
            rounds: 2,
            gap: 32_768,
        };
        let proved = (Some(answer), [4, 102], [-16]);
        assert_eq!(solved(&tape.bytes()), proved);
        tape.wanted_gap = 32_768;
        assert_eq!(solved(&tape.bytes()), proved);
        tape.wanted_gap = 30_000;
        assert_eq!(solved(&tape.bytes()), (Some(Answer::Open), [7; 2], [7]));
    }

    #[test]
    fn tape_f_by_hand() {
        // Round 0 has y~ = 0, u = 0 and x = 110; its candidate is at 100. The residual is
        // 4096 × 100 − 4096 × 110 = −40,960, and (−40,960 × 25 + 32,768) / 65,536 is −16.
        let furnace = tape_f().furnace();
        let mut rounds = Vec::new();
        watch(&furnace, |round| {
            let numbers = round.numbers;
            rounds.push((numbers.inputs[0][0], numbers.states[0][0], round.gap));
        });
        assert_eq!(rounds, [(0, 110, Some(409_600)), (4, 102, Some(32_768))]);
    }

    #[test]
    fn limits_of_figure_m9_are_out_of_reach() {
        // Round 0's residual is −150 × 4096 and y is −234 after it. Round 1 has s = −479,232 for
        // the input, which stands at 40, and 958,464 for the state, at 200. The floor is
        // 6,553,600 − 19,169,280 + 10,240,000 + 191,692,800 − 95,846,400 − 479,232 = 92,991,488.
        let answer = Some(Answer::Impossible { rounds: 2 });
        assert_eq!(solved(&tape_m9().bytes()), (answer, [7; 2], [-234]));
    }

    #[test]
    fn momentum_rounds_down_and_is_limited() {
        let furnace = tape_f().furnace();
        let of = |k, y: i64, previous: i64| {
            let whole = |y| {
                let mut all = [[0; MOST_STATES]; MOST_STEPS];
                all[0][0] = y;
                all
            };
            ahead(&furnace, k, &whole(y), &whole(previous))[0][0]
        };
        // Round 0 would go back by a half, and round 1 stays.
        assert_eq!([of(0, 3, 2), of(1, 3, 2), of(2, 3, 2)], [2, 3, 3]);
        assert_eq!([of(2, -3, -2), of(7, -3, 9)], [-4, -11]);
        assert_eq!(of(7, MULTIPLIER_RANGE, 0), MULTIPLIER_RANGE);
    }

    #[test]
    fn weight_0_takes_an_end_by_the_slope() {
        let mut tape = tape_f();
        tape.weight = 0;
        let furnace = tape.furnace();
        let ends = [1, 0, -1].map(|s| minimiser(furnace.state(0), 0, s));
        assert_eq!(ends, [-1000, -1000, 1000]);
    }

    #[test]
    fn other_lengths_are_not_taken() {
        let bytes = tape_f().bytes();
        assert_eq!(solve(&bytes, &mut [0; 3], &mut [0; 1]), None);
        assert_eq!(solve(&bytes, &mut [0; 2], &mut [0; 2]), None);
    }
}
