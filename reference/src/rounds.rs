//! The rounds: an accelerated gradient ascent on the multipliers.

use crate::banded::Elimination;
use crate::float::nearest;
use crate::floor::{
    ceiling, end_by_slope, floor, input_slope, state_slope, Multipliers, MULTIPLIER_RANGE,
};
use crate::model::{cost, floor_div, next_state, residual, Column, Furnace, Plan, Whole};

/// What step 3 made of the inputs of step 2.
#[derive(Clone, Debug, PartialEq, Eq)]
pub enum Candidate {
    /// The plan follows the tape.
    Follows {
        /// The candidate plan.
        plan: Plan,
        /// Its cost K.
        cost: Whole,
        /// Its gap under y~.
        gap: Whole,
    },
    /// The candidate was dropped at its first number outside lo to hi.
    Dropped {
        /// The step k whose input or whose state x(k+1) it is.
        step: usize,
        /// The number's column.
        column: usize,
        /// The number.
        number: Whole,
    },
}

/// How a round ends.
#[derive(Clone, Debug, PartialEq, Eq)]
pub enum Ending {
    /// The candidate follows the tape and its gap is at most T.
    Proved,
    /// y~ shows impossibility.
    Impossible,
    /// Neither: the y that step 4 gives.
    Next(Multipliers),
}

/// All numbers of one round.
#[derive(Clone, Debug, PartialEq, Eq)]
pub struct Round {
    /// The round's number, from 0.
    pub k: u32,
    /// y at entry.
    pub y: Multipliers,
    /// y~ of step 1.
    pub y_tilde: Multipliers,
    /// The numbers of step 2 (the minimiser within the limits). They need not meet the model.
    pub numbers: Plan,
    /// e(k,i) of step 4 as `residuals[k][i]`, from the numbers of step 2. They are given for
    /// the answering round too, though step 4 is not reached there.
    pub residuals: Vec<Vec<Whole>>,
    /// The candidate of step 3.
    pub candidate: Candidate,
    /// The floor of y~.
    pub floor: Whole,
    /// The tape's ceiling.
    pub ceiling: Whole,
    /// How the round ends.
    pub ending: Ending,
}

/// What the rounds come to. Each count has every round entered, the answering one included.
#[derive(Clone, Debug, PartialEq, Eq)]
pub enum Outcome {
    /// 'proved'.
    Proved {
        /// Rounds entered.
        rounds: u32,
        /// The gap of `plan` under `multipliers`.
        gap: Whole,
        /// Step 3's candidate.
        plan: Plan,
        /// y~.
        multipliers: Multipliers,
    },
    /// 'impossible'.
    Impossible {
        /// Rounds entered.
        rounds: u32,
        /// y~.
        multipliers: Multipliers,
    },
    /// R rounds without either answer.
    Open,
}

/// Limits a multiplier to its range.
pub fn limit_multiplier(number: Whole) -> Whole {
    number.clamp(-MULTIPLIER_RANGE, MULTIPLIER_RANGE)
}

/// Step 1: y~ = y + (k − 1) × (y − previous y) / (k + 2), the quotient rounded down, then
/// limited. "Previous y" is the y, not the y~, of the round before.
pub fn momentum(k: u32, y: Whole, previous: Whole) -> Whole {
    let k = Whole::from(k);
    limit_multiplier(y + floor_div((k - 1) * (y - previous), k + 2))
}

/// Step 1 for all multipliers.
fn all_momentum(furnace: &Furnace, k: u32, y: &Multipliers, previous: &Multipliers) -> Multipliers {
    let mut y_tilde = y.clone();
    for step in 0..furnace.horizon {
        for i in 0..furnace.states {
            y_tilde[step][i] = momentum(k, y[step][i], previous[step][i]);
        }
    }
    y_tilde
}

/// Step 2: v = (2P × r − s + P) / 2P, rounded down and limited to lo and hi. At weight 0 it is lo
/// or hi by the rule of the piece.
pub fn minimiser(column: &Column, s: Whole) -> Whole {
    if column.weight == 0 {
        return end_by_slope(column, s);
    }
    let p = column.price();
    let r = column.reference;
    column.limit(floor_div(2 * p * r - s + p, 2 * p))
}

/// Step 2 for all numbers, with x(0) the tape's.
fn all_minimisers(furnace: &Furnace, y_tilde: &Multipliers) -> Plan {
    let mut numbers = Plan {
        u: vec![vec![0; furnace.inputs]; furnace.horizon],
        x: vec![vec![0; furnace.states]; furnace.horizon + 1],
    };
    numbers.x[0] = furnace.start.clone();
    for k in 0..furnace.horizon {
        for j in 0..furnace.inputs {
            let s = input_slope(furnace, y_tilde, k, j);
            numbers.u[k][j] = minimiser(&furnace.input_at(k, j), s);
        }
    }
    for k in 1..=furnace.horizon {
        for i in 0..furnace.states {
            let s = state_slope(furnace, y_tilde, k, i);
            numbers.x[k][i] = minimiser(&furnace.state_at(k, i), s);
        }
    }
    numbers
}

/// Step 3: the inputs of step 2 and the states that the model gives, up to the first number
/// outside lo to hi.
fn candidate(furnace: &Furnace, inputs: &[Vec<Whole>], floor: Whole) -> Candidate {
    let mut x = vec![furnace.start.clone()];
    for step in 0..furnace.horizon {
        for j in 0..furnace.inputs {
            let number = inputs[step][j];
            if !furnace.input_column(j).contains(number) {
                let column = furnace.states + j;
                return Candidate::Dropped {
                    step,
                    column,
                    number,
                };
            }
        }
        let mut next = Vec::new();
        for i in 0..furnace.states {
            let number = next_state(furnace, &x[step], &inputs[step], i);
            if !furnace.state_column(i).contains(number) {
                return Candidate::Dropped {
                    step,
                    column: i,
                    number,
                };
            }
            next.push(number);
        }
        x.push(next);
    }
    let plan = Plan {
        u: inputs.to_vec(),
        x,
    };
    let cost = cost(furnace, &plan);
    Candidate::Follows {
        plan,
        cost,
        gap: cost - floor,
    }
}

/// e(k,i) for all k and i.
fn all_residuals(furnace: &Furnace, numbers: &Plan) -> Vec<Vec<Whole>> {
    let mut residuals = vec![vec![0; furnace.states]; furnace.horizon];
    for k in 0..furnace.horizon {
        for i in 0..furnace.states {
            residuals[k][i] = residual(furnace, numbers, k, i);
        }
    }
    residuals
}

/// Step 4 with g: y~ + (e × g + 32,768) / 65,536, the quotient rounded down, then limited.
pub fn ascent(y_tilde: Whole, e: Whole, g: Whole) -> Whole {
    limit_multiplier(y_tilde + floor_div(e * g + 32_768, 65_536))
}

/// Step 4 with g for all multipliers.
fn all_ascent(furnace: &Furnace, y_tilde: &Multipliers, residuals: &[Vec<Whole>]) -> Multipliers {
    let mut next = y_tilde.clone();
    for k in 0..furnace.horizon {
        for i in 0..furnace.states {
            next[k][i] = ascent(y_tilde[k][i], residuals[k][i], furnace.step_size);
        }
    }
    next
}

/// Step 4 with d (request 9): y~ plus the whole number nearest to d, halves upward, then limited. A d
/// that is not finite counts as 0.
pub fn next_multiplier(y: Whole, d: f64) -> Whole {
    limit_multiplier(y + nearest(d).unwrap_or(0))
}

/// Can a pivot be used? It is finite and above 0.
pub fn usable(pivot: f64) -> bool {
    pivot.is_finite() && pivot > 0.0
}

/// Step 4 with d for all multipliers. The rows of an elimination are by step, then state.
fn all_corrected(
    furnace: &Furnace,
    elimination: &Elimination,
    y_tilde: &Multipliers,
    residuals: &[Vec<Whole>],
) -> Multipliers {
    let d = elimination.correction(&residuals.concat());
    let mut next = y_tilde.clone();
    for k in 0..furnace.horizon {
        for i in 0..furnace.states {
            next[k][i] = next_multiplier(y_tilde[k][i], d[k * furnace.states + i]);
        }
    }
    next
}

/// Round k from y and the y before it. Step 4 takes d where there is an elimination, else g.
pub fn round(
    furnace: &Furnace,
    elimination: Option<&Elimination>,
    k: u32,
    y: &Multipliers,
    previous: &Multipliers,
) -> Round {
    let y_tilde = all_momentum(furnace, k, y, previous);
    let numbers = all_minimisers(furnace, &y_tilde);
    let floor = floor(furnace, &y_tilde);
    let ceiling = ceiling(furnace);
    let candidate = candidate(furnace, &numbers.u, floor);
    let residuals = all_residuals(furnace, &numbers);
    let proved = match &candidate {
        Candidate::Follows { gap, .. } => *gap <= furnace.wanted_gap,
        Candidate::Dropped { .. } => false,
    };
    let ending = if proved {
        Ending::Proved
    } else if floor > ceiling {
        Ending::Impossible
    } else {
        Ending::Next(match elimination {
            Some(elimination) => all_corrected(furnace, elimination, &y_tilde, &residuals),
            None => all_ascent(furnace, &y_tilde, &residuals),
        })
    };
    Round {
        k,
        y: y.clone(),
        y_tilde,
        numbers,
        residuals,
        candidate,
        floor,
        ceiling,
        ending,
    }
}

/// The rounds, at most R. Each is shown to `watch` when it is done.
pub fn run(furnace: &Furnace, watch: &mut dyn FnMut(&Round)) -> Outcome {
    // All multipliers start at 0, and so do those before them.
    let mut y = vec![vec![0; furnace.states]; furnace.horizon];
    let mut previous = y.clone();
    // Neither W nor its pivots depend on the round.
    let elimination = Elimination::of_tape(furnace);
    for k in 0..furnace.rounds {
        let done = round(furnace, elimination.as_ref(), k, &y, &previous);
        watch(&done);
        match (done.ending, done.candidate) {
            (Ending::Proved, Candidate::Follows { plan, gap, .. }) => {
                return Outcome::Proved {
                    rounds: k + 1,
                    gap,
                    plan,
                    multipliers: done.y_tilde,
                }
            }
            (Ending::Proved, Candidate::Dropped { .. }) => {
                unreachable!("a dropped candidate is never proved")
            }
            (Ending::Impossible, _) => {
                return Outcome::Impossible {
                    rounds: k + 1,
                    multipliers: done.y_tilde,
                }
            }
            (Ending::Next(next), _) => {
                previous = y;
                y = next;
            }
        }
    }
    Outcome::Open
}

#[cfg(test)]
mod tests {
    use super::*;

    #[test]
    fn momentum_takes_the_product_first() {
        // Round 0 has factor −1/2, round 1 factor 0, round 2 factor 1/4, round 3 factor 2/5.
        assert_eq!(momentum(0, 10, 7), 10 - 2);
        assert_eq!(momentum(1, 10, 7), 10);
        assert_eq!(momentum(2, 10, 7), 10);
        assert_eq!(momentum(2, -10, -7), -10 - 1);
        assert_eq!(momentum(3, 10, 7), 10 + 1);
        assert_eq!(momentum(3, -13, -10), -13 - 2);
        assert_eq!(momentum(9, 16_777_000, 0), 16_777_216);
        assert_eq!(momentum(9, -16_777_000, 0), -16_777_216);
    }

    #[test]
    fn ascent_rounds_to_the_nearest() {
        assert_eq!(ascent(5, 32_767, 1), 5);
        assert_eq!(ascent(5, 32_768, 1), 6);
        assert_eq!(ascent(5, -32_768, 1), 5);
        assert_eq!(ascent(5, -32_769, 1), 4);
        assert_eq!(ascent(16_777_216, 1_000_000, 65_535), 16_777_216);
        assert_eq!(ascent(-16_777_216, -1_000_000, 65_535), -16_777_216);
    }

    #[test]
    fn next_multiplier_rounds_and_limits() {
        let most = MULTIPLIER_RANGE;
        let cases = [
            (5, 0.5, 6),
            (5, -0.5, 5),
            (5, 0.499_999_999_999_999_94, 5),
            (5, 1.5, 7),
            (5, -1.5, 4),
            (-7, -2.5, -9),
            (most, 0.5, most),
            (most, -0.5, most),
            (most, -0.75, most - 1),
            (-most, -0.75, -most),
            (-most, 2.0 * 16_777_216.0, most),
            (-most, 33_554_431.5, most),
            (-most, 33_554_431.25, most - 1),
            (most, -2.0 * 16_777_216.0 - 1.0, -most),
        ];
        for (y, d, next) in cases {
            assert_eq!(next_multiplier(y, d), next, "{y} {d}");
        }
    }

    #[test]
    fn next_multiplier_far_away() {
        for y in [-MULTIPLIER_RANGE, -1, 0, 1, MULTIPLIER_RANGE] {
            for d in [1e9, 4_503_599_627_370_497.0, 1e26, 1e300, f64::MAX] {
                assert_eq!(next_multiplier(y, d), MULTIPLIER_RANGE, "{y} {d}");
                assert_eq!(next_multiplier(y, -d), -MULTIPLIER_RANGE, "{y} {d}");
            }
            for d in [f64::INFINITY, f64::NEG_INFINITY, f64::NAN, -f64::NAN] {
                assert_eq!(next_multiplier(y, d), y, "{y} {d}");
            }
        }
    }

    #[test]
    fn usable_pivots() {
        let smallest = f64::from_bits(1);
        for pivot in [smallest, 1e-300, 1.0, 1e26, f64::MAX] {
            assert!(usable(pivot), "{pivot}");
            assert!(!usable(-pivot), "{pivot}");
        }
        for pivot in [0.0, -0.0, f64::INFINITY, f64::NEG_INFINITY, f64::NAN] {
            assert!(!usable(pivot), "{pivot}");
        }
    }

    #[test]
    fn minimiser_rounds_and_limits() {
        let column = Column {
            lo: -3,
            hi: 9,
            reference: 5,
            weight: 1,
        };
        // 5 − s / 8192, halves upwards.
        assert_eq!(minimiser(&column, 0), 5);
        assert_eq!(minimiser(&column, 4_096), 5);
        assert_eq!(minimiser(&column, 4_097), 4);
        assert_eq!(minimiser(&column, -4_096), 6);
        assert_eq!(minimiser(&column, -4_095), 5);
        assert_eq!(minimiser(&column, 8_192 * 8), -3);
        assert_eq!(minimiser(&column, 8_192 * 9), -3);
        assert_eq!(minimiser(&column, -8_192 * 9), 9);
    }

    #[test]
    fn minimiser_of_weight_0() {
        // Within the limits, at them and outside them, the reference does not count.
        for reference in [-20_000, -3, 5, 9, 20_000] {
            let column = Column {
                lo: -3,
                hi: 9,
                reference,
                weight: 0,
            };
            let numbers = [-8_192, -1, 0, 1, 8_192].map(|s| minimiser(&column, s));
            assert_eq!(numbers, [9, 9, -3, -3, -3]);
            let one = Column { hi: -3, ..column };
            let numbers = [-1, 0, 1].map(|s| minimiser(&one, s));
            assert_eq!(numbers, [-3, -3, -3]);
        }
    }
}
