//! The public calls of document 01, and the two of request 9 in document 02. Each takes the tape's bytes.

use crate::banded::Elimination;
use crate::faults::faults;
use crate::floor::{floor, gap, shows_impossibility, Multipliers, MULTIPLIER_RANGE};
use crate::model::{cost, Correction, Furnace, Plan, Whole};
use crate::refusal::Refusal;
use crate::rounds::{run, Outcome, Round};
use crate::tape::{self, MOST_INPUTS};

/// The answer of [`judge_multipliers`]: the word 'shown'.
#[derive(Clone, Copy, Debug, PartialEq, Eq)]
pub struct Shown;

/// The answer of [`solve`].
#[derive(Clone, Copy, Debug, PartialEq, Eq)]
pub enum Solved {
    /// 'proved'.
    Proved {
        /// Rounds entered, the answering one included.
        rounds: u32,
        /// The gap of the plan written, under the multipliers written.
        gap: Whole,
        /// u(0) of the plan written; places beyond m are 0.
        first: [i32; MOST_INPUTS],
    },
    /// 'impossible'.
    Impossible {
        /// Rounds entered, the answering one included.
        rounds: u32,
    },
}

/// Reads a tape: the sizes and each number of it, absent ones as 0.
pub fn read(tape: &[u8]) -> Result<Furnace, Refusal> {
    tape::read(tape)
}

/// Judges a plan with multipliers. The answer is the gap.
pub fn judge_plan(tape: &[u8], plan: &[i32], multipliers: &[i32]) -> Result<Whole, Refusal> {
    let furnace = read(tape)?;
    require_plan_length(&furnace, plan)?;
    require_multipliers_length(&furnace, multipliers)?;
    let y = require_multipliers(&furnace, multipliers)?;
    let plan = lent_plan(&furnace, plan);
    if let Some(first) = faults(&furnace, &plan).first() {
        return Err(*first);
    }
    let gap = gap(&furnace, &plan, &y);
    if gap > furnace.wanted_gap {
        return Err(Refusal::Wide {
            cost: cost(&furnace, &plan),
            floor: floor(&furnace, &y),
        });
    }
    Ok(gap)
}

/// Judges multipliers for impossibility.
pub fn judge_multipliers(tape: &[u8], multipliers: &[i32]) -> Result<Shown, Refusal> {
    let furnace = read(tape)?;
    require_multipliers_length(&furnace, multipliers)?;
    let y = require_multipliers(&furnace, multipliers)?;
    if !shows_impossibility(&furnace, &y) {
        return Err(Refusal::NotShown);
    }
    Ok(Shown)
}

/// Solves. 'Proved' fills both slices, 'impossible' the multipliers only, a refusal neither.
pub fn solve(tape: &[u8], plan: &mut [i32], multipliers: &mut [i32]) -> Result<Solved, Refusal> {
    solve_traced(tape, plan, multipliers, &mut |_| ())
}

/// [`solve`], with every round shown to `watch`.
pub fn solve_traced(
    tape: &[u8],
    plan: &mut [i32],
    multipliers: &mut [i32],
    watch: &mut dyn FnMut(&Round),
) -> Result<Solved, Refusal> {
    let furnace = read(tape)?;
    require_plan_length(&furnace, plan)?;
    require_multipliers_length(&furnace, multipliers)?;
    match run(&furnace, watch) {
        Outcome::Proved {
            rounds,
            gap,
            plan: candidate,
            multipliers: y_tilde,
        } => {
            write_plan(&furnace, &candidate, plan);
            write_multipliers(&furnace, &y_tilde, multipliers);
            let mut first = [0; MOST_INPUTS];
            for j in 0..furnace.inputs {
                first[j] = narrow(candidate.u[0][j]);
            }
            Ok(Solved::Proved { rounds, gap, first })
        }
        Outcome::Impossible {
            rounds,
            multipliers: y_tilde,
        } => {
            write_multipliers(&furnace, &y_tilde, multipliers);
            Ok(Solved::Impossible { rounds })
        }
        Outcome::Open => Err(Refusal::Open {
            rounds: furnace.rounds,
        }),
    }
}

/// Which step the tape asks for: 0 for command 50, 1 for command 51.
pub fn read_step(tape: &[u8]) -> Result<Whole, Refusal> {
    Ok(match read(tape)?.correction {
        Correction::Gain => 0,
        Correction::Banded => 1,
    })
}

/// Residuals lent to [`banded_correction`] are at most 2^40 in size.
pub const RESIDUAL_RANGE: i64 = 1 << 40;

/// The banded step alone: 1, with the pivots and the d of these residuals written in the order of the
/// rows; 0, with nothing written, where the tape has command 50 or falls back on g. A refusal writes
/// nothing.
pub fn banded_correction(
    tape: &[u8],
    residuals: &[i64],
    pivots: &mut [f64],
    correction: &mut [f64],
) -> Result<Whole, Refusal> {
    let furnace = read(tape)?;
    let lengths = [residuals.len(), pivots.len(), correction.len()];
    if lengths != [furnace.multipliers_length(); 3] {
        return Err(Refusal::Length);
    }
    let in_range = |e: &i64| (-RESIDUAL_RANGE..=RESIDUAL_RANGE).contains(e);
    if !residuals.iter().all(in_range) {
        return Err(Refusal::ArgumentOutOfRange);
    }
    let Some(elimination) = Elimination::of_tape(&furnace) else {
        return Ok(0);
    };
    let residuals: Vec<Whole> = residuals.iter().copied().map(Whole::from).collect();
    pivots.copy_from_slice(&elimination.pivots());
    correction.copy_from_slice(&elimination.correction(&residuals));
    Ok(1)
}

/// Refusal 9 for the plan.
fn require_plan_length(furnace: &Furnace, plan: &[i32]) -> Result<(), Refusal> {
    if plan.len() != furnace.plan_length() {
        return Err(Refusal::Length);
    }
    Ok(())
}

/// Refusal 9 for the multipliers.
fn require_multipliers_length(furnace: &Furnace, multipliers: &[i32]) -> Result<(), Refusal> {
    if multipliers.len() != furnace.multipliers_length() {
        return Err(Refusal::Length);
    }
    Ok(())
}

/// The multipliers step by step, or refusal 12.
fn require_multipliers(furnace: &Furnace, multipliers: &[i32]) -> Result<Multipliers, Refusal> {
    let y = lent_multipliers(furnace, multipliers);
    let in_range = |number: &Whole| (-MULTIPLIER_RANGE..=MULTIPLIER_RANGE).contains(number);
    if !y.iter().flatten().all(in_range) {
        return Err(Refusal::Multiplier);
    }
    Ok(y)
}

/// The numbers of a slice of the right length step by step.
pub fn lent_multipliers(furnace: &Furnace, multipliers: &[i32]) -> Multipliers {
    let mut y = vec![vec![0; furnace.states]; furnace.horizon];
    for k in 0..furnace.horizon {
        for i in 0..furnace.states {
            y[k][i] = Whole::from(multipliers[k * furnace.states + i]);
        }
    }
    y
}

/// The numbers of a slice of the right length in the places of a plan. x(0) is the tape's.
pub fn lent_plan(furnace: &Furnace, numbers: &[i32]) -> Plan {
    let mut plan = Plan {
        u: Vec::new(),
        x: vec![furnace.start.clone()],
    };
    for k in 0..furnace.horizon {
        let number = |place: usize| Whole::from(numbers[place]);
        let inputs = (0..furnace.inputs).map(|j| number(input_place(furnace, k, j)));
        plan.u.push(inputs.collect());
        let states = (0..furnace.states).map(|i| number(state_place(furnace, k + 1, i)));
        plan.x.push(states.collect());
    }
    plan
}

/// The plan slice holds u(0), x(1), u(1), x(2) and so on. This is the place of u(k,j).
pub fn input_place(furnace: &Furnace, k: usize, j: usize) -> usize {
    k * (furnace.inputs + furnace.states) + j
}

/// The place of x(k,i), k from 1 to N, in the plan slice.
pub fn state_place(furnace: &Furnace, k: usize, i: usize) -> usize {
    (k - 1) * (furnace.inputs + furnace.states) + furnace.inputs + i
}

/// Writes a plan into a slice of its length.
pub fn write_plan(furnace: &Furnace, plan: &Plan, slice: &mut [i32]) {
    for k in 0..furnace.horizon {
        for j in 0..furnace.inputs {
            slice[input_place(furnace, k, j)] = narrow(plan.u[k][j]);
        }
        for i in 0..furnace.states {
            slice[state_place(furnace, k + 1, i)] = narrow(plan.x[k + 1][i]);
        }
    }
}

/// Writes multipliers into a slice of their length.
pub fn write_multipliers(furnace: &Furnace, y: &Multipliers, slice: &mut [i32]) {
    for k in 0..furnace.horizon {
        for i in 0..furnace.states {
            slice[k * furnace.states + i] = narrow(y[k][i]);
        }
    }
}

/// Numbers within the limits and the multiplier range fit 32 bits.
fn narrow(number: Whole) -> i32 {
    i32::try_from(number).expect("a limited number fits 32 bits")
}
