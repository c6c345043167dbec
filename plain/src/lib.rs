//! The rounds of command 50 in plain Rust.
//!
//! This is the program that one writes to have them readable and fast: document 01 with requests
//! 1 (curves), 4 (weight 0) and 7 (the third piece's quotient rounded up) of document 02, on
//! arrays of fixed size, with ordinary indexing over n, m and N, and 64-bit numbers. Only the
//! square of a slope has 128 bits. The planner is timed against it.
//!
//! [`solve`] takes a legal tape with command 50, and gives nothing for anything else.
//!
//! ```
//! use plain::{solve, Answer};
//!
//! // Document 01's tape F.
//! let tape = [
//!     0x10, 1, 1, 1, // size
//!     0x20, 0, 0, 0x00, 0x10, // A(0,0) = 4096
//!     0x21, 0, 0, 0x00, 0x08, // B(0,0) = 2048
//!     0x30, 0, 0x18, 0xFC, 0xE8, 0x03, 0x6E, 0x00, 1, // the state: -1000 to 1000, r 110
//!     0x30, 1, 0x00, 0x00, 0x28, 0x00, 0x00, 0x00, 1, // the input: 0 to 40, r 0
//!     0x40, 0, 0x64, 0x00, // x(0) = 100
//!     0x50, 0x19, 0x00, 0x05, 0x00, 0x40, 0x9C, 0x00, 0x00, // g 25, R 5, T 40000
//!     0xFF,
//! ];
//! let (mut plan, mut multipliers) = ([0; 2], [0; 1]);
//! let answer = solve(&tape, &mut plan, &mut multipliers);
//! assert_eq!(answer, Some(Answer::Proved { rounds: 2, gap: 32768 }));
//! assert_eq!((plan, multipliers), ([4, 102], [-16]));
//! ```
#![forbid(unsafe_code)]
#![deny(missing_docs)]
// The loops name the paper's indexes k, i and j.
#![allow(clippy::needless_range_loop)]

mod floor;
mod furnace;
mod rounds;
mod tape;
#[cfg(test)]
mod tapes;

pub use furnace::{Column, Furnace, Multipliers, Numbers};
pub use rounds::{watch, Outcome, Round};
pub use tape::read;

/// The most states, n.
pub const MOST_STATES: usize = 6;
/// The most inputs, m.
pub const MOST_INPUTS: usize = 4;
/// The most steps, N.
pub const MOST_STEPS: usize = 12;
/// The most columns: the states, then the inputs.
pub const MOST_COLUMNS: usize = MOST_STATES + MOST_INPUTS;

/// How a solve ends. The rounds are those entered, the answering one included.
#[derive(Clone, Copy, Debug, PartialEq, Eq)]
pub enum Answer {
    /// The lent plan and the lent multipliers are filled.
    Proved {
        /// Rounds entered.
        rounds: i64,
        /// The plan's cost minus the multipliers' floor, at most T.
        gap: i64,
    },
    /// The lent multipliers are filled; they show that no plan follows the tape.
    Impossible {
        /// Rounds entered.
        rounds: i64,
    },
    /// R rounds ended without either. Nothing lent has changed.
    Open,
}

/// Solves a legal tape with command 50. The plan has N(n+m) places for u(0), x(1), u(1), x(2) and
/// so on, the multipliers have N × n, step by step. None for any other tape, or for other lengths.
pub fn solve(tape: &[u8], plan: &mut [i32], multipliers: &mut [i32]) -> Option<Answer> {
    let furnace = read(tape)?;
    if plan.len() != furnace.plan_length() || multipliers.len() != furnace.multipliers_length() {
        return None;
    }
    Some(match watch(&furnace, |_| ()) {
        Outcome::Proved {
            rounds,
            gap,
            candidate,
            y,
        } => {
            write_plan(&furnace, &candidate, plan);
            write_multipliers(&furnace, &y, multipliers);
            Answer::Proved { rounds, gap }
        }
        Outcome::Impossible { rounds, y } => {
            write_multipliers(&furnace, &y, multipliers);
            Answer::Impossible { rounds }
        }
        Outcome::Open => Answer::Open,
    })
}

/// Writes the numbers of each step, inputs before states. They lie in their limits, and so fit.
fn write_plan(furnace: &Furnace, numbers: &Numbers, plan: &mut [i32]) {
    let (n, m) = (furnace.states, furnace.inputs);
    for k in 0..furnace.steps {
        let step = &mut plan[k * (n + m)..(k + 1) * (n + m)];
        for j in 0..m {
            step[j] = numbers.inputs[k][j] as i32;
        }
        for i in 0..n {
            step[m + i] = numbers.states[k][i] as i32;
        }
    }
}

/// Writes the multipliers of each step. They lie in their range, and so fit.
fn write_multipliers(furnace: &Furnace, y: &Multipliers, multipliers: &mut [i32]) {
    let n = furnace.states;
    for k in 0..furnace.steps {
        for i in 0..n {
            multipliers[k * n + i] = y[k][i] as i32;
        }
    }
}
