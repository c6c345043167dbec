//! Refusals that report, written as their numbers.
#![allow(dead_code)]

use reference::*;

/// Refusal 10 at a step and a column: the number found, and the model's.
pub fn off_model(step: usize, column: usize, found: i32, due: Whole) -> Refusal {
    Refusal::OffModel(fault(step, column, found, due))
}

/// Refusal 11 at a step and a column: the number found, and the limit that it passed.
pub fn over_limit(step: usize, column: usize, found: i32, due: Whole) -> Refusal {
    Refusal::OverLimit(fault(step, column, found, due))
}

/// Refusal 13.
pub fn wide(cost: Whole, floor: Whole) -> Refusal {
    Refusal::Wide { cost, floor }
}

/// A fault.
pub fn fault(step: usize, column: usize, found: i32, due: Whole) -> Fault {
    let found = Whole::from(found);
    Fault {
        step,
        column,
        found,
        due,
    }
}
