//! The faults of a lent plan (document 02, request 6).
//!
//! Every place is tested on its own, and every fault is listed. What the model gives for a state is
//! formed from the lent numbers before it, whatever they are: 128 bits hold that even where they are
//! at the ends of 32. The true reason of a refusal is the first fault in the list.

use crate::model::{next_state, Column, Furnace, Plan, Whole};
use crate::refusal::{Fault, Refusal};

/// The faults of the numbers in the places of a plan, as the refusals that each would be alone. They
/// come in plan order: the inputs of a step (11), then each state, 10 before 11.
pub fn faults(furnace: &Furnace, plan: &Plan) -> Vec<Refusal> {
    let mut all = Vec::new();
    for k in 0..furnace.horizon {
        for j in 0..furnace.inputs {
            all.extend(over_limit(furnace, k, furnace.states + j, plan.u[k][j]));
        }
        for i in 0..furnace.states {
            all.extend(off_model(furnace, plan, k, i));
            all.extend(over_limit(furnace, k, i, plan.x[k + 1][i]));
        }
    }
    all
}

/// Refusal 10 for x(step+1,i).
fn off_model(furnace: &Furnace, plan: &Plan, step: usize, i: usize) -> Option<Refusal> {
    let fault = Fault {
        step,
        column: i,
        found: plan.x[step + 1][i],
        due: next_state(furnace, &plan.x[step], &plan.u[step], i),
    };
    (fault.found != fault.due).then_some(Refusal::OffModel(fault))
}

/// Refusal 11 for the number of a column: lo is due where it is below lo, hi where it is above hi.
fn over_limit(furnace: &Furnace, step: usize, column: usize, found: Whole) -> Option<Refusal> {
    let Column { lo, hi, .. } = furnace.columns[column];
    let passed = if found < lo {
        Some(lo)
    } else if found > hi {
        Some(hi)
    } else {
        None
    };
    let fault = |due| Fault {
        step,
        column,
        found,
        due,
    };
    passed.map(|due| Refusal::OverLimit(fault(due)))
}
