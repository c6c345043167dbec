//! The report on a judged plan (document 02, request 6): its numbers and its words.

use crate::calls::{judge_plan, read};
use crate::model::Whole;
use crate::refusal::{Fault, Refusal};

/// How many numbers a report has.
pub const REPORT_LENGTH: usize = 5;

/// What judging a plan comes to, where the tape, the lengths and the multipliers are in order.
#[derive(Clone, Copy, Debug, PartialEq, Eq)]
pub enum Report {
    /// The plan is accepted.
    Accepted {
        /// Its gap.
        gap: Whole,
    },
    /// 10, with the first fault.
    OffModel(Fault),
    /// 11, with the first fault.
    OverLimit(Fault),
    /// 13.
    Wide {
        /// K of the plan.
        cost: Whole,
        /// The floor of the multipliers.
        floor: Whole,
    },
}

impl Report {
    /// The report that an answer of [`judge_plan`] makes; a refusal that is no report stays one.
    pub fn of_answer(answer: Result<Whole, Refusal>) -> Result<Report, Refusal> {
        match answer {
            Ok(gap) => Ok(Report::Accepted { gap }),
            Err(Refusal::OffModel(fault)) => Ok(Report::OffModel(fault)),
            Err(Refusal::OverLimit(fault)) => Ok(Report::OverLimit(fault)),
            Err(Refusal::Wide { cost, floor }) => Ok(Report::Wide { cost, floor }),
            Err(refusal) => Err(refusal),
        }
    }

    /// 0 and the gap; 10 or 11, step, column, the number found and what was due; 13, cost and floor.
    /// Places that are left are 0.
    pub fn numbers(self) -> [Whole; REPORT_LENGTH] {
        let with = |number: Whole, fault: Fault| {
            let (step, column) = (fault.step as Whole, fault.column as Whole);
            [number, step, column, fault.found, fault.due]
        };
        match self {
            Report::Accepted { gap } => [0, gap, 0, 0, 0],
            Report::OffModel(fault) => with(10, fault),
            Report::OverLimit(fault) => with(11, fault),
            Report::Wide { cost, floor } => [13, cost, floor, 0, 0],
        }
    }

    /// The report in words, for a furnace with so many states.
    pub fn words(self, states: usize) -> String {
        match self {
            Report::Accepted { gap } => format!("gap {gap}"),
            Report::OffModel(fault) => {
                format!("{}, the model gives {}", found(fault, states), fault.due)
            }
            Report::OverLimit(fault) => {
                let side = if fault.found < fault.due {
                    "below"
                } else {
                    "above"
                };
                format!("{}, {side} the limit {}", found(fault, states), fault.due)
            }
            Report::Wide { cost, floor } => {
                let gap = cost - floor;
                format!("cost {cost}, floor {floor}: the gap, {gap}, is above the wanted one")
            }
        }
    }
}

/// Where a fault is, and the number found there.
fn found(fault: Fault, states: usize) -> String {
    let Fault {
        step,
        column,
        found,
        ..
    } = fault;
    let column = if column < states {
        format!("state {column}")
    } else {
        format!("input {}", column - states)
    };
    format!("step {step}, {column}: {found} found")
}

/// Judges a plan with multipliers, as [`judge_plan`] does, and gives the report on it. The refusals
/// are all others.
pub fn judge_report(tape: &[u8], plan: &[i32], multipliers: &[i32]) -> Result<Report, Refusal> {
    Report::of_answer(judge_plan(tape, plan, multipliers))
}

/// The line of the report in words.
pub fn text(tape: &[u8], plan: &[i32], multipliers: &[i32]) -> Result<String, Refusal> {
    let report = judge_report(tape, plan, multipliers)?;
    Ok(report.words(read(tape)?.states) + "\n")
}
