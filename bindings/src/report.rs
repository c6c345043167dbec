//! The report of a judged plan: its gap, or the place where it fails.

use core::fmt;

use crate::{accepted_tape, calls, wrong_library, Refusal, Tape};

/// What judging a plan comes to. As text it is one line.
///
/// A fault is the first of the plan, step by step, the inputs of a step before its states: every
/// number before it passes its tests, and no plan with the same numbers up to and including this
/// one is accepted, whatever the multipliers.
#[derive(Clone, Copy, Debug, PartialEq, Eq, Hash)]
pub enum Report {
    /// The plan is accepted.
    Accepted {
        /// At most T. No rival costs less than this plan's cost minus the gap.
        gap: i64,
    },
    /// 10: a state differs from the model. What was due is the number that the model gives from
    /// the numbers before it.
    OffModel(Fault),
    /// 11: a number is outside lo to hi. What was due is the limit passed: lo where the number is
    /// below it, else hi.
    OverLimit(Fault),
    /// 13: the plan follows the tape, but its gap, which is cost − floor, is above T.
    Wide {
        /// The plan's cost.
        cost: i64,
        /// The multipliers' floor: no rival costs less. It may be below 0.
        floor: i64,
    },
}

/// A number of a plan that fails a test, and its place.
#[derive(Clone, Copy, Debug, PartialEq, Eq, Hash)]
pub struct Fault {
    /// k, from 0, of u(k) and x(k+1).
    pub step: usize,
    /// Which state or which input.
    pub column: Column,
    /// The number that the plan has.
    pub found: i64,
    /// The model's number, or the limit that was passed.
    pub due: i64,
}

/// A column of a plan.
#[derive(Clone, Copy, Debug, PartialEq, Eq, Hash)]
pub enum Column {
    /// State i, from 0. Its column on the tape is i.
    State(usize),
    /// Input j, from 0. Its column on the tape is n + j.
    Input(usize),
}

/// Judges a plan with multipliers as [`crate::judge_plan`] does, and says where a plan fails. Its
/// refusals 10, 11 and 13 are reports here.
///
/// ```
/// use fibergravel::{judge_report, Column, Fault, Report};
///
/// // Document 01's tape F.
/// let tape = [
///     0x10, 1, 1, 1, // size
///     0x20, 0, 0, 0x00, 0x10, // A(0,0) = 4096
///     0x21, 0, 0, 0x00, 0x08, // B(0,0) = 2048
///     0x30, 0, 0x18, 0xFC, 0xE8, 0x03, 0x6E, 0x00, 1, // the state: -1000 to 1000, r 110
///     0x30, 1, 0x00, 0x00, 0x28, 0x00, 0x00, 0x00, 1, // the input: 0 to 40, r 0
///     0x40, 0, 0x64, 0x00, // x(0) = 100
///     0x50, 0x19, 0x00, 0x05, 0x00, 0x40, 0x9C, 0x00, 0x00, // g 25, R 5, T 40000
///     0xFF,
/// ];
/// assert_eq!(judge_report(&tape, &[4, 102], &[-16])?, Report::Accepted { gap: 32768 });
///
/// // A duty of 4 takes the state from 100 to 102.
/// let report = judge_report(&tape, &[4, 103], &[-16])?;
/// let column = Column::State(0);
/// let fault = Fault { step: 0, column, found: 103, due: 102 };
/// assert_eq!(report, Report::OffModel(fault));
/// assert_eq!(report.to_string(), "step 0, state 0: 103 found, the model gives 102");
/// # Ok::<(), fibergravel::Refusal>(())
/// ```
///
/// # Errors
///
/// Refusals 1 to 8 and 18 of the tape; 9 where a slice has not the length of [`Tape::plan_length`] or
/// [`Tape::multipliers_length`]; then 12 of the multipliers, before the plan is looked at.
pub fn judge_report(tape: &[u8], plan: &[i32], multipliers: &[i32]) -> Result<Report, Refusal> {
    let mut out = [0; calls::JUDGE_REPORT_LENGTH];
    match calls::judge_report(tape, plan, multipliers, &mut out) {
        0 => Ok(Report::from_numbers(out, || accepted_tape(tape))),
        refused => Err(report_refusal(refused)),
    }
}

/// The refusal of a report.
fn report_refusal(answer: u64) -> Refusal {
    match Refusal::from_answer(answer) {
        Some(refusal) if matches!(refusal.number(), 1..=9 | 12 | 18) => refusal,
        _ => wrong_library(),
    }
}

impl Report {
    /// The report's numbers in the order of [`calls::judge_report`]. Only a fault needs the tape's.
    fn from_numbers(
        numbers: [i64; calls::JUDGE_REPORT_LENGTH],
        tape: impl FnOnce() -> Tape,
    ) -> Report {
        match numbers {
            [0, gap, 0, 0, 0] => Report::Accepted { gap },
            [10, fault @ ..] => Report::OffModel(Fault::from_numbers(fault, &tape()).of_a_state()),
            [11, fault @ ..] => Report::OverLimit(Fault::from_numbers(fault, &tape())),
            // A gap above T is above 0.
            [13, cost, floor, 0, 0] if floor < cost => Report::Wide { cost, floor },
            _ => wrong_library(),
        }
    }
}

impl Fault {
    /// Step, column, number found and number due, of a plan for the tape.
    fn from_numbers(numbers: [i64; 4], tape: &Tape) -> Fault {
        let [step, column, found, due] = numbers;
        if found == due {
            wrong_library();
        }
        Fault {
            step: index(step, tape.steps),
            column: Column::from_number(column, tape),
            found,
            due,
        }
    }

    /// The fault, which is that of a state: the model says nothing of inputs.
    fn of_a_state(self) -> Fault {
        match self.column {
            Column::State(_) => self,
            Column::Input(_) => wrong_library(),
        }
    }

    /// Writes where it is, and what was found there.
    fn write_place(&self, f: &mut fmt::Formatter<'_>) -> fmt::Result {
        let (step, column, found) = (self.step, self.column, self.found);
        write!(f, "step {step}, {column}: {found} found")
    }
}

impl Column {
    /// The column of the tape that has this number.
    fn from_number(number: i64, tape: &Tape) -> Column {
        let (states, inputs) = (tape.states, tape.inputs);
        let column = index(number, states + inputs);
        match column.checked_sub(states) {
            None => Column::State(column),
            Some(input) => Column::Input(input),
        }
    }
}

/// An index, which is from 0 and below `count`.
fn index(number: i64, count: usize) -> usize {
    match usize::try_from(number) {
        Ok(index) if index < count => index,
        _ => wrong_library(),
    }
}

impl fmt::Display for Report {
    fn fmt(&self, f: &mut fmt::Formatter<'_>) -> fmt::Result {
        match *self {
            Report::Accepted { gap } => write!(f, "gap {gap}"),
            Report::OffModel(fault) => {
                fault.write_place(f)?;
                write!(f, ", the model gives {}", fault.due)
            }
            Report::OverLimit(fault) => {
                fault.write_place(f)?;
                let below = fault.found < fault.due;
                let side = if below { "below" } else { "above" };
                write!(f, ", {side} the limit {}", fault.due)
            }
            Report::Wide { cost, floor } => {
                // Any two numbers may stand here.
                let gap = i128::from(cost) - i128::from(floor);
                write!(f, "cost {cost}, floor {floor}: ")?;
                write!(f, "the gap, {gap}, is above the wanted one")
            }
        }
    }
}

impl fmt::Display for Column {
    fn fmt(&self, f: &mut fmt::Formatter<'_>) -> fmt::Result {
        match self {
            Column::State(state) => write!(f, "state {state}"),
            Column::Input(input) => write!(f, "input {input}"),
        }
    }
}

#[cfg(test)]
mod tests {
    use std::panic::catch_unwind;
    use std::string::ToString;

    use super::*;

    /// A tape of 2 states, 3 inputs and 4 steps.
    fn tape() -> Tape {
        let mut numbers = [0; calls::READ_LENGTH];
        numbers[..3].copy_from_slice(&[2, 3, 4]);
        Tape::from_numbers(&numbers)
    }

    /// A fault of 5 found and 7 due.
    fn fault(step: usize, column: Column) -> Fault {
        Fault {
            step,
            column,
            found: 5,
            due: 7,
        }
    }

    /// For reports that no tape need be read for.
    fn unread() -> Tape {
        panic!("only a fault needs the tape")
    }

    #[test]
    fn every_number_of_a_report_has_its_place() {
        assert_eq!(
            Report::from_numbers([0, 7, 0, 0, 0], unread),
            Report::Accepted { gap: 7 }
        );
        assert_eq!(
            Report::from_numbers([13, 7, -5, 0, 0], unread),
            Report::Wide { cost: 7, floor: -5 }
        );
        for state in 0..2 {
            let found = Report::from_numbers([10, 3, state, 5, 7], tape);
            let expected = fault(3, Column::State(state as usize));
            assert_eq!(found, Report::OffModel(expected));
        }
        for column in 0..5 {
            let found = Report::from_numbers([11, 0, column as i64, 5, 7], tape);
            let expected = match column {
                0 | 1 => fault(0, Column::State(column)),
                _ => fault(0, Column::Input(column - 2)),
            };
            assert_eq!(found, Report::OverLimit(expected));
        }
    }

    #[test]
    fn what_no_planner_answers_panics() {
        for numbers in [
            // Kinds.
            [1, 0, 0, 0, 0],
            [-1, 0, 0, 0, 0],
            [9, 0, 0, 0, 0],
            [12, 0, 0, 0, 0],
            [14, 0, 0, 0, 0],
            [10 + 256, 0, 0, 5, 7],
            // What is behind a gap, and behind cost and floor.
            [0, 7, 1, 0, 0],
            [0, 7, 0, 1, 0],
            [0, 7, 0, 0, 1],
            [13, 7, 5, 1, 0],
            [13, 7, 5, 0, 1],
            // Steps and columns.
            [10, -1, 0, 5, 7],
            [10, 4, 0, 5, 7],
            [11, 4, 0, 5, 7],
            [10, 0, -1, 5, 7],
            [11, 0, 5, 5, 7],
            [11, 0, i64::MIN, 5, 7],
            // An input off the model, faults that are none, a gap that is not above 0.
            [10, 0, 2, 5, 7],
            [10, 0, 0, 5, 5],
            [11, 0, 0, 5, 5],
            [13, 7, 7, 0, 0],
            [13, 7, 8, 0, 0],
        ] {
            assert!(
                catch_unwind(|| Report::from_numbers(numbers, tape)).is_err(),
                "{numbers:?}"
            );
        }
    }

    #[test]
    fn refusals_of_reports() {
        assert_eq!(report_refusal(1), Refusal::Cut { offset: 0 });
        let offset = 1063;
        let overrun = Refusal::Overrun { offset };
        assert_eq!(report_refusal(8 + 256 * offset), overrun);
        assert_eq!(report_refusal(9), Refusal::Length);
        assert_eq!(report_refusal(12), Refusal::Multiplier);
        assert_eq!(report_refusal(18), Refusal::Weightless { offset: 0 });
        for answer in [0, 10, 11, 13, 14, 15, 16, 17, 19, 12 + 256, u64::MAX] {
            assert!(catch_unwind(|| report_refusal(answer)).is_err());
        }
    }

    #[test]
    fn reports_as_text() {
        let at = |column, found, due| Fault {
            step: 3,
            column,
            found,
            due,
        };
        let (state, input) = (Column::State(1), Column::Input(0));
        for (report, text) in [
            (Report::Accepted { gap: 32768 }, "gap 32768"),
            (
                Report::OffModel(at(state, 812, 815)),
                "step 3, state 1: 812 found, the model gives 815",
            ),
            (
                Report::OverLimit(at(input, 41, 40)),
                "step 3, input 0: 41 found, above the limit 40",
            ),
            (
                Report::OverLimit(at(state, -5, 0)),
                "step 3, state 1: -5 found, below the limit 0",
            ),
            (
                Report::Wide {
                    cost: 98304,
                    floor: 32768,
                },
                "cost 98304, floor 32768: the gap, 65536, is above the wanted one",
            ),
            (
                Report::Wide {
                    cost: i64::MAX,
                    floor: i64::MIN,
                },
                "cost 9223372036854775807, floor -9223372036854775808: \
                 the gap, 18446744073709551615, is above the wanted one",
            ),
        ] {
            assert_eq!(report.to_string(), text);
        }
        assert_eq!(state.to_string(), "state 1");
        assert_eq!(input.to_string(), "input 0");
    }
}
