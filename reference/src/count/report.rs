//! Counts of what is reported on judged plans.

use super::{tape_answers, Counts};
use crate::calls::lent_plan;
use crate::faults::faults;
use crate::model::{Furnace, Whole};
use crate::refusal::{Fault, Refusal};
use crate::report::Report;

/// The heading of the reports on plans and of the refusals of the call that gives them.
pub const REPORTS: &str = "judge report";

/// The names of the reports.
const NAMES: [&str; 4] = ["accepted", "off model", "over limit", "wide"];

/// The heading of the first fault: which test, whose number, on which side.
const FIRST: &str = "judge report, first fault";

/// Of [`FIRST`]: a state differs from the model.
const OFF_MODEL: &str = "10";
/// Of [`FIRST`]: an input is outside its limits.
const INPUT: &str = "11 of an input";
/// Of [`FIRST`]: a state is.
const STATE: &str = "11 of a state";

/// Of [`FIRST`]: the number is off the model and outside its limits.
const BOTH: &str = "10 and 11 at one place";

/// The heading of the first fault's step, where there are several.
const STEP: &str = "judge report, step of the first fault";

/// Which of several steps it is.
const STEPS: [&str; 3] = ["first", "between", "last"];

/// The heading of how many faults a plan has.
const FAULTS: &str = "judge report, faults";

/// Numbers of faults. A number that is off the model and over its limit has two.
const GROUPS: [&str; 4] = ["1", "2", "3", "4 or more"];

/// The heading of gaps beside T and of floors.
const GAPS: &str = "judge report, gap and floor";

/// The names under [`GAPS`].
const GAP_NAMES: [&str; 4] = [
    "gap T",
    "gap one above T",
    "wide, floor below 0",
    "wide, floor above 0",
];

impl Counts {
    /// Adds the headings and names of reports.
    pub fn expect_reports(&mut self) {
        self.expect(REPORTS, tape_answers(&NAMES, &[9, 12]));
        let kinds = [OFF_MODEL, INPUT, STATE];
        let sides = |kind: &str| ["below", "above"].map(|side| format!("{kind} {side}"));
        let first = kinds.into_iter().flat_map(sides);
        self.expect(FIRST, first.chain([BOTH.to_string()]));
        let steps = |kind: &str| STEPS.map(|step| format!("{kind}, {step}"));
        self.expect(STEP, kinds.into_iter().flat_map(steps));
        self.expect(FAULTS, GROUPS.map(str::to_string));
        self.expect(GAPS, GAP_NAMES.map(str::to_string));
    }

    /// Counts an answer of [`judge_report`](crate::judge_report), given what reading says of the same
    /// tape.
    pub fn add_report(
        &mut self,
        furnace: &Result<Furnace, Refusal>,
        plan: &[i32],
        report: Result<Report, Refusal>,
    ) {
        self.add_answer(REPORTS, report.map(name));
        let (Ok(furnace), Ok(report)) = (furnace, report) else {
            return;
        };
        match report {
            Report::Accepted { gap } => self.add_gap_and_floor(furnace, gap, None),
            Report::OffModel(fault) => self.add_fault(furnace, plan, OFF_MODEL, fault),
            Report::OverLimit(fault) if fault.column < furnace.states => {
                self.add_fault(furnace, plan, STATE, fault);
            }
            Report::OverLimit(fault) => self.add_fault(furnace, plan, INPUT, fault),
            Report::Wide { cost, floor } => {
                self.add_gap_and_floor(furnace, cost - floor, Some(floor));
            }
        }
    }

    /// Counts a plan's first fault, and how many it has.
    fn add_fault(&mut self, furnace: &Furnace, plan: &[i32], kind: &str, fault: Fault) {
        let below = fault.found < fault.due;
        let side = if below { "below" } else { "above" };
        self.add(FIRST, &format!("{kind} {side}"));
        if kind == OFF_MODEL && !furnace.columns[fault.column].contains(fault.found) {
            self.add(FIRST, BOTH);
        }
        let [first, between, last] = STEPS;
        let step = match fault.step {
            0 => first,
            step if step + 1 < furnace.horizon => between,
            _ => last,
        };
        if furnace.horizon > 1 {
            self.add(STEP, &format!("{kind}, {step}"));
        }
        let count = faults(furnace, &lent_plan(furnace, plan)).len();
        self.add(FAULTS, GROUPS[count.min(GROUPS.len()) - 1]);
    }

    /// Counts a gap beside T, and the floor of one that is too wide.
    fn add_gap_and_floor(&mut self, furnace: &Furnace, gap: Whole, floor: Option<Whole>) {
        let [at_wanted, above_wanted, below_0, above_0] = GAP_NAMES;
        for (name, is) in [
            (at_wanted, gap == furnace.wanted_gap),
            (above_wanted, gap == furnace.wanted_gap + 1),
            (below_0, floor.is_some_and(|floor| floor < 0)),
            (above_0, floor.is_some_and(|floor| floor > 0)),
        ] {
            if is {
                self.add(GAPS, name);
            }
        }
    }
}

/// The name of a report.
fn name(report: Report) -> &'static str {
    let [accepted, off_model, over_limit, wide] = NAMES;
    match report {
        Report::Accepted { .. } => accepted,
        Report::OffModel(_) => off_model,
        Report::OverLimit(_) => over_limit,
        Report::Wide { .. } => wide,
    }
}
