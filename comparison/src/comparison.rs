//! Calls and slips on both sides, and what was tried so far.

use std::fmt::{Debug, Display};
use std::path::PathBuf;

use reference::count::{answers, step_refusals, Counts, BANDED, STEPS};
use reference::slip as slip_text;

use crate::calls::{by_planner, by_reference, Answer, Call, Left, Lending};
use crate::guard::Beside;
use crate::part::Part;
use crate::{banded, ranges, records, slip, tune, wrapper};

/// A comparison ends soon after so many differences, and prints no more of them.
const MOST_DIFFERENCES: u64 = 5;

/// The heading of the call that reads the references by step.
pub const REFERENCES: &str = "read references";
/// Of [`REFERENCES`]: no column has a curve.
pub const NO_CURVE: &str = "no curve";
/// Of [`REFERENCES`]: some columns have one, and some do not.
pub const SOME_CURVES: &str = "some curves";
/// Of [`REFERENCES`]: every column has one.
pub const ALL_CURVES: &str = "all curves";

/// The heading of the call that reads the step.
pub const STEP: &str = "read step";
/// The names of the answers under [`STEP`]: of command 50 and of 51.
pub const STEP_NAMES: [&str; 2] = ["0", "1"];

/// The refusals of a tape.
const TAPE_REFUSALS: [u32; 9] = [1, 2, 3, 4, 5, 6, 7, 8, 18];

/// Headings that the second program counts for itself: rounds that it watches, and floats that no call
/// is lent.
const NOT_COMPARED: [&str; 3] = ["banded correction, first round", BANDED[4], BANDED[5]];

/// The heading of calls that are counted apart from the generated cases.
const ALSO: &str = "also";
/// Of [`ALSO`]: a generated tape cut short, with its rest behind it.
pub const CUT: &str = "tape cut, its rest behind it";
/// Of [`ALSO`]: what a solve left is judged.
pub const JUDGED: &str = "judged what a solve left";
/// Of [`ALSO`]: tapes of every length.
pub const TAPE_LENGTHS: &str = "tape lengths";
/// Of [`ALSO`]: tapes with a command left out, given again or alone.
pub const PLACES: &str = "places of the longest tape";
/// Of [`ALSO`]: the largest sizes with required places left out.
pub const MISSING: &str = "neighbouring places left out";
/// Of [`ALSO`]: plans of every length.
pub const PLAN_LENGTHS: &str = "plan lengths";
/// Of [`ALSO`]: multipliers of every length.
pub const MULTIPLIER_LENGTHS: &str = "multiplier lengths";
/// Of [`ALSO`]: multipliers whose floor is the ceiling.
pub const EQUAL: &str = "floor equal to ceiling";
/// Of [`ALSO`]: the square of a slope has 64 bits or less.
pub const SMALL_SQUARES: &str = "squares of slopes";
/// Of [`ALSO`]: it has more, and 4P leaves a rest.
pub const LARGE_SQUARES: &str = "squares beyond 64 bits";
/// Of [`ALSO`]: it has more, and 4P divides it.
pub const WHOLE_QUOTIENT: &str = "squares beyond 64 bits, no rest";
/// Of [`ALSO`]: it has more, and 4P leaves 1.
pub const REST_OF_1: &str = "squares beyond 64 bits, a rest of 1";
/// Of [`ALSO`]: plans with one number put wrong.
pub const ONE_FAULT: &str = "plans with one fault at every place";
/// Of [`ALSO`]: plans with a state that is the model's and passes a limit.
pub const LIMITS_PASSED: &str = "states that pass a limit at every place";
/// Of [`ALSO`]: plans with two and with three numbers put wrong.
pub const SEVERAL_FAULTS: &str = "plans with two faults and with three";
/// Of [`ALSO`]: tapes whose T is a plan's gap or one below it.
pub const GAPS: &str = "gaps of T and one above";
/// Of [`ALSO`]: each byte as the weight of each column.
pub const EVERY_WEIGHT: &str = "every weight of every column";
/// Of [`ALSO`]: all weights 0 with all other numbers at their limits.
pub const ALL_WEIGHTS_0: &str = "all weights 0, other numbers at limits";
/// Of [`ALSO`]: all weights 0 with lo = hi in every column.
pub const ONE_NUMBER: &str = "all weights 0, lo = hi";
/// Of [`ALSO`]: first duties with chosen columns, slopes and gaps.
pub const EDGE_DUTIES: &str = "first duties at the edges of their ranges";
/// Of [`ALSO`]: first duties with drawn columns, slopes and gaps.
pub const DRAWN_DUTIES: &str = "drawn first duties";
/// Of [`ALSO`]: records of all sizes, and of all lengths about the right ones.
pub const RECORD_SIZES: &str = "records of all sizes";
/// Of [`ALSO`]: records with numbers that look absent.
pub const RECORD_NUMBERS: &str = "records with numbers of FF";
/// Of [`ALSO`]: banded steps of all sizes.
pub const BANDED_SIZES: &str = "banded steps of all sizes";
/// Of [`ALSO`]: residuals, pivots and d of every length.
pub const BANDED_LENGTHS: &str = "lengths of residuals, pivots and d";
/// Of [`ALSO`]: residuals of every size at every place.
pub const RESIDUALS: &str = "residuals of every size";
/// Of [`ALSO`]: tapes whose first d is a half.
pub const HALF_D: &str = "first d half a unit off a whole number";
/// Of [`ALSO`]: tapes with command 51 and weights of 0, and what comes before and after 18.
pub const WEIGHTLESS: &str = "weights of 0 with command 51";
/// Of [`ALSO`]: tapes with two of the commands 50 and 51.
pub const TWO_SEARCHES: &str = "two of the commands 50 and 51";
/// Of [`ALSO`]: tapes of the generated residuals.
pub const DRAWN_BANDED: &str = "drawn tapes for the banded step";
/// Of [`ALSO`]: entries beside every number and every half.
pub const ENTRIES: &str = "entries beside numbers, halves and powers of two";
/// Of [`ALSO`]: models with slices of every length, and of sizes beside the range.
pub const MODEL_LENGTHS: &str = "model lengths and sizes";
/// Of [`ALSO`]: models with a faulty entry at every place.
pub const FAULTY_ENTRIES: &str = "faulty entries of models";
/// Of [`ALSO`]: tapes with an imported model.
pub const IMPORTED: &str = "imported models read from a tape";

/// The names under [`ALSO`].
const ALSO_NAMES: [&str; 34] = [
    CUT,
    JUDGED,
    TAPE_LENGTHS,
    PLACES,
    MISSING,
    PLAN_LENGTHS,
    MULTIPLIER_LENGTHS,
    EQUAL,
    SMALL_SQUARES,
    LARGE_SQUARES,
    WHOLE_QUOTIENT,
    REST_OF_1,
    ONE_FAULT,
    LIMITS_PASSED,
    SEVERAL_FAULTS,
    GAPS,
    EVERY_WEIGHT,
    ALL_WEIGHTS_0,
    ONE_NUMBER,
    EDGE_DUTIES,
    DRAWN_DUTIES,
    RECORD_SIZES,
    RECORD_NUMBERS,
    BANDED_SIZES,
    BANDED_LENGTHS,
    RESIDUALS,
    HALF_D,
    WEIGHTLESS,
    TWO_SEARCHES,
    DRAWN_BANDED,
    ENTRIES,
    MODEL_LENGTHS,
    FAULTY_ENTRIES,
    IMPORTED,
];

/// The heading and the name of what no accepted plan has, so that no call has it: with a gap of 0 the
/// centre of a number is that number, and none between two.
pub const NEVER: (&str, &str) = ("range, rare shape", "third, gap 0, two numbers");

/// What has been compared so far.
pub struct Comparison {
    /// What was tried.
    pub counts: Counts,
    /// The part that is being compared.
    pub part: Part,
    /// Open tapes of which no change ends.
    pub open_unchanged: u64,
    /// The slip program; without it slips are not compared.
    slip: Option<PathBuf>,
    /// What lies beside everything that is lent.
    pub beside: Beside,
    calls: u64,
    differences: u64,
}

impl Comparison {
    /// Nothing compared yet.
    pub fn new(beside: Beside, slip: Option<PathBuf>) -> Comparison {
        let mut counts = Counts::of_calls();
        counts.expect(tune::ROUNDS_CUT, answers(&[], &[15]));
        counts.expect(tune::GAP_RAISED, answers(&["proved"], &[]));
        counts.expect(tune::LIMITS_NARROWED, answers(&["impossible"], &[]));
        counts.expect(ALSO, ALSO_NAMES.map(str::to_string));
        let curves = [NO_CURVE, SOME_CURVES, ALL_CURVES];
        counts.expect(REFERENCES, answers(&curves, &TAPE_REFUSALS));
        counts.expect(STEP, answers(&STEP_NAMES, &TAPE_REFUSALS));
        counts.expect(STEPS, step_refusals());
        counts.expect_reports();
        counts.expect_given();
        counts.expect_imports();
        counts.expect_records();
        counts.expect(records::AT_THE_EDGES, records::names());
        counts.expect_ranges();
        counts.expect(ranges::AT_THE_EDGES, ranges::names());
        counts.expect_banded();
        counts.expect(banded::AT_THE_EDGES, banded::names());
        counts.expect(
            "slip",
            answers(&["proved", "impossible", "open"], &TAPE_REFUSALS),
        );
        Comparison {
            counts,
            part: Part::Case(0),
            open_unchanged: 0,
            slip,
            beside,
            calls: 0,
            differences: 0,
        }
    }

    /// Makes a call on both sides and compares all that it leaves.
    pub fn call(&mut self, call: Call, lending: &Lending) -> (Answer, Left) {
        let (answer, expected) = by_reference(call, lending);
        let found = by_planner(call, lending, self.beside);
        let of_wrapper = || wrapper::difference(call, lending, &answer, &expected);
        self.compare(&call, lending, &found, &expected, of_wrapper);
        (answer, expected)
    }

    /// Compares what a call left on both sides and, where that is the same, what the wrapper says
    /// where it differs.
    pub fn compare<Left: Debug + PartialEq>(
        &mut self,
        call: &dyn Debug,
        lent: &dyn Display,
        found: &Left,
        expected: &Left,
        of_wrapper: impl FnOnce() -> Option<String>,
    ) {
        self.calls += 1;
        if found != expected {
            self.differ(call, lent, found, expected);
        } else if let Some(found) = of_wrapper() {
            self.differ(&format_args!("{call:?}, wrapper"), lent, &found, expected);
        }
    }

    /// Makes a call that is counted under [`ALSO`], by the origin of what is lent.
    pub fn also(&mut self, call: Call, lending: &Lending) -> (Answer, Left) {
        self.add_also(lending.origin);
        self.call(call, lending)
    }

    /// Counts under [`ALSO`].
    pub fn add_also(&mut self, name: &str) {
        self.counts.add(ALSO, name);
    }

    /// Compares the slip program's text for an input that it gets in parts.
    pub fn print(&mut self, parts: &[&[u8]]) {
        let Some(program) = &self.slip else {
            return;
        };
        let input = parts.concat();
        let expected = slip_text(&input);
        let found = slip::print(program, parts);
        self.counts.add("slip", &slip_name(&expected));
        if found.as_ref() != Ok(&expected) {
            let lending = Lending::new("input of the slip program", &input, &[], &[]);
            self.differ(&format_args!("slip"), &lending, &found, &expected);
        }
    }

    /// Prints a difference.
    pub fn differ(
        &mut self,
        call: &dyn Debug,
        lent: &dyn Display,
        planner: &dyn Debug,
        reference: &dyn Debug,
    ) {
        self.differences += 1;
        if self.differences > MOST_DIFFERENCES {
            return;
        }
        println!("DIFFERENCE in {call:?}, {}", self.part.origin());
        println!("lent: {lent}");
        println!("planner   {planner:?}");
        println!("reference {reference:?}");
    }

    /// Have there been enough differences?
    pub fn ends(&self) -> bool {
        self.differences >= MOST_DIFFERENCES
    }

    /// What was compared, in a few words.
    pub fn summary(&self) -> String {
        let Comparison {
            calls, differences, ..
        } = self;
        format!("{calls} calls on both sides, {differences} differences")
    }

    /// Fails where something differed.
    pub fn verdict(&self) -> Result<(), String> {
        if self.differences > 0 {
            return Err("the planner and the second program differ".to_string());
        }
        Ok(())
    }

    /// What was tried, as a text.
    pub fn text(&self) -> String {
        self.counts.text_of(is_compared)
    }

    /// Fails where a count is 0, but for [`NEVER`].
    pub fn require_all(&self) -> Result<(), String> {
        let mut counts = self.counts.clone();
        let (heading, name) = NEVER;
        counts.add(heading, name);
        counts.require(is_compared)
    }
}

/// Does a comparison count under this heading?
fn is_compared(heading: &str) -> bool {
    !NOT_COMPARED.contains(&heading)
}

/// The name of a slip in the counts: its first line up to the refusal's number.
fn slip_name(text: &str) -> String {
    let words: Vec<&str> = text.split_whitespace().collect();
    match words.as_slice() {
        ["refused", number, ..] => format!("refused {number}"),
        [kind, ..] => kind.to_string(),
        [] => String::new(),
    }
}
