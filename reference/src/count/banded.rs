//! Counts of the banded step: of tapes by their command 50 or 51, of solves with 51, of corrections, and
//! of what is added to multipliers.

use super::{tape_answers, whole_commands, Counts};
use crate::banded::Elimination;
use crate::calls::{banded_correction, read, Solved, RESIDUAL_RANGE};
use crate::float::nearest;
use crate::floor::MULTIPLIER_RANGE;
use crate::generate::{entries, lendings, next_steps, Lending, NextStep};
use crate::model::{Correction, Furnace, Whole};
use crate::refusal::Refusal;
use crate::rounds::{round, usable, Ending};
use crate::tape::{
    BANDED_SEARCH, COLUMN, MOST_INPUTS, MOST_STATES, MOST_STEPS, MOST_WEIGHT, SEARCH,
};

/// The headings of the banded step. More headings begin with the words of the fourth.
pub const BANDED: [&str; 6] = [
    "read, 50 or 51",
    "read, refused for a 50 or 51",
    "solve with 51",
    "banded correction",
    "next multiplier",
    "pivot",
];

/// The heading of accepted tapes.
const READ: &str = BANDED[0];

/// The names under [`READ`].
const READ_NAMES: [&str; 2] = ["50", "51"];

/// The heading of refused tapes.
const REFUSED: &str = BANDED[1];

/// The names under [`REFUSED`]: 6 for each pair of commands, and what is required at FF.
const REFUSED_NAMES: [&str; 8] = [
    "6 for 50 after 50",
    "6 for 50 after 51",
    "6 for 51 after 50",
    "6 for 51 after 51",
    "7 for neither",
    "7 before 18",
    "18 alone",
    "18 before 8",
];

/// The heading of solves.
const SOLVE: &str = BANDED[2];

/// The names under [`SOLVE`]: what they come to, and how.
const SOLVE_NAMES: [&str; 5] = ["proved", "impossible", "open", "with d", "with g"];

/// The heading of the answers of [`banded_correction`].
const CORRECTION: &str = BANDED[3];

/// The names of the answers under [`CORRECTION`].
const CORRECTION_NAMES: [&str; 3] = ["written", "command 50", "fallen back"];

/// The heading of slices of another length.
const LENGTHS: &str = "banded correction, wrong length";

/// The names under [`LENGTHS`].
const SLICES: [&str; 3] = ["residuals", "pivots", "correction"];

/// The heading of residuals beyond their range, by what the answer would be without them.
const BEYOND: &str = "banded correction, 5 in place of";

/// The heading of the first round of tapes with residuals.
const ROUND: &str = "banded correction, first round";

/// The names under [`ROUND`].
const ROUND_NAMES: [&str; 4] = [
    "next y limited above",
    "next y limited below",
    "no next y limited",
    "a d beyond 2^25",
];

/// The heading of shapes of what is written.
const SHAPE: &str = "banded correction, shape";

/// A shape of corrections: its name, and whether what is written has it.
type Shape = (&'static str, fn(&Written) -> bool);

/// The shapes that are counted.
const SHAPES: [Shape; 12] = [
    ("a d beyond 2^25", |written| written.largest() > FAR),
    ("a d beyond 10^20", |written| written.largest() > 1e20),
    ("no d from 1/2 on", |written| written.largest() < 0.5),
    ("a residual of 2^40", |written| {
        written.residuals.contains(&RESIDUAL_RANGE)
    }),
    ("a residual of -2^40", |written| {
        written.residuals.contains(&-RESIDUAL_RANGE)
    }),
    ("residuals of 0", |written| {
        written.residuals.iter().all(|e| *e == 0)
    }),
    ("residuals of 32 bits", |written| {
        let fits = |e: &i64| i32::try_from(*e).is_ok();
        written.residuals.iter().all(fits)
    }),
    ("one row", |written| written.pivots.len() == 1),
    ("two rows", |written| written.pivots.len() == 2),
    ("full size", |written| {
        let furnace = written.furnace;
        let sizes = (furnace.states, furnace.inputs, furnace.horizon);
        sizes == (MOST_STATES, MOST_INPUTS, MOST_STEPS)
    }),
    ("weights 1 and 255", |written| {
        let weights = written.furnace.columns.iter();
        let weights: Vec<Whole> = weights.map(|column| column.weight).collect();
        weights.contains(&1) && weights.contains(&MOST_WEIGHT)
    }),
    ("2 or 3 states, 12 steps, A large", |written| {
        let furnace = written.furnace;
        let mut entries = furnace.a.iter().flatten();
        let sizes = (furnace.states, furnace.horizon);
        [(2, 12), (3, 12)].contains(&sizes) && entries.all(|entry| entry.abs() > 16_000)
    }),
];

/// 2^25. A d beyond it takes any multiplier to a limit.
const FAR: f64 = 33_554_432.0;

/// What a correction has written, and for what.
struct Written<'a> {
    furnace: &'a Furnace,
    residuals: &'a [i64],
    pivots: &'a [f64],
    d: &'a [f64],
}

impl Written<'_> {
    /// The largest d in size.
    fn largest(&self) -> f64 {
        largest(self.d)
    }
}

/// The largest of some numbers in size.
fn largest(numbers: &[f64]) -> f64 {
    numbers.iter().fold(0.0, |most, d| most.max(d.abs()))
}

/// The heading of numbers to add to multipliers.
const NEXT: &str = BANDED[4];

/// A shape of numbers to add to multipliers: its name, and whether a number has it.
type NextShape = (&'static str, fn(&NextStep) -> bool);

/// The shapes that are counted.
const NEXT_SHAPES: [NextShape; 9] = [
    ("a half", |next| (2.0 * next.d) % 2.0 == 1.0),
    ("a half below 0", |next| (2.0 * next.d) % 2.0 == -1.0),
    ("next below 1/2", |next| next.d == 0.5_f64.next_down()),
    ("infinite", |next| next.d.is_infinite()),
    ("not a number", |next| next.d.is_nan()),
    ("limited above", |next| unlimited(next) > MULTIPLIER_RANGE),
    ("limited below", |next| unlimited(next) < -MULTIPLIER_RANGE),
    ("at the limit", |next| {
        unlimited(next).abs() == MULTIPLIER_RANGE
    }),
    ("beyond 2^63", |next| {
        next.d.is_finite() && next.d.abs() > 9.3e18
    }),
];

/// The next y before it is limited.
fn unlimited(next: &NextStep) -> Whole {
    next.y + nearest(next.d).unwrap_or(0)
}

/// The heading of floats as pivots.
const PIVOT: &str = BANDED[5];

/// The names under [`PIVOT`].
const PIVOT_NAMES: [&str; 2] = ["not usable", "usable"];

/// The bytes 50 and 51 of a tape's whole commands, in order.
fn searches(tape: &[u8]) -> Vec<u8> {
    let commands = whole_commands(tape).into_iter();
    let bytes = commands.map(|command| command[0]);
    bytes
        .filter(|byte| [SEARCH, BANDED_SEARCH].contains(byte))
        .collect()
}

/// Has any of a tape's whole commands 30 weight 0?
fn gives_weight_0(tape: &[u8]) -> bool {
    let mut commands = whole_commands(tape).into_iter();
    commands.any(|command| command[0] == COLUMN && command[8] == 0)
}

/// The name of a tape's refusal under [`REFUSED`], if a command 50 or 51 or the lack of one has to do
/// with it.
fn refused_name(tape: &[u8], refusal: Refusal) -> Option<&'static str> {
    let [after_50, at_51, for_51, for_51s, neither, before_18, alone, before_8] = REFUSED_NAMES;
    match (refusal, &searches(tape)[..]) {
        (Refusal::Twice { offset }, [first, ..]) => match (tape[offset], *first) {
            (SEARCH, SEARCH) => Some(after_50),
            (SEARCH, BANDED_SEARCH) => Some(at_51),
            (BANDED_SEARCH, SEARCH) => Some(for_51),
            (BANDED_SEARCH, BANDED_SEARCH) => Some(for_51s),
            _ => None,
        },
        (Refusal::Absent { .. }, []) => Some(neither),
        (Refusal::Absent { .. }, [BANDED_SEARCH]) if gives_weight_0(tape) => Some(before_18),
        (Refusal::Weightless { offset }, _) if offset + 1 < tape.len() => Some(before_8),
        (Refusal::Weightless { .. }, _) => Some(alone),
        _ => None,
    }
}

impl Counts {
    /// Adds the headings and names of the banded step.
    pub fn expect_banded(&mut self) {
        self.expect(READ, READ_NAMES.map(str::to_string));
        self.expect(REFUSED, REFUSED_NAMES.map(str::to_string));
        self.expect(SOLVE, SOLVE_NAMES.map(str::to_string));
        self.expect(CORRECTION, tape_answers(&CORRECTION_NAMES, &[9]));
        self.expect(LENGTHS, SLICES.map(str::to_string));
        self.expect(BEYOND, CORRECTION_NAMES.map(str::to_string));
        self.expect(SHAPE, SHAPES.map(|(name, _)| name.to_string()));
        self.expect(ROUND, ROUND_NAMES.map(str::to_string));
        self.expect(NEXT, NEXT_SHAPES.map(|(name, _)| name.to_string()));
        self.expect(PIVOT, PIVOT_NAMES.map(str::to_string));
    }

    /// Counts a tape by its command 50 or 51, given what [`read`] says of it.
    pub fn add_search(&mut self, tape: &[u8], answer: &Result<Furnace, Refusal>) {
        match answer {
            Ok(furnace) => {
                let is_banded = furnace.correction == Correction::Banded;
                self.add(READ, READ_NAMES[usize::from(is_banded)]);
            }
            Err(refusal) => {
                if let Some(name) = refused_name(tape, *refusal) {
                    self.add(REFUSED, name);
                }
            }
        }
    }

    /// Counts what a solve came to where the tape has a command 51, given what [`read`] says of the tape.
    pub fn add_banded_solve(
        &mut self,
        furnace: &Result<Furnace, Refusal>,
        answer: Result<Solved, Refusal>,
    ) {
        let Ok(furnace) = furnace else {
            return;
        };
        let [proved, impossible, open, with_d, with_g] = SOLVE_NAMES;
        let name = match answer {
            Ok(Solved::Proved { .. }) => proved,
            Ok(Solved::Impossible { .. }) => impossible,
            Err(Refusal::Open { .. }) => open,
            Err(_) => return,
        };
        if furnace.correction == Correction::Banded {
            self.add(SOLVE, name);
            let falls = Elimination::of_tape(furnace).is_none();
            self.add(SOLVE, if falls { with_g } else { with_d });
        }
    }

    /// Counts an answer of [`banded_correction`], given the two slices at exit.
    pub fn add_correction(
        &mut self,
        lending: &Lending,
        answer: Result<Whole, Refusal>,
        pivots: &[f64],
        d: &[f64],
    ) {
        let Ok(furnace) = read(&lending.tape) else {
            self.add_answer(CORRECTION, answer.map(|_| "written"));
            return;
        };
        let [written, command_50, fallen] = CORRECTION_NAMES;
        match answer {
            Ok(1) => {
                self.add(CORRECTION, written);
                let written = Written {
                    furnace: &furnace,
                    residuals: &lending.residuals,
                    pivots,
                    d,
                };
                for (name, _) in SHAPES.iter().filter(|(_, has)| has(&written)) {
                    self.add(SHAPE, name);
                }
            }
            Ok(_) if furnace.correction == Correction::Gain => self.add(CORRECTION, command_50),
            Ok(_) => self.add(CORRECTION, fallen),
            // The tape is accepted: this 5 is for a residual.
            Err(Refusal::ArgumentOutOfRange) => self.add(BEYOND, correction_name(&furnace)),
            Err(refusal) => {
                self.add_answer(CORRECTION, Err(refusal));
                self.add_wrong_slices(lending, furnace.multipliers_length());
            }
        }
    }

    /// Counts the slices of another length.
    fn add_wrong_slices(&mut self, lending: &Lending, size: usize) {
        let lengths = [lending.residuals.len(), lending.pivots, lending.correction];
        for (name, length) in SLICES.into_iter().zip(lengths) {
            if length != size {
                self.add(LENGTHS, name);
            }
        }
    }

    /// Counts the first round of a tape whose step 4 takes d.
    fn add_first_round(&mut self, furnace: &Furnace) {
        let Some(elimination) = Elimination::of_tape(furnace) else {
            return;
        };
        let start = vec![vec![0; furnace.states]; furnace.horizon];
        let first = round(furnace, Some(&elimination), 0, &start, &start);
        if !matches!(first.ending, Ending::Next(_)) {
            return;
        }
        let d = elimination.correction(&first.residuals.concat());
        let next = d.iter().map(|d| unlimited(&NextStep { y: 0, d: *d }));
        let next: Vec<Whole> = next.collect();
        let is_above = next.iter().any(|y| *y > MULTIPLIER_RANGE);
        let is_below = next.iter().any(|y| *y < -MULTIPLIER_RANGE);
        let [above, below, free, far] = ROUND_NAMES;
        for (name, is) in [
            (above, is_above),
            (below, is_below),
            (free, !is_above && !is_below),
            (far, largest(&d) > FAR),
        ] {
            if is {
                self.add(ROUND, name);
            }
        }
    }

    /// Counts a number to add to a multiplier.
    pub fn add_next_step(&mut self, next: &NextStep) {
        for (name, _) in NEXT_SHAPES.iter().filter(|(_, has)| has(next)) {
            self.add(NEXT, name);
        }
    }

    /// Counts a float as a pivot.
    pub fn add_pivot(&mut self, pivot: f64) {
        self.add(PIVOT, PIVOT_NAMES[usize::from(usable(pivot))]);
    }

    /// Lends a seed's residuals to their tapes and counts the answers, and counts its numbers to add to
    /// multipliers and its entries as pivots.
    pub(super) fn add_lendings(&mut self, seed: u64) {
        for lending in lendings(seed) {
            let mut pivots = vec![0.0; lending.pivots];
            let mut d = vec![0.0; lending.correction];
            let (tape, residuals) = (&lending.tape, &lending.residuals);
            let answer = banded_correction(tape, residuals, &mut pivots, &mut d);
            self.add_correction(&lending, answer, &pivots, &d);
            if let (Ok(1), Ok(furnace)) = (answer, read(tape)) {
                self.add_first_round(&furnace);
            }
        }
        for next in next_steps(seed) {
            self.add_next_step(&next);
        }
        for generated in entries(seed) {
            self.add_pivot(generated.entry);
        }
    }
}

/// The answer that residuals within their range would lead to, of [`CORRECTION_NAMES`].
fn correction_name(furnace: &Furnace) -> &'static str {
    let [written, command_50, fallen] = CORRECTION_NAMES;
    match (furnace.correction, Elimination::of_tape(furnace)) {
        (Correction::Gain, _) => command_50,
        (Correction::Banded, None) => fallen,
        (Correction::Banded, Some(_)) => written,
    }
}
