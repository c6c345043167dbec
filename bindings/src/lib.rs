//! The proved sinter furnace planner for Rust programs.
//!
//! This crate links `libplanner.a`, which `rt lib` in crates/planner writes, and wraps its twelve calls.
//! Ten take a tape's bytes; [`import_model`] writes the model's commands for a tape from floats,
//! and [`import_entry`] rounds a single one. Every call may be lent anything: what the papers
//! refuse comes back as a [`Refusal`], and then no lent number has changed. Of a plan that fails,
//! [`judge_report`] says where and why; of one that is accepted, [`ranges`] says how different the
//! first duties of a plan as cheap can be. [`read_step`] says whether a tape asks for the banded
//! step, and [`banded_correction`] shows its floats. The crate needs `core` only.
//! `docs/TAPE.md` of the repository has the tape's format, `include/fibergravel.h` what a call
//! needs of memory, stack and time.
//!
//! A gap compares a plan, which is in whole units, with its rivals. A rival may lie between whole
//! units: its numbers are whole multiples of 1/D, for any whole D from 1, each lies in its limits,
//! and each state is at most half a unit from what the model gives, unrounded, from the numbers
//! before it. Every plan in whole units that follows the tape is one.
//!
//! ```
//! use fibergravel::{read, solve, Solved, MOST_MULTIPLIERS, MOST_PLAN};
//!
//! // Document 01's tape F.
//! let tape = [
//!     0x10, 1, 1, 1, // size
//!     0x20, 0, 0, 0x00, 0x10, // A(0,0) = 4096
//!     0x21, 0, 0, 0x00, 0x08, // B(0,0) = 2048
//!     0x30, 0, 0x18, 0xFC, 0xE8, 0x03, 0x6E, 0x00, 1, // the state: -1000 to 1000, r 110
//!     0x30, 1, 0x00, 0x00, 0x28, 0x00, 0x00, 0x00, 1, // the input: 0 to 40, r 0
//!     0x40, 0, 0x64, 0x00, // x(0) = 100
//!     0x50, 0x19, 0x00, 0x05, 0x00, 0x40, 0x9C, 0x00, 0x00, // g 25, R 5, T 40000
//!     0xFF,
//! ];
//! let numbers = read(&tape)?;
//! let (mut plan, mut multipliers) = ([0; MOST_PLAN], [0; MOST_MULTIPLIERS]);
//! let plan = &mut plan[..numbers.plan_length()];
//! let multipliers = &mut multipliers[..numbers.multipliers_length()];
//! let solved = solve(&tape, plan, multipliers)?;
//! assert_eq!(solved, Solved::Proved { rounds: 2, gap: 32768, first: [4, 0, 0, 0] });
//! assert_eq!((&*plan, &*multipliers), (&[4, 102][..], &[-16][..]));
//! # Ok::<(), fibergravel::Refusal>(())
//! ```
//!
//! # Panics
//!
//! No call panics with this repository's `libplanner.a`: it is proved what that library answers,
//! and the memory safety of this crate rests on the same proof. A number that it never answers
//! therefore shows that another library was linked. It is no refusal, which would say something
//! of what was lent, and no result; the call panics, so that no program goes on with it. A program
//! that must not panic uses [`calls`], whose functions hand the library's numbers over, and
//! [`Refusal::from_answer`].
#![no_std]
#![deny(missing_docs)]

#[cfg(test)]
extern crate std;

mod banded;
pub mod calls;
mod range;
mod record;
mod refusal;
mod report;

use core::array::from_fn;

pub use banded::{banded_correction, read_step, Correction, Floats, Step};
pub use range::{ranges, Range, Ranges};
pub use record::{Duties, Kind, Multipliers, Numbers, Outcome, Plan, Record, Seen};
pub use refusal::Refusal;
pub use report::{judge_report, Column, Fault, Report};

/// The most states, n.
pub const MOST_STATES: usize = 6;
/// The most inputs, m.
pub const MOST_INPUTS: usize = 4;
/// The most steps, N.
pub const MOST_STEPS: usize = 12;
/// The most columns: states, then inputs.
pub const MOST_COLUMNS: usize = MOST_STATES + MOST_INPUTS;
/// The most bytes of an accepted tape.
pub const MOST_TAPE: usize = 1064;
/// The most numbers of a plan.
pub const MOST_PLAN: usize = MOST_STEPS * MOST_COLUMNS;
/// The most numbers of multipliers, and of residuals, pivots and a correction.
pub const MOST_MULTIPLIERS: usize = MOST_STEPS * MOST_STATES;
/// The largest size of a residual that [`banded_correction`] takes, 2^40.
pub const MOST_RESIDUAL: i64 = 1 << 40;
/// The most bytes of an imported model.
pub const MOST_MODEL: usize = model_length(MOST_STATES, MOST_INPUTS);
/// The bytes of a record for the laboratory.
pub const LABORATORY_LENGTH: usize = 16;
/// The most bytes of a record for the service.
pub const MOST_SERVICE: usize = service_length(MOST_STATES, MOST_INPUTS, MOST_STEPS);
/// The largest size of an entry of A and B, in units of 1/4096.
const MOST_ENTRY: i64 = 16_384;

/// The sizes and each number of an accepted tape, absent ones as 0; its curves are in
/// [`References`]. Places beyond the sizes are 0. A column is a state, 0 to n−1, or an input, n to
/// n+m−1.
#[derive(Clone, Copy, Debug, PartialEq, Eq)]
#[non_exhaustive]
pub struct Tape {
    /// n, 1 to 6.
    pub states: usize,
    /// m, 1 to 4.
    pub inputs: usize,
    /// N, 1 to 12.
    pub steps: usize,
    /// A(i,j) as `a[i][j]`, in units of 1/4096.
    pub a: [[i64; MOST_STATES]; MOST_STATES],
    /// B(i,j) as `b[i][j]`, in units of 1/4096.
    pub b: [[i64; MOST_INPUTS]; MOST_STATES],
    /// The drift w(i), in units of 1/4096.
    pub drift: [i64; MOST_STATES],
    /// The lower limit of each column.
    pub lo: [i64; MOST_COLUMNS],
    /// The upper limit of each column.
    pub hi: [i64; MOST_COLUMNS],
    /// The reference r of each column's command 30. It is unused where the column has a curve or
    /// weight 0.
    pub reference: [i64; MOST_COLUMNS],
    /// The weight h of each column, 0 for a column without a target.
    pub weight: [i64; MOST_COLUMNS],
    /// The start x(0).
    pub start: [i64; MOST_STATES],
    /// The gain g, the step size of a round; with command 51 it is used only where the tape falls
    /// back on it.
    pub gain: i64,
    /// R, the number of rounds allowed.
    pub rounds: i64,
    /// T, the wanted gap.
    pub wanted_gap: i64,
}

impl Tape {
    /// N(n+m), the length of a plan: u(0), x(1), u(1), x(2) and so on.
    pub fn plan_length(&self) -> usize {
        let columns = self.states.saturating_add(self.inputs);
        self.steps.saturating_mul(columns)
    }

    /// N × n, the length of the multipliers, step by step.
    pub fn multipliers_length(&self) -> usize {
        self.steps.saturating_mul(self.states)
    }

    /// How many bytes the service's form of a record of this tape has.
    pub fn service_length(&self) -> usize {
        service_length(self.states, self.inputs, self.steps)
    }

    /// The tape's numbers in the order of [`calls::read`].
    fn from_numbers(numbers: &[i64; calls::READ_LENGTH]) -> Tape {
        let mut rest = numbers.iter().copied();
        let [states, inputs, steps] = next(&mut rest);
        Tape {
            states: size(states, MOST_STATES),
            inputs: size(inputs, MOST_INPUTS),
            steps: size(steps, MOST_STEPS),
            a: from_fn(|_| next(&mut rest)),
            b: from_fn(|_| next(&mut rest)),
            drift: next(&mut rest),
            lo: next(&mut rest),
            hi: next(&mut rest),
            reference: next(&mut rest),
            weight: next(&mut rest),
            start: next(&mut rest),
            gain: rest.next().unwrap_or(0),
            rounds: rest.next().unwrap_or(0),
            wanted_gap: rest.next().unwrap_or(0),
        }
    }
}

/// The curves of an accepted tape: the references that command 31 gives. A column has one for each
/// of the tape's N steps or none at all; where it has none, [`Tape::reference`] holds in all steps.
#[derive(Clone, Copy, Debug, PartialEq, Eq)]
#[non_exhaustive]
pub struct References {
    /// The reference of column c in step k as `given[c][k]`, which is that of x(k+1) or u(k).
    /// There is none in places beyond the sizes.
    pub given: [[Option<i64>; MOST_STEPS]; MOST_COLUMNS],
}

impl References {
    /// The references and marks in the order of [`calls::read_references`].
    fn from_numbers(numbers: &[i64; calls::READ_REFERENCES_LENGTH]) -> References {
        let mut rest = numbers.iter().copied();
        let references: [[i64; MOST_STEPS]; MOST_COLUMNS] = from_fn(|_| next(&mut rest));
        let marks: [[i64; MOST_STEPS]; MOST_COLUMNS] = from_fn(|_| next(&mut rest));
        References {
            given: from_fn(|c| from_fn(|k| given(references[c][k], marks[c][k]))),
        }
    }
}

/// The number of a place, where its mark says that it was given. One that was not is 0.
fn given(number: i64, mark: i64) -> Option<i64> {
    match (mark, number) {
        (1, _) => Some(number),
        (0, 0) => None,
        _ => wrong_library(),
    }
}

/// The next numbers of a list, 0 past its end.
fn next<const COUNT: usize>(rest: &mut impl Iterator<Item = i64>) -> [i64; COUNT] {
    from_fn(|_| rest.next().unwrap_or(0))
}

/// A size, which is from 1 to `most`.
fn size(number: i64, most: usize) -> usize {
    match usize::try_from(number) {
        Ok(size) if (1..=most).contains(&size) => size,
        _ => wrong_library(),
    }
}

/// The answer of [`judge_multipliers`]: the word 'shown'.
#[derive(Clone, Copy, Debug, PartialEq, Eq)]
pub struct Shown;

/// The answer of [`solve`].
#[derive(Clone, Copy, Debug, PartialEq, Eq)]
#[non_exhaustive]
pub enum Solved {
    /// 'proved': the plan and the multipliers are in the lent slices.
    Proved {
        /// Rounds entered, the answering one included.
        rounds: i64,
        /// No rival costs less than this plan's cost minus the gap.
        gap: i64,
        /// u(0), the duties of the first step; places beyond m are 0.
        first: [i32; MOST_INPUTS],
    },
    /// 'impossible': there is no rival, and so no plan follows the tape. The multipliers that show
    /// it are in the lent slice, and the lent plan is as it was.
    Impossible {
        /// Rounds entered, the answering one included.
        rounds: i64,
    },
}

impl Solved {
    /// The answer's numbers in the order of [`calls::solve`].
    fn from_numbers(numbers: [i64; calls::SOLVE_LENGTH]) -> Solved {
        let [kind, rounds, gap, first @ ..] = numbers;
        match kind {
            1 => Solved::Proved {
                rounds,
                gap,
                first: first.map(duty),
            },
            2 => Solved::Impossible { rounds },
            _ => wrong_library(),
        }
    }
}

/// A duty, in the type of a plan's numbers.
fn duty(number: i64) -> i32 {
    i32::try_from(number).unwrap_or_else(|_| wrong_library())
}

/// An imported entry a. In both cases the number stands for the entry on a tape, in units of 1/4096,
/// and is from −16,384 to 16,384.
#[derive(Clone, Copy, Debug, PartialEq)]
pub enum Entry {
    /// 4096 × a is this whole number.
    Whole(i64),
    /// 4096 × a is no whole number.
    Near {
        /// The whole number nearest to 4096 × a, halves upward.
        number: i64,
        /// 4096 × a minus the number, exactly: from −1/2 up to but not including 1/2.
        leftover: f64,
    },
}

impl Entry {
    /// The whole number that stands for the entry on a tape.
    pub fn number(self) -> i64 {
        match self {
            Entry::Whole(number) | Entry::Near { number, .. } => number,
        }
    }

    /// The answer's numbers in the order of [`calls::import_entry`].
    fn from_numbers(
        numbers: [i64; calls::IMPORT_ENTRY_LENGTH],
        leftover: [f64; calls::IMPORT_LEFTOVER_LENGTH],
    ) -> Entry {
        let ([kind, number], [leftover]) = (numbers, leftover);
        if !(-MOST_ENTRY..=MOST_ENTRY).contains(&number) {
            wrong_library();
        }
        match kind {
            1 if leftover.to_bits() == 0 => Entry::Whole(number),
            2 if leftover != 0.0 && (-0.5..0.5).contains(&leftover) => {
                Entry::Near { number, leftover }
            }
            _ => wrong_library(),
        }
    }
}

/// For what `libplanner.a` never answers.
#[cold]
fn wrong_library() -> ! {
    panic!("the linked library is not the planner that this crate wraps")
}

/// Reads a tape: its sizes and each of its numbers but the curves, which [`read_references`] gives.
///
/// # Errors
///
/// Refusals 1 to 8 and 18, each with an offset in the tape.
pub fn read(tape: &[u8]) -> Result<Tape, Refusal> {
    let mut out = [0; calls::READ_LENGTH];
    accepted(calls::read(tape, &mut out))?;
    Ok(Tape::from_numbers(&out))
}

/// Reads a tape's curves.
///
/// ```
/// use fibergravel::{read, read_references};
///
/// let tape = [
///     0x10, 1, 1, 2, // size
///     0x30, 0, 0x18, 0xFC, 0xE8, 0x03, 0x00, 0x00, 1, // the state: -1000 to 1000, r 0
///     0x31, 0, 0, 0x69, 0x00, // its reference in step 0, 105
///     0x31, 0, 1, 0x6E, 0x00, // and in step 1, 110
///     0x30, 1, 0x00, 0x00, 0x28, 0x00, 0x05, 0x00, 1, // the input: 0 to 40, r 5
///     0x40, 0, 0x64, 0x00, // x(0) = 100
///     0x50, 0x19, 0x00, 0x05, 0x00, 0x40, 0x9C, 0x00, 0x00, // g 25, R 5, T 40000
///     0xFF,
/// ];
/// let [state, input, ..] = read_references(&tape)?.given;
/// assert_eq!(state[..3], [Some(105), Some(110), None]);
/// // The input has no curve: r is its reference in both steps.
/// let r = read(&tape)?.reference[1];
/// assert_eq!([input[0].unwrap_or(r), input[1].unwrap_or(r)], [5, 5]);
/// # Ok::<(), fibergravel::Refusal>(())
/// ```
///
/// # Errors
///
/// Refusals 1 to 8 and 18, as [`read`] gives them.
pub fn read_references(tape: &[u8]) -> Result<References, Refusal> {
    let mut out = [0; calls::READ_REFERENCES_LENGTH];
    accepted(calls::read_references(tape, &mut out))?;
    Ok(References::from_numbers(&out))
}

/// Judges a plan with multipliers: the gap, which is at most T. The plan follows the tape, and no
/// rival costs less than its cost minus the gap.
///
/// # Errors
///
/// Refusals 1 to 8 and 18 of the tape; 9 where a slice has not the length of [`Tape::plan_length`] or
/// [`Tape::multipliers_length`]; then 12 of the multipliers, 10 and 11 of the plan, and 13. Of the
/// last three [`judge_report`] says more.
pub fn judge_plan(tape: &[u8], plan: &[i32], multipliers: &[i32]) -> Result<i64, Refusal> {
    let mut out = [0; calls::JUDGE_PLAN_LENGTH];
    accepted(calls::judge_plan(tape, plan, multipliers, &mut out))?;
    let [gap] = out;
    Ok(gap)
}

/// Judges multipliers for impossibility: 'shown' says that there is no rival, and so that no plan
/// follows the tape.
///
/// # Errors
///
/// Refusals 1 to 8 and 18 of the tape, 9 of the slice's length, then 12 and 14.
pub fn judge_multipliers(tape: &[u8], multipliers: &[i32]) -> Result<Shown, Refusal> {
    accepted(calls::judge_multipliers(tape, multipliers))?;
    Ok(Shown)
}

/// Solves. [`Solved`] says what the slices hold then; [`Tape::plan_length`] and
/// [`Tape::multipliers_length`] are the lengths to lend.
///
/// # Errors
///
/// Refusals 1 to 8 and 18 of the tape, 9 of the slices' lengths, and 15, 'open', where R rounds
/// ended without an answer. A refusal leaves both slices as they were.
pub fn solve(tape: &[u8], plan: &mut [i32], multipliers: &mut [i32]) -> Result<Solved, Refusal> {
    let mut out = [0; calls::SOLVE_LENGTH];
    accepted(calls::solve(tape, plan, multipliers, &mut out))?;
    Ok(Solved::from_numbers(out))
}

/// Solves, and writes the record of it: what the laboratory sees into `laboratory`, of
/// [`LABORATORY_LENGTH`] bytes, and what the service sees into `service`, of
/// [`Tape::service_length`] bytes. [`Seen::from_bytes`] and [`Record::from_bytes`] then say what
/// they hold, and neither gives none.
///
/// ```
/// use fibergravel::{read, record, Kind, Outcome, Record, Seen, LABORATORY_LENGTH, MOST_SERVICE};
///
/// // Document 01's tape F.
/// let tape = [
///     0x10, 1, 1, 1, // size
///     0x20, 0, 0, 0x00, 0x10, // A(0,0) = 4096
///     0x21, 0, 0, 0x00, 0x08, // B(0,0) = 2048
///     0x30, 0, 0x18, 0xFC, 0xE8, 0x03, 0x6E, 0x00, 1, // the state: -1000 to 1000, r 110
///     0x30, 1, 0x00, 0x00, 0x28, 0x00, 0x00, 0x00, 1, // the input: 0 to 40, r 0
///     0x40, 0, 0x64, 0x00, // x(0) = 100
///     0x50, 0x19, 0x00, 0x05, 0x00, 0x40, 0x9C, 0x00, 0x00, // g 25, R 5, T 40000
///     0xFF,
/// ];
/// let (mut laboratory, mut service) = ([0; LABORATORY_LENGTH], [0; MOST_SERVICE]);
/// let service = &mut service[..read(&tape)?.service_length()];
/// assert_eq!(record(&tape, &mut laboratory, service), Ok(Kind::Proved));
///
/// let mut bytes = vec![
///     1, 1, // proved, one duty
///     0x02, 0x00, // rounds 2
///     0x00, 0x80, 0x00, 0x00, // gap 32768
///     0x04, 0x00, 0xFF, 0xFF, 0xFF, 0xFF, 0xFF, 0xFF, // u(0) = 4
/// ];
/// assert_eq!(laboratory, *bytes);
/// let seen = Seen::from_bytes(&laboratory).expect("a record");
/// assert_eq!(seen.to_string(), "proved: rounds 2, gap 32768, duties 4");
///
/// bytes.extend([
///     1, 1, 1, // n, m, N
///     0x04, 0x00, 0x00, 0x00, 0x66, 0x00, 0x00, 0x00, // u(0) = 4, x(1) = 102
///     0xF0, 0xFF, 0xFF, 0xFF, // the multiplier, -16
/// ]);
/// assert_eq!(service, bytes);
/// let record = Record::from_bytes(service).expect("a record");
/// let Outcome::Proved { plan, multipliers, .. } = record.outcome else {
///     panic!("tape F has a plan")
/// };
/// assert_eq!((&*plan, &*multipliers), (&[4, 102][..], &[-16][..]));
/// assert_eq!(record.seen(), seen);
/// # Ok::<(), fibergravel::Refusal>(())
/// ```
///
/// # Errors
///
/// Refusals 1 to 8 and 18 of the tape, and 9 of the slices' lengths, which leave both slices as they
/// were. 'Open' is none here: its record has R rounds.
pub fn record(tape: &[u8], laboratory: &mut [u8], service: &mut [u8]) -> Result<Kind, Refusal> {
    let mut out = [0; calls::RECORD_LENGTH];
    match calls::record(tape, laboratory, service, &mut out) {
        0 => Ok(recorded(out, laboratory, service)),
        refused => Err(record_refusal(refused)),
    }
}

/// The kind of the record that was written. All three places say which.
fn recorded(numbers: [i64; calls::RECORD_LENGTH], laboratory: &[u8], service: &[u8]) -> Kind {
    let [kind] = numbers;
    match (Seen::from_bytes(laboratory), Record::from_bytes(service)) {
        (Some(seen), Some(record)) if record.seen() == seen && seen.kind() as i64 == kind => {
            seen.kind()
        }
        _ => wrong_library(),
    }
}

/// The refusal of a record.
fn record_refusal(answer: u64) -> Refusal {
    match Refusal::from_answer(answer) {
        Some(refusal) if matches!(refusal.number(), 1..=9 | 18) => refusal,
        _ => wrong_library(),
    }
}

/// How many bytes the service's form of a record has for n states, m inputs and N steps: the
/// laboratory's 16, the three sizes, and 4 × N × (2n + m) for plan and multipliers.
pub const fn service_length(states: usize, inputs: usize, steps: usize) -> usize {
    let numbers = states.saturating_mul(2).saturating_add(inputs);
    let bytes = steps.saturating_mul(numbers).saturating_mul(4);
    bytes.saturating_add(LABORATORY_LENGTH + 3)
}

/// Imports one entry of a model, as the identification tool delivers it: a 64-bit float.
///
/// ```
/// use fibergravel::{import_entry, Entry, Refusal};
///
/// assert_eq!(import_entry(0.5), Ok(Entry::Whole(2048)));
/// // 4096 × 0.2 is near 819; what is left over is exact.
/// let Ok(Entry::Near { number, leftover }) = import_entry(0.2) else {
///     panic!("0.2 is near a whole number")
/// };
/// assert_eq!((number, leftover), (819, 4096.0 * 0.2 - 819.0));
/// assert_eq!(import_entry(f64::NAN), Err(Refusal::NotFinite { entry: None }));
/// assert_eq!(import_entry(4.5), Err(Refusal::TooLarge { entry: None }));
/// ```
///
/// # Errors
///
/// 16 where the entry is infinite or not a number, 17 where its number is beyond 16,384 in size.
/// Both carry nothing.
pub fn import_entry(entry: f64) -> Result<Entry, Refusal> {
    let mut out = [0; calls::IMPORT_ENTRY_LENGTH];
    let mut leftover = [0.0; calls::IMPORT_LEFTOVER_LENGTH];
    match calls::import_entry(entry, &mut out, &mut leftover) {
        0 => Ok(Entry::from_numbers(out, leftover)),
        refused => Err(entry_refusal(refused)),
    }
}

/// The refusal of an entry alone.
fn entry_refusal(answer: u64) -> Refusal {
    match answer {
        16 => Refusal::NotFinite { entry: None },
        17 => Refusal::TooLarge { entry: None },
        _ => wrong_library(),
    }
}

/// How many bytes [`import_model`] writes for n states and m inputs: 5 × (n² + n × m).
pub const fn model_length(states: usize, inputs: usize) -> usize {
    let columns = states.saturating_add(inputs);
    states.saturating_mul(columns).saturating_mul(5)
}

/// Imports a model: A, n² floats by rows, and B, n × m floats by rows. It writes a command for each
/// entry, zeros included, with the entry's [`Entry::number`]: A by rows as 20, then B by rows as 21.
/// They may stand anywhere between command 10 and FF of a tape with these sizes.
///
/// ```
/// use fibergravel::{import_model, model_length, read};
///
/// let mut model = [0; model_length(1, 1)];
/// import_model(1, 1, &[1.0], &[0.5], &mut model)?;
/// assert_eq!(model, [0x20, 0, 0, 0x00, 0x10, 0x21, 0, 0, 0x00, 0x08]);
///
/// // Document 01's tape F.
/// let mut tape = vec![0x10, 1, 1, 1]; // size
/// tape.extend(model);
/// tape.extend([
///     0x30, 0, 0x18, 0xFC, 0xE8, 0x03, 0x6E, 0x00, 1, // the state: -1000 to 1000, r 110
///     0x30, 1, 0x00, 0x00, 0x28, 0x00, 0x00, 0x00, 1, // the input: 0 to 40, r 0
///     0x40, 0, 0x64, 0x00, // x(0) = 100
///     0x50, 0x19, 0x00, 0x05, 0x00, 0x40, 0x9C, 0x00, 0x00, // g 25, R 5, T 40000
///     0xFF,
/// ]);
/// let numbers = read(&tape)?;
/// assert_eq!((numbers.a[0][0], numbers.b[0][0]), (4096, 2048));
/// # Ok::<(), fibergravel::Refusal>(())
/// ```
///
/// # Errors
///
/// 5 where `states` is not from 1 to 6 or `inputs` not from 1 to 4, carrying nothing; 9 where `a`,
/// `b` or `out` has not its length, which is [`model_length`] for `out`; then 16 and 17 of the
/// entries in order, A before B, with the entry's count. A refusal leaves `out` as it was.
pub fn import_model(
    states: usize,
    inputs: usize,
    a: &[f64],
    b: &[f64],
    out: &mut [u8],
) -> Result<(), Refusal> {
    let entries = a.len().saturating_add(b.len());
    match calls::import_model(states, inputs, a, b, out) {
        0 => Ok(()),
        refused => Err(model_refusal(refused, entries)),
    }
}

/// The refusal of a model with so many entries.
fn model_refusal(answer: u64, entries: usize) -> Refusal {
    match Refusal::from_answer(answer) {
        Some(Refusal::OutOfRange { offset: 0 }) => Refusal::ArgumentOutOfRange,
        Some(Refusal::Length) => Refusal::Length,
        Some(
            refusal @ (Refusal::NotFinite { entry: Some(count) }
            | Refusal::TooLarge { entry: Some(count) }),
        ) if count < entries as u64 => refusal,
        _ => wrong_library(),
    }
}

/// The numbers of a tape that another call has accepted.
fn accepted_tape(tape: &[u8]) -> Tape {
    read(tape).unwrap_or_else(|_| wrong_library())
}

/// Nothing for the answer 0, else the refusal, of a call that takes a tape.
fn accepted(answer: u64) -> Result<(), Refusal> {
    match Refusal::from_answer(answer) {
        None if answer == 0 => Ok(()),
        None | Some(Refusal::NotFinite { .. } | Refusal::TooLarge { .. }) => wrong_library(),
        Some(refusal) => Err(refusal),
    }
}

#[cfg(test)]
mod tests {
    use std::panic::catch_unwind;

    use super::*;

    /// 1 at place 0, 2 at place 1 and so on.
    fn counted() -> [i64; calls::READ_LENGTH] {
        from_fn(|place| place as i64 + 1)
    }

    #[test]
    fn every_number_of_a_tape_has_its_place() {
        let tape = Tape::from_numbers(&counted());
        assert_eq!((tape.states, tape.inputs, tape.steps), (1, 2, 3));
        assert_eq!((tape.a[0][0], tape.a[5][5]), (4, 39));
        assert_eq!((tape.b[0][0], tape.b[1][0], tape.b[5][3]), (40, 44, 63));
        assert_eq!((tape.drift[0], tape.lo[0], tape.hi[0]), (64, 70, 80));
        assert_eq!((tape.reference[0], tape.weight[0]), (90, 100));
        assert_eq!((tape.start[0], tape.start[5]), (110, 115));
        assert_eq!((tape.gain, tape.rounds, tape.wanted_gap), (116, 117, 118));
    }

    /// Every place given, with 1, 2 and so on as references.
    fn all_given() -> [i64; calls::READ_REFERENCES_LENGTH] {
        from_fn(|place| if place < 120 { place as i64 + 1 } else { 1 })
    }

    #[test]
    fn every_reference_has_its_place() {
        let mut numbers = all_given();
        (numbers[13], numbers[120 + 13]) = (0, 0);
        let References { given } = References::from_numbers(&numbers);
        assert_eq!((given[0][0], given[0][11]), (Some(1), Some(12)));
        assert_eq!((given[1][0], given[1][1]), (Some(13), None));
        assert_eq!((given[9][0], given[9][11]), (Some(109), Some(120)));
    }

    #[test]
    fn what_no_planner_answers_panics() {
        for answer in [16, 17 + 256, 19, 9 + 256, u64::MAX] {
            assert!(catch_unwind(|| accepted(answer)).is_err());
        }
        assert!(catch_unwind(|| accepted_tape(&[])).is_err());
        for answer in [0, 5, 9, 15, 16 + 256, 17 + 256, u64::MAX] {
            assert!(catch_unwind(|| entry_refusal(answer)).is_err());
        }
        for answer in [0, 1, 5 + 256, 9 + 256, 15, 16 + 256 * 2, 17 + 256 * 2, 18] {
            assert!(catch_unwind(|| model_refusal(answer, 2)).is_err());
        }
        for (kind, number, leftover) in [
            (0, 0, 0.0),
            (3, 0, 0.0),
            (1, 16_385, 0.0),
            (2, -16_385, 0.25),
            (1, 0, -0.0),
            (1, 0, 0.25),
            (2, 0, 0.0),
            (2, 0, 0.5),
            (2, 0, f64::NAN),
        ] {
            assert!(catch_unwind(|| Entry::from_numbers([kind, number], [leftover])).is_err());
        }
        for (place, number) in [(0, 0), (0, 7), (1, 5), (2, 13), (2, -1)] {
            let mut numbers = counted();
            numbers[place] = number;
            assert!(catch_unwind(|| Tape::from_numbers(&numbers)).is_err());
        }
        for (place, number) in [(120, 2), (239, -1), (120 + 5, 0)] {
            let mut numbers = all_given();
            numbers[place] = number;
            assert!(catch_unwind(|| References::from_numbers(&numbers)).is_err());
        }
        for numbers in [[0; 7], [3; 7], [1, 1, 1, 1 << 40, 0, 0, 0]] {
            assert!(catch_unwind(|| Solved::from_numbers(numbers)).is_err());
        }
    }

    #[test]
    fn every_number_of_an_entry_has_its_place() {
        let entry = Entry::from_numbers([1, -16_384], [0.0]);
        assert_eq!(entry, Entry::Whole(-16_384));
        let (number, leftover) = (16_384, -0.5);
        let entry = Entry::from_numbers([2, number], [leftover]);
        assert_eq!(entry, Entry::Near { number, leftover });
        assert_eq!(entry.number(), number);
    }

    #[test]
    fn refusals_of_imports() {
        assert_eq!(entry_refusal(16), Refusal::NotFinite { entry: None });
        assert_eq!(entry_refusal(17), Refusal::TooLarge { entry: None });
        assert_eq!(model_refusal(5, 0), Refusal::ArgumentOutOfRange);
        assert_eq!(model_refusal(9, 0), Refusal::Length);
        let entry = Some(1);
        assert_eq!(model_refusal(16 + 256, 2), Refusal::NotFinite { entry });
        assert_eq!(model_refusal(17 + 256, 2), Refusal::TooLarge { entry });
    }

    /// The bytes of an open record of 1 state, 1 input and 1 step, for the service.
    fn open() -> [u8; service_length(1, 1, 1)] {
        let mut bytes = [0xFF; service_length(1, 1, 1)];
        bytes[..4].copy_from_slice(&[3, 0, 5, 0]);
        bytes[16..19].fill(1);
        bytes
    }

    #[test]
    fn both_readers_and_the_kind_agree() {
        let bytes = open();
        assert_eq!(recorded([3], &bytes[..16], &bytes), Kind::Open);
        for kind in [0, 1, 2, 4, -1, 3 + 256] {
            assert!(catch_unwind(|| recorded([kind], &bytes[..16], &bytes)).is_err());
        }
        // Another kind, other rounds, or too much for the laboratory.
        for (place, byte, length) in [(0, 2, 16), (2, 6, 16), (0, 3, 17), (0, 3, 15)] {
            let mut other = bytes;
            other[place] = byte;
            assert!(catch_unwind(|| recorded([3], &other[..length], &bytes)).is_err());
        }
        for length in [0, 16, 30] {
            assert!(catch_unwind(|| recorded([3], &bytes[..16], &bytes[..length])).is_err());
        }
    }

    #[test]
    fn refusals_of_records() {
        assert_eq!(record_refusal(1), Refusal::Cut { offset: 0 });
        let offset = 1063;
        assert_eq!(
            record_refusal(8 + 256 * offset),
            Refusal::Overrun { offset }
        );
        assert_eq!(record_refusal(9), Refusal::Length);
        let weightless = Refusal::Weightless { offset };
        assert_eq!(record_refusal(18 + 256 * offset), weightless);
        for answer in [0, 10, 14, 15 + 256, 16, 17 + 256, 19, 9 + 256, u64::MAX] {
            assert!(catch_unwind(|| record_refusal(answer)).is_err());
        }
    }

    #[test]
    fn lengths_of_records() {
        assert_eq!((service_length(1, 1, 1), MOST_SERVICE), (31, 787));
        let tape = Tape::from_numbers(&counted());
        assert_eq!(tape.service_length(), 19 + 4 * 3 * 4);
        assert_eq!(service_length(usize::MAX, 0, 1), usize::MAX);
        assert_eq!(service_length(0, usize::MAX, 1), usize::MAX);
        assert_eq!(service_length(1, 1, usize::MAX), usize::MAX);
    }

    #[test]
    fn lengths_of_models() {
        assert_eq!((model_length(1, 1), MOST_MODEL), (10, 300));
        assert_eq!(model_length(usize::MAX, 0), usize::MAX);
        assert_eq!(model_length(1 << 32, usize::MAX), usize::MAX);
    }

    #[test]
    fn anything_may_be_lent() {
        let cut = Refusal::Cut { offset: 0 };
        let unknown = Refusal::Unknown { offset: 0 };
        let misplaced = Refusal::Misplaced { offset: 0 };
        assert_eq!(read(&[]), Err(cut));
        assert_eq!(read_references(&[]), Err(cut));
        assert_eq!(read_step(&[0]), Err(unknown));
        assert_eq!(banded_correction(&[0xff], &[i64::MIN]), Err(misplaced));
        assert_eq!(judge_plan(&[0xff], &[], &[]), Err(misplaced));
        assert_eq!(judge_report(&[0xff], &[], &[1]), Err(misplaced));
        assert_eq!(ranges(&[0x10], &[7], &[]), Err(cut));
        assert_eq!(judge_multipliers(&[0], &[1]), Err(unknown));
        assert_eq!(solve(&[0x10], &mut [], &mut [7]), Err(cut));
        assert_eq!(record(&[0xff], &mut [], &mut [7]), Err(misplaced));
        let sizes = import_model(usize::MAX, 0, &[], &[f64::NAN], &mut []);
        assert_eq!(sizes, Err(Refusal::ArgumentOutOfRange));
        let lengths = import_model(6, 4, &[], &[f64::NAN], &mut []);
        assert_eq!(lengths, Err(Refusal::Length));
    }
}
