//! The banded step: whether a tape asks for it, and its floats.

use core::fmt;

use crate::{accepted, calls, read, wrong_library, Numbers, Refusal, MOST_MULTIPLIERS};

/// The step from the multipliers of a round to the next ones. `step as i64` is the number that
/// [`calls::read_step`] has for it: 0 or 1.
#[derive(Clone, Copy, Debug, PartialEq, Eq, Hash)]
pub enum Step {
    /// Command 50: e × g for each residual e, with the tape's g.
    Gain = 0,
    /// Command 51, the banded step: d with W × d = e, solved in floats for all residuals together.
    /// W depends on the tape alone. Where rounding leaves a pivot of it that is not finite or not
    /// above 0, the tape falls back on g.
    Banded = 1,
}

impl Step {
    /// The step in the order of [`calls::read_step`].
    fn from_numbers(numbers: [i64; calls::READ_STEP_LENGTH]) -> Step {
        match numbers {
            [0] => Step::Gain,
            [1] => Step::Banded,
            _ => wrong_library(),
        }
    }
}

impl fmt::Display for Step {
    fn fmt(&self, f: &mut fmt::Formatter<'_>) -> fmt::Result {
        f.write_str(match self {
            Step::Gain => "gain",
            Step::Banded => "banded",
        })
    }
}

/// Reads which step a tape asks for. What a gap, 'proved' or 'impossible' says does not depend on
/// it.
///
/// ```
/// use fibergravel::{read_step, Step};
///
/// // Document 01's tape F.
/// let mut tape = [
///     0x10, 1, 1, 1, // size
///     0x20, 0, 0, 0x00, 0x10, // A(0,0) = 4096
///     0x21, 0, 0, 0x00, 0x08, // B(0,0) = 2048
///     0x30, 0, 0x18, 0xFC, 0xE8, 0x03, 0x6E, 0x00, 1, // the state: -1000 to 1000, r 110
///     0x30, 1, 0x00, 0x00, 0x28, 0x00, 0x00, 0x00, 1, // the input: 0 to 40, r 0
///     0x40, 0, 0x64, 0x00, // x(0) = 100
///     0x50, 0x19, 0x00, 0x05, 0x00, 0x40, 0x9C, 0x00, 0x00, // g 25, R 5, T 40000
///     0xFF,
/// ];
/// assert_eq!(read_step(&tape)?, Step::Gain);
///
/// tape[36] = 0x51;
/// assert_eq!(read_step(&tape)?, Step::Banded);
/// # Ok::<(), fibergravel::Refusal>(())
/// ```
///
/// # Errors
///
/// Refusals 1 to 8 and 18, as [`read`] gives them.
pub fn read_step(tape: &[u8]) -> Result<Step, Refusal> {
    let mut out = [0; calls::READ_STEP_LENGTH];
    accepted(calls::read_step(tape, &mut out))?;
    Ok(Step::from_numbers(out))
}

/// A float for each row of W, by step and then state, N × n of them.
pub type Floats = Numbers<f64, MOST_MULTIPLIERS>;

/// The floats of the banded step. They are equal where all of them are; a NaN is equal to none.
#[derive(Clone, Copy, Debug, PartialEq)]
#[non_exhaustive]
pub struct Correction {
    /// The pivot of each row, finite and above 0. They do not depend on the residuals.
    pub pivots: Floats,
    /// d of each row. It may be infinite or a NaN, in place of which a round adds 0.
    pub d: Floats,
}

impl Correction {
    /// The floats where `out` says that they are written; none where it says that they are not.
    fn from_numbers(
        numbers: [i64; calls::BANDED_CORRECTION_LENGTH],
        pivots: Floats,
        d: Floats,
    ) -> Option<Correction> {
        match numbers {
            [0] => None,
            [1] if pivots.iter().all(|pivot| is_usable(*pivot)) => Some(Correction { pivots, d }),
            _ => wrong_library(),
        }
    }
}

/// Is a pivot finite and above 0?
fn is_usable(pivot: f64) -> bool {
    pivot.is_finite() && pivot > 0.0
}

/// The floats of a tape's banded step for residuals e, one for each row of W, by step and then
/// state, each at most [`crate::MOST_RESIDUAL`] in size; those of a round are among them. There are
/// none where the tape has command 50 or falls back on g.
///
/// It is for service, and for comparison bit by bit: [`crate::solve`] takes these steps by itself.
///
/// ```
/// use fibergravel::banded_correction;
///
/// // Document 01's tape F with command 51.
/// let mut tape = [
///     0x10, 1, 1, 1, // size
///     0x20, 0, 0, 0x00, 0x10, // A(0,0) = 4096
///     0x21, 0, 0, 0x00, 0x08, // B(0,0) = 2048
///     0x30, 0, 0x18, 0xFC, 0xE8, 0x03, 0x6E, 0x00, 1, // the state: -1000 to 1000, r 110
///     0x30, 1, 0x00, 0x00, 0x28, 0x00, 0x00, 0x00, 1, // the input: 0 to 40, r 0
///     0x40, 0, 0x64, 0x00, // x(0) = 100
///     0x51, 0x19, 0x00, 0x05, 0x00, 0x40, 0x9C, 0x00, 0x00, // g 25, R 5, T 40000
///     0xFF,
/// ];
/// // W = (2048² + 4096²) / 8192 = 2560, and the first residual is 4096 × (100 - 110).
/// let correction = banded_correction(&tape, &[-40_960])?.expect("a banded step");
/// assert_eq!((&*correction.pivots, &*correction.d), (&[2560.0][..], &[-16.0][..]));
///
/// tape[36] = 0x50;
/// assert_eq!(banded_correction(&tape, &[-40_960])?, None);
/// # Ok::<(), fibergravel::Refusal>(())
/// ```
///
/// # Errors
///
/// Refusals 1 to 8 and 18 of the tape; 9 where there are not [`crate::Tape::multipliers_length`]
/// residuals; then 5 for a residual beyond its range, [`Refusal::ArgumentOutOfRange`], which carries
/// nothing.
pub fn banded_correction(tape: &[u8], residuals: &[i64]) -> Result<Option<Correction>, Refusal> {
    let mut out = [0; calls::BANDED_CORRECTION_LENGTH];
    let (mut pivots, mut d) = ([0.0; MOST_MULTIPLIERS], [0.0; MOST_MULTIPLIERS]);
    // Where there are more, their own length is refused.
    let count = residuals.len().min(MOST_MULTIPLIERS);
    let (lent_pivots, lent_d) = (&mut pivots[..count], &mut d[..count]);
    match calls::banded_correction(tape, residuals, lent_pivots, lent_d, &mut out) {
        0 => {
            let (pivots, d) = (Numbers::front(pivots, count), Numbers::front(d, count));
            Ok(Correction::from_numbers(out, pivots, d))
        }
        refused => Err(correction_refusal(refused, || read(tape).is_ok())),
    }
}

/// The refusal of a correction. A tape whose command 10 has an operand outside its range is refused
/// by the same number as a residual is: of an accepted tape it is the residual.
fn correction_refusal(answer: u64, tape_is_accepted: impl FnOnce() -> bool) -> Refusal {
    match Refusal::from_answer(answer) {
        Some(Refusal::OutOfRange { offset: 0 }) if tape_is_accepted() => {
            Refusal::ArgumentOutOfRange
        }
        Some(refusal) if matches!(refusal.number(), 1..=9 | 18) => refusal,
        _ => wrong_library(),
    }
}

#[cfg(test)]
mod tests {
    use std::panic::catch_unwind;
    use std::string::ToString;

    use super::*;

    /// So many floats, all the same.
    fn floats(float: f64, count: usize) -> Floats {
        Numbers::front([float; MOST_MULTIPLIERS], count)
    }

    #[test]
    fn steps_have_their_numbers_and_words() {
        for (step, word) in [(Step::Gain, "gain"), (Step::Banded, "banded")] {
            assert_eq!(Step::from_numbers([step as i64]), step);
            assert_eq!(step.to_string(), word);
        }
    }

    #[test]
    fn floats_are_there_where_out_is_1() {
        let (pivots, d) = (floats(f64::MIN_POSITIVE, 3), floats(-2.5, 3));
        let found = Correction::from_numbers([1], pivots, d);
        assert_eq!(found, Some(Correction { pivots, d }));
        assert_eq!(found.map(|found| found.d.len()), Some(3));
        // Whatever the slices hold.
        assert_eq!(Correction::from_numbers([0], floats(-1.0, 2), d), None);
    }

    #[test]
    fn what_no_planner_answers_panics() {
        for number in [-1, 2, 256] {
            assert!(catch_unwind(|| Step::from_numbers([number])).is_err());
            let found = || Correction::from_numbers([number], floats(1.0, 1), floats(1.0, 1));
            assert!(catch_unwind(found).is_err());
        }
        for pivot in [0.0, -0.0, -1.0, f64::INFINITY, f64::NAN] {
            let found = || Correction::from_numbers([1], floats(pivot, 1), floats(1.0, 1));
            assert!(catch_unwind(found).is_err(), "{pivot}");
        }
    }

    #[test]
    fn any_d_may_come() {
        for d in [0.0, 1e300, f64::INFINITY, f64::NEG_INFINITY, f64::NAN] {
            let found = Correction::from_numbers([1], floats(1.0, 1), floats(d, 1));
            let found = found.expect("out is 1");
            assert_eq!(found.d[0].to_bits(), d.to_bits());
        }
    }

    #[test]
    fn refusals_of_corrections() {
        let offset = 1063;
        for (answer, refusal) in [
            (1, Refusal::Cut { offset: 0 }),
            (5 + 256 * offset, Refusal::OutOfRange { offset }),
            (8 + 256 * offset, Refusal::Overrun { offset }),
            (9, Refusal::Length),
            (18 + 256 * offset, Refusal::Weightless { offset }),
        ] {
            assert_eq!(correction_refusal(answer, || true), refusal);
        }
        let of_tape = Refusal::OutOfRange { offset: 0 };
        assert_eq!(correction_refusal(5, || false), of_tape);
        let of_residual = Refusal::ArgumentOutOfRange;
        assert_eq!(correction_refusal(5, || true), of_residual);
        for answer in [0, 10, 12, 15, 16, 17, 19, 9 + 256, u64::MAX] {
            assert!(catch_unwind(|| correction_refusal(answer, || true)).is_err());
        }
    }
}
