//! The ranges of an accepted plan's first duties.

use core::array::from_fn;
use core::fmt;

use crate::{accepted_tape, calls, duty, wrong_library, Numbers, Refusal, MOST_INPUTS};

/// The range of a first duty: every rival that costs no more than the accepted plan has its duty
/// from `low` to `high`, both included, and so has the plan itself. As text it is `LOW HIGH`.
#[derive(Clone, Copy, Debug, PartialEq, Eq, Hash)]
pub struct Range {
    /// The lower end, not below lo.
    pub low: i32,
    /// The upper end, not above hi.
    pub high: i32,
}

/// The ranges of u(0), one for each of the m inputs.
pub type Ranges = Numbers<Range, MOST_INPUTS>;

/// Judges a plan with multipliers as [`crate::judge_plan`] does, and says how different the first
/// duties of a plan as cheap can be. The ends of a [`Range`] are whole numbers, rounded outward and
/// limited to lo and hi; where the input's weight is 0 they are lo and hi.
///
/// It is for a plan that is to be fired, such as [`crate::solve`] leaves with 'proved'. A narrow
/// range says that every plan as cheap sets this heater nearly alike. A wide one does not settle it:
/// there may be a plan as cheap with quite another duty, or none. Before rounding, a range is at
/// most 2 × √(gap / (4096 × h)) wide, with h the input's weight from 1 on.
///
/// ```
/// use fibergravel::{ranges, Range};
///
/// // Document 01's tape F.
/// let tape = [
///     0x10, 1, 1, 1, // size
///     0x20, 0, 0, 0x00, 0x10, // A(0,0) = 4096
///     0x21, 0, 0, 0x00, 0x08, // B(0,0) = 2048
///     0x30, 0, 0x18, 0xFC, 0xE8, 0x03, 0x6E, 0x00, 1, // the state: -1000 to 1000, r 110
///     0x30, 1, 0x00, 0x00, 0x28, 0x00, 0x00, 0x00, 1, // the input: 0 to 40, r 0
///     0x40, 0, 0x64, 0x00, // x(0) = 100
///     0x50, 0x19, 0x00, 0x05, 0x00, 0x40, 0x9C, 0x00, 0x00, // g 25, R 5, T 40000
///     0xFF,
/// ];
/// // What a solve leaves, with gap 32768: no plan as cheap has a duty above 7.
/// let duties = ranges(&tape, &[4, 102], &[-16])?;
/// assert_eq!(*duties, [Range { low: 1, high: 7 }]);
/// assert_eq!(duties[0].to_string(), "1 7");
///
/// // A better plan, with gap 4096.
/// assert_eq!(*ranges(&tape, &[3, 102], &[-16])?, [Range { low: 3, high: 5 }]);
/// # Ok::<(), fibergravel::Refusal>(())
/// ```
///
/// # Errors
///
/// Refusals 1 to 13 and 18, as [`crate::judge_plan`] gives them.
pub fn ranges(tape: &[u8], plan: &[i32], multipliers: &[i32]) -> Result<Ranges, Refusal> {
    let mut out = [0; calls::RANGES_LENGTH];
    match calls::ranges(tape, plan, multipliers, &mut out) {
        0 => Ok(Ranges::from_numbers(out, accepted_tape(tape).inputs)),
        refused => Err(ranges_refusal(refused)),
    }
}

/// The refusal of ranges.
fn ranges_refusal(answer: u64) -> Refusal {
    match Refusal::from_answer(answer) {
        Some(refusal) if matches!(refusal.number(), 1..=13 | 18) => refusal,
        _ => wrong_library(),
    }
}

impl Ranges {
    /// The ends in the order of [`calls::ranges`], of a tape with so many inputs.
    fn from_numbers(numbers: [i64; calls::RANGES_LENGTH], inputs: usize) -> Ranges {
        let ranges = from_fn(|j| Range::from_ends(numbers[2 * j], numbers[2 * j + 1]));
        if numbers.iter().skip(2 * inputs).any(|end| *end != 0) {
            wrong_library();
        }
        Numbers::front(ranges, inputs)
    }
}

impl Range {
    /// The range with these ends, of which the lower one is not above the other.
    fn from_ends(low: i64, high: i64) -> Range {
        if low > high {
            wrong_library();
        }
        Range {
            low: duty(low),
            high: duty(high),
        }
    }
}

impl fmt::Display for Range {
    fn fmt(&self, f: &mut fmt::Formatter<'_>) -> fmt::Result {
        write!(f, "{} {}", self.low, self.high)
    }
}

#[cfg(test)]
mod tests {
    use std::panic::catch_unwind;
    use std::string::ToString;

    use super::*;

    #[test]
    fn every_end_has_its_place() {
        let range = |low, high| Range { low, high };
        let all = [range(-2, 1), range(3, 3), range(-9, -5), range(7, 8)];
        let ends = [-2, 1, 3, 3, -9, -5, 7, 8];
        for inputs in 1..=MOST_INPUTS {
            let mut numbers = ends;
            numbers[2 * inputs..].fill(0);
            let found = Ranges::from_numbers(numbers, inputs);
            assert_eq!(*found, all[..inputs]);
        }
    }

    #[test]
    fn what_no_planner_answers_panics() {
        let wide = i64::from(i32::MAX) + 1;
        for (numbers, inputs) in [
            ([1, 0, 0, 0, 0, 0, 0, 0], 1),
            ([0, 0, 0, 0, 0, 0, 5, -5], 4),
            ([0, wide, 0, 0, 0, 0, 0, 0], 1),
            ([-wide - 1, 0, 0, 0, 0, 0, 0, 0], 1),
            // Beyond m.
            ([0, 0, 0, 1, 0, 0, 0, 0], 1),
            ([0, 0, -1, 0, 0, 0, 0, 0], 1),
            ([0, 0, 0, 0, 0, 0, 0, 1], 3),
        ] {
            let found = catch_unwind(|| Ranges::from_numbers(numbers, inputs));
            assert!(found.is_err(), "{numbers:?}");
        }
    }

    #[test]
    fn refusals_of_ranges() {
        let offset = 1063;
        let overrun = Refusal::Overrun { offset };
        assert_eq!(ranges_refusal(8 + 256 * offset), overrun);
        for (answer, refusal) in [
            (1, Refusal::Cut { offset: 0 }),
            (9, Refusal::Length),
            (10, Refusal::OffModel),
            (11, Refusal::OverLimit),
            (12, Refusal::Multiplier),
            (13, Refusal::Wide),
            (18, Refusal::Weightless { offset: 0 }),
        ] {
            assert_eq!(ranges_refusal(answer), refusal);
        }
        for answer in [0, 14, 15, 16, 17, 19, 13 + 256, u64::MAX] {
            assert!(catch_unwind(|| ranges_refusal(answer)).is_err());
        }
    }

    #[test]
    fn ranges_as_text() {
        let range = Range { low: -12, high: 7 };
        assert_eq!(range.to_string(), "-12 7");
    }
}
