//! The refusals, 1 to 18.

use core::fmt;

/// Why a call gives no answer. Each case holds what the refusal carries. The cases are those of
/// the papers' tables and no others, so a refusal always says something of the tape or of what
/// was lent; what a call does with any other number, the crate's page says under "Panics".
#[derive(Clone, Copy, Debug, PartialEq, Eq, Hash)]
#[non_exhaustive]
pub enum Refusal {
    /// 1: the tape ends inside a command, or before FF.
    Cut {
        /// Of the command byte; before FF, the tape's length.
        offset: u64,
    },
    /// 2: a command byte that is not in the table of commands.
    Unknown {
        /// Of the command byte.
        offset: u64,
    },
    /// 3: the first command is not 10, or a second 10.
    Misplaced {
        /// Of the command byte.
        offset: u64,
    },
    /// 4: an index outside the size.
    NoSuchPlace {
        /// Of the command byte.
        offset: u64,
    },
    /// 5: an operand outside its range, or lo > hi.
    OutOfRange {
        /// Of the command byte.
        offset: u64,
    },
    /// 5 of [`crate::import_model`]: n or m outside its range. Of [`crate::banded_correction`]: a
    /// residual beyond [`crate::MOST_RESIDUAL`] in size. It carries nothing.
    ArgumentOutOfRange,
    /// 6: the same place, a column's step included, given again, or a 50 or 51 after either.
    Twice {
        /// Of the command byte.
        offset: u64,
    },
    /// 7: at FF, something required was not given, or a curve lacks a step.
    Absent {
        /// Of FF.
        offset: u64,
    },
    /// 8: bytes after FF.
    Overrun {
        /// The offset after FF.
        offset: u64,
    },
    /// 9: a lent slice has not the length that the sizes ask for, the tape's or those of
    /// [`crate::import_model`], or the laboratory's is not of [`crate::LABORATORY_LENGTH`] bytes.
    Length,
    /// 10: a state of the plan differs from the model. Of [`crate::judge_report`] this, 11 and 13
    /// are no refusals but reports.
    OffModel,
    /// 11: a plan number outside lo to hi.
    OverLimit,
    /// 12: a multiplier outside its range.
    Multiplier,
    /// 13: the gap is above T.
    Wide,
    /// 14: the multipliers do not show impossibility.
    NotShown,
    /// 15: R rounds without 'proved' or 'impossible'. There may be a plan all the same. Of
    /// [`crate::record()`] it is no refusal but a kind, [`crate::Kind::Open`].
    Open {
        /// The tape's R.
        rounds: u64,
    },
    /// 16: an entry is infinite or not a number.
    NotFinite {
        /// Its count from 0, A by rows and then B by rows; none where an entry is imported alone.
        entry: Option<u64>,
    },
    /// 17: an entry's number is beyond 16,384 in size.
    TooLarge {
        /// Its count from 0, A by rows and then B by rows; none where an entry is imported alone.
        entry: Option<u64>,
    },
    /// 18: at FF, a weight is 0 on a tape with command 51. It comes after 7 and before 8.
    Weightless {
        /// Of FF.
        offset: u64,
    },
}

impl Refusal {
    /// The refusal that an answer of [`crate::calls`] means; none for 0, which says that there is
    /// a result, and for every other number that no refusal has. An answer does not say which call
    /// gave it: 5 gives [`Refusal::OutOfRange`], and 16 and 17 give a count, also where the call
    /// carries nothing.
    pub fn from_answer(answer: u64) -> Option<Refusal> {
        let (number, carried) = (answer % 256, answer / 256);
        let offset = carried;
        Some(match number {
            1 => Refusal::Cut { offset },
            2 => Refusal::Unknown { offset },
            3 => Refusal::Misplaced { offset },
            4 => Refusal::NoSuchPlace { offset },
            5 => Refusal::OutOfRange { offset },
            6 => Refusal::Twice { offset },
            7 => Refusal::Absent { offset },
            8 => Refusal::Overrun { offset },
            9 if carried == 0 => Refusal::Length,
            10 if carried == 0 => Refusal::OffModel,
            11 if carried == 0 => Refusal::OverLimit,
            12 if carried == 0 => Refusal::Multiplier,
            13 if carried == 0 => Refusal::Wide,
            14 if carried == 0 => Refusal::NotShown,
            15 => Refusal::Open { rounds: carried },
            16 => Refusal::NotFinite {
                entry: Some(carried),
            },
            17 => Refusal::TooLarge {
                entry: Some(carried),
            },
            18 => Refusal::Weightless { offset },
            _ => return None,
        })
    }

    /// The papers' number, word and carried number of the refusal.
    fn row(self) -> (u64, &'static str, Option<u64>) {
        match self {
            Refusal::Cut { offset } => (1, "cut", Some(offset)),
            Refusal::Unknown { offset } => (2, "unknown", Some(offset)),
            Refusal::Misplaced { offset } => (3, "misplaced", Some(offset)),
            Refusal::NoSuchPlace { offset } => (4, "no such place", Some(offset)),
            Refusal::OutOfRange { offset } => (5, "out of range", Some(offset)),
            Refusal::ArgumentOutOfRange => (5, "out of range", None),
            Refusal::Twice { offset } => (6, "twice", Some(offset)),
            Refusal::Absent { offset } => (7, "absent", Some(offset)),
            Refusal::Overrun { offset } => (8, "overrun", Some(offset)),
            Refusal::Length => (9, "length", None),
            Refusal::OffModel => (10, "off model", None),
            Refusal::OverLimit => (11, "over limit", None),
            Refusal::Multiplier => (12, "multiplier", None),
            Refusal::Wide => (13, "wide", None),
            Refusal::NotShown => (14, "not shown", None),
            Refusal::Open { rounds } => (15, "open", Some(rounds)),
            Refusal::NotFinite { entry } => (16, "not finite", entry),
            Refusal::TooLarge { entry } => (17, "too large", entry),
            Refusal::Weightless { offset } => (18, "weightless", Some(offset)),
        }
    }

    /// The number in the papers' tables, 1 to 18.
    pub fn number(self) -> u64 {
        self.row().0
    }

    /// The word in the papers' tables.
    pub fn word(self) -> &'static str {
        self.row().1
    }

    /// An offset for 1 to 8 and 18, R for 15, an entry's count for 16 and 17; nothing for 9 to 14,
    /// for 5 of a model or a residual, and for 16 and 17 of an entry alone.
    pub fn carried(self) -> Option<u64> {
        self.row().2
    }
}

impl fmt::Display for Refusal {
    fn fmt(&self, f: &mut fmt::Formatter<'_>) -> fmt::Result {
        let (number, word, carried) = self.row();
        write!(f, "refused {number} ({word})")?;
        match (self, carried) {
            (_, None) => Ok(()),
            (Refusal::Open { rounds }, _) => write!(f, " after {rounds} rounds"),
            (Refusal::NotFinite { .. } | Refusal::TooLarge { .. }, Some(count)) => {
                write!(f, " in entry {count}")
            }
            (_, Some(offset)) => write!(f, " at {offset}"),
        }
    }
}

impl core::error::Error for Refusal {}

#[cfg(test)]
mod tests {
    use std::string::ToString;

    use super::*;

    #[test]
    fn each_number_gives_its_refusal() {
        for number in 1..=18 {
            let carried = if (9..=14).contains(&number) { 0 } else { 1063 };
            let refusal = Refusal::from_answer(number + 256 * carried).expect("in the table");
            assert_eq!(refusal.number(), number);
            assert_eq!(refusal.carried().unwrap_or(0), carried);
        }
    }

    #[test]
    fn no_other_number_gives_one() {
        for answer in [0, 19, 255, 256, 9 + 256, 14 + 256, u64::MAX] {
            assert_eq!(Refusal::from_answer(answer), None);
        }
    }

    #[test]
    fn refusals_as_text() {
        assert_eq!(
            Refusal::Absent { offset: 36 }.to_string(),
            "refused 7 (absent) at 36"
        );
        assert_eq!(Refusal::Wide.to_string(), "refused 13 (wide)");
        assert_eq!(
            Refusal::Open { rounds: 5 }.to_string(),
            "refused 15 (open) after 5 rounds"
        );
        assert_eq!(
            Refusal::ArgumentOutOfRange.to_string(),
            "refused 5 (out of range)"
        );
        assert_eq!(
            Refusal::NotFinite { entry: Some(59) }.to_string(),
            "refused 16 (not finite) in entry 59"
        );
        assert_eq!(
            Refusal::TooLarge { entry: None }.to_string(),
            "refused 17 (too large)"
        );
        assert_eq!(
            Refusal::Weightless { offset: 133 }.to_string(),
            "refused 18 (weightless) at 133"
        );
    }
}
