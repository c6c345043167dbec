//! The refusals, 1 to 18.

use crate::model::Whole;

/// A place of a lent plan that fails a test: what stands there, and what should.
#[derive(Clone, Copy, Debug, PartialEq, Eq, PartialOrd, Ord)]
pub struct Fault {
    /// The step, k for u(k) and for x(k+1).
    pub step: usize,
    /// States 0 to n−1, then inputs n to n+m−1.
    pub column: usize,
    /// The number found there.
    pub found: Whole,
    /// For 10 the number that the model gives, for 11 the limit that was passed.
    pub due: Whole,
}

/// Why a call gives no answer. Each case holds what the refusal carries and what it reports.
#[derive(Clone, Copy, Debug, PartialEq, Eq, PartialOrd, Ord)]
pub enum Refusal {
    /// 1: the tape ends inside a command, or before FF.
    Cut {
        /// Of the command byte; before FF, the tape's length.
        offset: usize,
    },
    /// 2: command byte not in the table.
    Unknown {
        /// Of the command byte.
        offset: usize,
    },
    /// 3: first command not 10, or a second 10.
    Misplaced {
        /// Of the command byte.
        offset: usize,
    },
    /// 4: index outside the size.
    NoSuchPlace {
        /// Of the command byte.
        offset: usize,
    },
    /// 5: an operand outside its range, or lo > hi.
    OutOfRange {
        /// Of the command byte.
        offset: usize,
    },
    /// 5 of what is lent beside a tape or without one: n or m of an import outside its range, or a
    /// residual beyond 2^40 in size. It carries nothing.
    ArgumentOutOfRange,
    /// 6: the same place given again, or a 50 or 51 after either.
    Twice {
        /// Of the command byte.
        offset: usize,
    },
    /// 7: at FF, something required was not given.
    Absent {
        /// Of FF.
        offset: usize,
    },
    /// 8: bytes after FF.
    Overrun {
        /// The offset after FF.
        offset: usize,
    },
    /// 9: a lent slice has not the length that the sizes ask for, the tape's or an import's.
    Length,
    /// 10: a state of the plan differs from the model.
    OffModel(Fault),
    /// 11: a plan number outside lo to hi.
    OverLimit(Fault),
    /// 12: a multiplier outside its range.
    Multiplier,
    /// 13: gap above T.
    Wide {
        /// K of the plan.
        cost: Whole,
        /// The floor of the multipliers.
        floor: Whole,
    },
    /// 14: multipliers do not show impossibility.
    NotShown,
    /// 15: R rounds without 'proved' or 'impossible'.
    Open {
        /// The tape's R.
        rounds: u32,
    },
    /// 16: an entry is infinite or not a number.
    NotFinite {
        /// Its count from 0, A before B; none where an entry is imported alone.
        entry: Option<usize>,
    },
    /// 17: an entry's rounded number is beyond 16,384 in size.
    TooLarge {
        /// Its count from 0, A before B; none where an entry is imported alone.
        entry: Option<usize>,
    },
    /// 18: at FF, a weight is 0 on a tape with command 51.
    Weightless {
        /// Of FF.
        offset: usize,
    },
}

impl Refusal {
    /// The paper's number, word and carried number of the refusal.
    fn row(self) -> (u32, &'static str, Option<usize>) {
        match self {
            Refusal::Cut { offset } => (1, "cut", Some(offset)),
            Refusal::Unknown { offset } => (2, "unknown", Some(offset)),
            Refusal::Misplaced { offset } => (3, "misplaced", Some(offset)),
            Refusal::NoSuchPlace { offset } => (4, "no such place", Some(offset)),
            Refusal::OutOfRange { offset } => (5, "out of range", Some(offset)),
            Refusal::ArgumentOutOfRange => (5, "out of range", None),
            Refusal::Twice { offset } => (6, "twice", Some(offset)),
            Refusal::Absent { offset } => (7, "absent", Some(offset)),
            Refusal::Overrun { offset } => (8, "overrun", Some(offset)),
            Refusal::Length => (9, "length", None),
            Refusal::OffModel(_) => (10, "off model", None),
            Refusal::OverLimit(_) => (11, "over limit", None),
            Refusal::Multiplier => (12, "multiplier", None),
            Refusal::Wide { .. } => (13, "wide", None),
            Refusal::NotShown => (14, "not shown", None),
            Refusal::Open { rounds } => (15, "open", Some(rounds as usize)),
            Refusal::NotFinite { entry } => (16, "not finite", entry),
            Refusal::TooLarge { entry } => (17, "too large", entry),
            Refusal::Weightless { offset } => (18, "weightless", Some(offset)),
        }
    }

    /// The number, 1 to 18.
    pub fn number(self) -> u32 {
        self.row().0
    }

    /// The word in the paper's table.
    pub fn word(self) -> &'static str {
        self.row().1
    }

    /// An offset for 1 to 8 and 18, R for 15, an entry's count for 16 and 17; nothing for 9 to 14, for
    /// 5 of what is lent, and for 16 and 17 of an entry alone. What 10, 11 and 13 report is no carried
    /// number.
    pub fn carried(self) -> Option<usize> {
        self.row().2
    }
}
