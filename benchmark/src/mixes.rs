//! The three mixes of tapes of full size.

use reference::generate::Random;

use crate::furnaces;
use crate::tune::{tuned, Wanted};

/// How many tapes of a mix are timed.
pub const TAPES: usize = 1_000;

/// Half of the tapes that are timed, and more, enter so many rounds.
pub const MANY_ROUNDS: i64 = 100;

/// A kind of tapes.
#[derive(Clone, Copy, Debug, PartialEq, Eq)]
pub enum Mix {
    /// Furnaces near their references.
    Usual,
    /// Limits close round the references: most numbers of the rounds stand at an end.
    Narrow,
    /// All numbers from their whole ranges.
    Any,
}

impl Mix {
    /// All mixes.
    pub const ALL: [Mix; 3] = [Mix::Usual, Mix::Narrow, Mix::Any];

    /// What the mix is called.
    pub fn name(self) -> &'static str {
        match self {
            Mix::Usual => "usual",
            Mix::Narrow => "narrow limits",
            Mix::Any => "any numbers",
        }
    }

    /// The tape of a place, the same on every machine.
    pub fn tape(self, place: usize) -> Vec<u8> {
        let mut random = Random::new(((self as u64) << 32) + place as u64);
        let wanted = self.wanted(place);
        // Drawn once: what is harder to come by keeps its share.
        let is_long = random.below(100) < self.long_percent(wanted);
        let (choices, least_rounds) = if is_long {
            ([150, 200, 400, 800], MANY_ROUNDS)
        } else {
            ([5, 20, 60, 90], 1)
        };
        loop {
            let mut furnace = match self {
                Mix::Usual => furnaces::usual(&mut random, wanted),
                Mix::Narrow => furnaces::narrow(&mut random, wanted),
                Mix::Any => furnaces::any(&mut random, wanted),
            };
            furnace.rounds = random.choose(&choices);
            if let Some(tape) = tuned(furnace, &mut random, wanted, least_rounds) {
                return tape;
            }
        }
    }

    /// The answer that the tape of a place is to have. Few furnaces of any numbers have a plan.
    fn wanted(self, place: usize) -> Wanted {
        match (self, place % 10) {
            (Mix::Any, 0) => Wanted::Proved,
            (Mix::Any, 3 | 5 | 8) => Wanted::Open,
            (_, 0 | 3 | 5 | 8) => Wanted::Proved,
            (_, 2 | 7) => Wanted::Impossible,
            _ => Wanted::Open,
        }
    }

    /// How many tapes in a hundred are to enter many rounds. With any numbers only those can that
    /// are open, by R; with narrow limits the least gap comes early.
    fn long_percent(self, wanted: Wanted) -> usize {
        match (self, wanted) {
            (Mix::Any, Wanted::Proved | Wanted::Impossible) => 0,
            (Mix::Narrow, Wanted::Proved) => 25,
            _ => 80,
        }
    }
}

#[cfg(test)]
mod tests {
    use super::*;

    #[test]
    fn tapes_come_again() {
        for mix in Mix::ALL {
            assert_eq!(mix.tape(4), mix.tape(4));
            assert_ne!(mix.tape(1), mix.tape(4));
        }
    }
}
