//! Counts of what rounding the third piece's quotient up changes.

use super::Counts;
use crate::calls::{lent_multipliers, Shown, Solved};
use crate::floor::{ceiling, floor};
use crate::model::{Furnace, Whole};
use crate::quotient::lowered;
use crate::refusal::Refusal;
use crate::rounds::Outcome;

/// The headings of what is judged and of solves.
pub const QUOTIENTS: [&str; 2] = ["judge, quotients rounded up", "solve, quotients rounded up"];

/// The heading of what is judged.
const JUDGED: &str = QUOTIENTS[0];

/// The names under [`JUDGED`]. An answer comes in place of the one that quotients rounded down would
/// give.
const JUDGED_NAMES: [&str; 6] = [
    "floor the same",
    "floor lower",
    "gap the same",
    "gap larger",
    "13 in place of a gap",
    "14 in place of shown",
];

/// The heading of solves.
const SOLVED: &str = QUOTIENTS[1];

/// The names under [`SOLVED`].
const SOLVED_NAMES: [&str; 7] = [
    "proved, gap the same",
    "proved, gap larger",
    "proved later",
    "open in place of proved",
    "impossible, rounds the same",
    "impossible later",
    "open in place of impossible",
];

impl Counts {
    /// Adds the headings and names of quotients.
    pub fn expect_quotients(&mut self) {
        self.expect(JUDGED, JUDGED_NAMES.map(str::to_string));
        self.expect(SOLVED, SOLVED_NAMES.map(str::to_string));
    }

    /// Counts what rounding up has done to the judging of a plan and of multipliers, given both
    /// answers.
    pub fn add_judged_quotients(
        &mut self,
        furnace: &Furnace,
        multipliers: &[i32],
        judged: Result<Whole, Refusal>,
        shown: Result<Shown, Refusal>,
    ) {
        // All other refusals come before a floor is formed.
        if !matches!(shown, Ok(Shown) | Err(Refusal::NotShown)) {
            return;
        }
        let y = lent_multipliers(furnace, multipliers);
        let lowered = lowered(furnace, &y);
        let [same_floor, lower, same_gap, larger, wide, not_shown] = JUDGED_NAMES;
        self.add(JUDGED, if lowered == 0 { same_floor } else { lower });
        match judged {
            Ok(_) => self.add(JUDGED, if lowered == 0 { same_gap } else { larger }),
            Err(Refusal::Wide { cost, floor }) => {
                if cost - floor - lowered <= furnace.wanted_gap {
                    self.add(JUDGED, wide);
                }
            }
            Err(_) => (),
        }
        if shown.is_err() && floor(furnace, &y) + lowered > ceiling(furnace) {
            self.add(JUDGED, not_shown);
        }
    }

    /// Counts what rounding up has done to a solve, given what it would come to with quotients
    /// rounded down, where that is not 'open'.
    pub fn add_solved_quotients(&mut self, answer: Result<Solved, Refusal>, down: &Outcome) {
        let [same_gap, larger, proved_later, not_proved, same_rounds, shown_later, not_shown] =
            SOLVED_NAMES;
        let name = match (down, answer) {
            (Outcome::Open, _) => return,
            (Outcome::Proved { rounds: down, .. }, Ok(Solved::Proved { rounds, .. }))
                if rounds > *down =>
            {
                proved_later
            }
            (Outcome::Proved { gap: down, .. }, Ok(Solved::Proved { gap, .. })) if gap > *down => {
                larger
            }
            (Outcome::Proved { .. }, Ok(Solved::Proved { .. })) => same_gap,
            (Outcome::Proved { .. }, Err(Refusal::Open { .. })) => not_proved,
            (Outcome::Impossible { rounds: down, .. }, Ok(Solved::Impossible { rounds }))
                if rounds > *down =>
            {
                shown_later
            }
            (Outcome::Impossible { .. }, Ok(Solved::Impossible { .. })) => same_rounds,
            (Outcome::Impossible { .. }, Err(Refusal::Open { .. })) => not_shown,
            (down, answer) => panic!("{answer:?} in place of {down:?}"),
        };
        self.add(SOLVED, name);
    }
}
