//! The firing slip.

use crate::calls::{lent_multipliers, read, solve, Solved};
use crate::range::first_ranges;
use crate::refusal::Refusal;

/// The text that the printing program writes for a tape. Behind the first duties of a proved one
/// stands the range of each, from the multipliers and the gap that the solve leaves (request 8).
pub fn slip(tape: &[u8]) -> String {
    let furnace = match read(tape) {
        Ok(furnace) => furnace,
        Err(refusal) => return refused(refusal),
    };
    let mut plan = vec![0; furnace.plan_length()];
    let mut multipliers = vec![0; furnace.multipliers_length()];
    match solve(tape, &mut plan, &mut multipliers) {
        Ok(Solved::Proved { rounds, gap, first }) => {
            let mut text = format!("proved\nrounds {rounds}\ngap {gap}\nfirst");
            for duty in &first[..furnace.inputs] {
                text += &format!(" {duty}");
            }
            text += "\n";
            let y = lent_multipliers(&furnace, &multipliers);
            for range in first_ranges(&furnace, &y, gap) {
                text += &format!("range {} {}\n", range.low, range.high);
            }
            text
        }
        Ok(Solved::Impossible { rounds }) => format!("impossible\nrounds {rounds}\n"),
        Err(Refusal::Open { rounds }) => format!("open\nrounds {rounds}\n"),
        Err(_) => unreachable!("the tape is whole and the slices have their lengths"),
    }
}

/// The text of a refusal: a tape's has an offset, one of what is lent beside it has none.
pub fn refused(refusal: Refusal) -> String {
    let number = refusal.number();
    match refusal.carried() {
        Some(offset) => format!("refused {number} at {offset}\n"),
        None => format!("refused {number}\n"),
    }
}
