//! Tapes that every call refuses.

use super::tapes::hex;
use reference::*;

/// Every call and the slip give the tape's refusal, whatever the lengths of the slices.
#[track_caller]
pub fn refused(tape: &[u8], number: u32, offset: usize) {
    let refusal = read(tape).expect_err("a refusal");
    assert_eq!(
        (refusal.number(), refusal.carried()),
        (number, Some(offset))
    );
    assert_eq!(judge_plan(tape, &[], &[]), Err(refusal));
    assert_eq!(ranges(tape, &[], &[]), Err(refusal));
    assert_eq!(judge_multipliers(tape, &[i32::MAX]), Err(refusal));
    let (mut plan, mut multipliers) = ([1, 2, 3], [4]);
    let solved = solve(tape, &mut plan, &mut multipliers);
    assert_eq!(solved, Err(refusal));
    assert_eq!((plan, multipliers), ([1, 2, 3], [4]));
    assert_eq!(read_step(tape), Err(refusal));
    let (mut pivots, mut correction) = ([1.0], [2.0, 3.0]);
    let corrected = banded_correction(tape, &[i64::MAX], &mut pivots, &mut correction);
    assert_eq!(corrected, Err(refusal));
    assert_eq!((pivots, correction), ([1.0], [2.0, 3.0]));
    assert_eq!(slip(tape), format!("refused {number} at {offset}\n"));
}

/// [`refused`] for a list of tapes that are given after `front`.
#[track_caller]
pub fn all_refused(front: &str, number: u32, list: &[(&str, usize)]) {
    for (rest, offset) in list {
        refused(&hex(&format!("{front} {rest}")), number, *offset);
    }
}
