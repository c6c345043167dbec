//! R and T for the answer that a tape is to have, by a trial of its rounds.

use plain::{Outcome, Round};
use reference::generate::commands::of_furnace;
use reference::generate::furnaces::MOST_GAP;
use reference::generate::Random;
use reference::model::Furnace;

/// The answer that a tape is to have.
#[derive(Clone, Copy, Debug, PartialEq, Eq)]
pub enum Wanted {
    /// 'Proved', in the round of the least gap.
    Proved,
    /// 'Impossible'.
    Impossible,
    /// 'Open'.
    Open,
}

/// What a trial of the rounds showed.
struct Trial {
    /// Rounds entered up to the least gap of a candidate that follows the tape, and that gap.
    least: Option<(i64, i64)>,
    /// Rounds entered up to 'impossible', if it came.
    impossible: Option<i64>,
}

/// Runs the R rounds of a furnace so that none ends with 'proved'.
fn trial(furnace: &Furnace, random: &mut Random) -> Trial {
    let mut furnace = plain::read(&tape(furnace, random)).expect("a legal tape with command 50");
    // No gap is below 0.
    furnace.wanted_gap = -1;
    let mut least: Option<(i64, i64)> = None;
    let outcome = plain::watch(&furnace, |round: &Round| match (round.gap, least) {
        (Some(gap), Some((_, least_gap))) if gap >= least_gap => (),
        (Some(gap), _) => least = Some((round.rounds, gap)),
        (None, _) => (),
    });
    let impossible = match outcome {
        Outcome::Impossible { rounds, .. } => Some(rounds),
        _ => None,
    };
    Trial { least, impossible }
}

/// The tape of a furnace, its commands in a random order.
pub fn tape(furnace: &Furnace, random: &mut Random) -> Vec<u8> {
    of_furnace(furnace, random).concat()
}

/// The tape of a furnace with a T at which its R rounds have the answer that is wanted, after so
/// many rounds or more. None where no T has it.
pub fn tuned(
    mut furnace: Furnace,
    random: &mut Random,
    wanted: Wanted,
    least_rounds: i64,
) -> Option<Vec<u8>> {
    let most = MOST_GAP as i64;
    let Trial { least, impossible } = trial(&furnace, random);
    let wanted_gap = match (wanted, least, impossible) {
        (Wanted::Proved, Some((rounds, gap)), _) if rounds >= least_rounds => gap,
        (Wanted::Impossible, None, Some(rounds)) if rounds >= least_rounds => {
            random.choose(&[0, 1_000, most])
        }
        // A gap of 0 would be proved with every T.
        (Wanted::Open, Some((_, gap)), None) if gap > 0 => random.choose(&[0, most.min(gap - 1)]),
        (Wanted::Open, None, None) => random.choose(&[0, 1_000, most]),
        _ => return None,
    };
    furnace.wanted_gap = wanted_gap.into();
    (wanted_gap <= most).then(|| tape(&furnace, random))
}

#[cfg(test)]
mod tests {
    use super::*;
    use plain::Answer;
    use reference::generate::furnaces::{largest, put_out_of_reach};

    /// The answer to a tape of full size.
    fn answer(tape: &[u8]) -> Option<Answer> {
        plain::solve(tape, &mut [0; 120], &mut [0; 72])
    }

    #[test]
    fn a_tape_has_the_answer_that_is_wanted() {
        let mut found = [0; 3];
        for seed in 0..30 {
            let mut random = Random::new(seed);
            let mut furnace = largest(&mut random);
            furnace.rounds = 150;
            if let Some(tape) = tuned(furnace.clone(), &mut random, Wanted::Proved, 100) {
                let Some(Answer::Proved { rounds, .. }) = answer(&tape) else {
                    panic!("seed {seed} is not proved")
                };
                assert!((100..=150).contains(&rounds));
                found[0] += 1;
            }
            if let Some(tape) = tuned(furnace.clone(), &mut random, Wanted::Open, 1) {
                assert_eq!(answer(&tape), Some(Answer::Open));
                found[1] += 1;
            }
            put_out_of_reach(&mut furnace, &mut random, 100);
            if let Some(tape) = tuned(furnace, &mut random, Wanted::Impossible, 1) {
                assert!(matches!(answer(&tape), Some(Answer::Impossible { .. })));
                found[2] += 1;
            }
        }
        assert!(found.iter().all(|count| *count > 0), "{found:?}");
    }
}
