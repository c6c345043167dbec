//! What rounding the third piece's quotient up changes (document 02, request 7). Document 01 rounds it
//! down.
//!
//! Of a round's numbers none depends on a floor, only whether it is the last. So the rounds are the
//! same with either quotient until one of them ends; and since quotients rounded down make the floor
//! higher, with them the rounds end no later.

use crate::calls::{read, solve_traced, Solved};
use crate::floor::{sum_over_numbers, Multipliers, Piece};
use crate::model::{Column, Furnace, Whole};
use crate::refusal::Refusal;
use crate::rounds::{Candidate, Outcome, Round};

/// How much higher a piece would be with its quotient rounded down: 1 where it is the third one and
/// s² / 4P is not whole, else 0.
fn lowered_piece(column: &Column, s: Whole) -> Whole {
    let is_third = Piece::of(column, s) == Piece::Third;
    Whole::from(is_third && s * s % (4 * column.price()) != 0)
}

/// How much higher the floor of these multipliers would be with quotients rounded down.
pub fn lowered(furnace: &Furnace, y: &Multipliers) -> Whole {
    sum_over_numbers(furnace, y, lowered_piece)
}

/// What the rounds would come to in this one with quotients rounded down: 'open' where it would not
/// end them.
pub fn outcome_rounded_down(furnace: &Furnace, round: &Round) -> Outcome {
    // Most rounds are far from an end. There no quotient is looked at.
    let most = furnace.plan_length() as Whole;
    match outcome_with(furnace, round, most) {
        Outcome::Open => Outcome::Open,
        _ => outcome_with(furnace, round, lowered(furnace, &round.y_tilde)),
    }
}

/// [`solve`](crate::solve), and what its rounds would come to with quotients rounded down: 'open' also
/// where none is entered.
pub fn solve_both(
    tape: &[u8],
    plan: &mut [i32],
    multipliers: &mut [i32],
) -> (Result<Solved, Refusal>, Outcome) {
    let furnace = read(tape);
    let mut rounded_down = Outcome::Open;
    let watch = &mut |round: &Round| {
        if let (Ok(furnace), Outcome::Open) = (&furnace, &rounded_down) {
            rounded_down = outcome_rounded_down(furnace, round);
        }
    };
    let answer = solve_traced(tape, plan, multipliers, watch);
    (answer, rounded_down)
}

/// What the rounds would come to in this one if its floor were so much higher.
fn outcome_with(furnace: &Furnace, round: &Round, higher: Whole) -> Outcome {
    let (rounds, multipliers) = (round.k + 1, round.y_tilde.clone());
    match &round.candidate {
        Candidate::Follows { plan, gap, .. } if gap - higher <= furnace.wanted_gap => {
            Outcome::Proved {
                rounds,
                gap: gap - higher,
                plan: plan.clone(),
                multipliers,
            }
        }
        _ if round.floor + higher > round.ceiling => Outcome::Impossible {
            rounds,
            multipliers,
        },
        _ => Outcome::Open,
    }
}
