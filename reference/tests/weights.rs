//! Weight 0 (request 4): every byte is a weight, and figures worked out by hand.

mod tapes;

use reference::floor::{ceiling, floor, gap, pieces};
use reference::model::{cost, Plan};
use reference::rounds::{Candidate, Ending};
use reference::*;
use tapes::*;

/// Where document 01's tape F has the weights of its state and of its input.
const STATE_WEIGHT: usize = 22;
/// See [`STATE_WEIGHT`].
const INPUT_WEIGHT: usize = 31;

/// F's command 30 of the state up to its weight: −1000 to 1000, r 110.
const STATE: &str = "30 00 18 FC E8 03 6E 00";

/// F's command 30 of the input up to its weight: 0 to 40, r 0.
const INPUT: &str = "30 01 00 00 28 00 00 00";

/// F up to its command 50 with other weights, and lo and hi of the state in hexadecimal.
fn front(limits: &str, state_weight: u8, input_weight: u8) -> String {
    F_FRONT
        .replace(
            &format!("{STATE} 01"),
            &format!("30 00 {limits} 6E 00 {state_weight:02X}"),
        )
        .replace(
            &format!("{INPUT} 01"),
            &format!("{INPUT} {input_weight:02X}"),
        )
}

/// F's limits of the state, −1000 to 1000.
const WIDE: &str = "18 FC E8 03";

/// 110 to 1000.
const FROM_110: &str = "6E 00 E8 03";

/// 200 to 300, which is out of reach: duty 40 gives 120.
const FROM_200: &str = "C8 00 2C 01";

#[test]
fn every_byte_is_a_weight() {
    let f = tape_f();
    for (column, place) in [STATE_WEIGHT, INPUT_WEIGHT].into_iter().enumerate() {
        assert_eq!(f[place], 1);
        for weight in 0..=255 {
            let mut tape = f.clone();
            tape[place] = weight;
            let furnace = read(&tape).unwrap();
            assert_eq!(furnace.columns[column].weight, Whole::from(weight));
            assert_eq!(furnace.columns[1 - column].weight, 1);
        }
    }
}

#[test]
fn weight_0_costs_nothing() {
    let plan = Plan {
        u: vec![vec![4]],
        x: vec![vec![100], vec![102]],
    };
    // M4: 4096 × (4² + 8²). Ceiling: 40² for the input, 1110² for the state.
    for (state, input, by_hand, most) in [
        (1, 1, 80, 1_600 + 1_232_100),
        (0, 1, 16, 1_600),
        (1, 0, 64, 1_232_100),
        (0, 0, 0, 0),
    ] {
        let tape = with_search(&front(WIDE, state, input), 25, 5, 0);
        let furnace = read(&tape).unwrap();
        assert_eq!(cost(&furnace, &plan), 4096 * by_hand);
        assert_eq!(ceiling(&furnace), 4096 * most);
    }
}

#[test]
fn floors_and_gaps() {
    let plan = Plan {
        u: vec![vec![4]],
        x: vec![vec![100], vec![102]],
    };
    // y = −16 as in M3: slopes −32,768 and 65,536, pieces −65,536 and 6,946,816, and −6,553,600
    // − 32,768. At weight 0 the input's piece is −32,768 × 40, the state's 65,536 × −1000.
    let (input, state) = (-1_310_720, -65_536_000);
    let rest = -6_553_600 - 32_768;
    for (weights, by_hand) in [
        ((0, 1), -65_536 + state),
        ((1, 0), input + 6_946_816),
        ((0, 0), input + state),
    ] {
        let tape = with_search(&front(WIDE, weights.0, weights.1), 25, 5, u32::MAX);
        let furnace = read(&tape).unwrap();
        let y = vec![vec![-16]];
        assert_eq!(pieces(&furnace, &y), by_hand);
        assert_eq!(floor(&furnace, &y), by_hand + rest);
        let by_hand = cost(&furnace, &plan) - by_hand - rest;
        assert_eq!(gap(&furnace, &plan, &y), by_hand);
        assert_eq!(judge_plan(&tape, &[4, 102], &[-16]), Ok(by_hand));
    }
}

#[test]
fn slopes_of_0_take_the_lower_ends() {
    // Round 0 has multipliers 0: u 0 and x −1000. The candidate of u 0 is x 100; it costs nothing
    // but for the state's weight, and the floor is 0.
    for (state, input, gap) in [(0, 1, 0), (1, 0, 409_600), (0, 0, 0)] {
        let tape = with_search(&front(WIDE, state, input), 25, 5, gap);
        let rounds = rounds_of(&tape);
        assert_eq!(rounds.len(), 1);
        assert_eq!(rounds[0].numbers.u, [[0]]);
        let x = if state == 0 { -1000 } else { 110 };
        assert_eq!(rounds[0].numbers.x, [[100], [x]]);
        // With weight 1 the first piece applies, and the gap is 0.
        let high = if input == 0 { 40 } else { 0 };
        let text = format!("proved\nrounds 1\ngap {gap}\nfirst 0\nrange 0 {high}\n");
        assert_eq!(slip(&tape), text);
    }
}

#[test]
fn an_input_of_weight_0_jumps() {
    // Round 0: u 0, x 110, e = 409,600 − 450,560; (−40,960 × 25 + 32,768) / 65,536 = −15.125.
    // Round 1: s = −16 × 2048, so u 40; x = 110 − 8; e = 491,520 − 417,792; y −16 + 28.625.
    // Round 2: y~ = 12 + 28 / 4; s = 19 × 2048, so u 0; x = 110 + 9.5; e = 409,600 − 491,520.
    let expected = [
        (0, 0, 110, -40_960, 0),
        (-16, 40, 102, 73_728, -950_272),
        (19, 0, 120, -81_920, -1_186_816),
    ];
    // The floor of −16 is −1,310,720 + 6,946,816 − 6,586,368, that of 19 is −8,930,304 + 7,782,400
    // − 38,912.
    let rounds = rounds_of(&with_search(&front(WIDE, 1, 0), 25, 3, 409_599));
    assert_eq!(rounds.len(), 3);
    for (round, expected) in rounds.iter().zip(expected) {
        let found = (
            round.y_tilde[0][0],
            round.numbers.u[0][0],
            round.numbers.x[1][0],
            round.residuals[0][0],
            round.floor,
        );
        assert_eq!(found, expected);
    }
    // u 40 gives x 120, 10 away: 409,600 + 950,272.
    let candidate = Candidate::Follows {
        plan: Plan {
            u: vec![vec![40]],
            x: vec![vec![100], vec![120]],
        },
        cost: 409_600,
        gap: 1_359_872,
    };
    assert_eq!(rounds[1].candidate, candidate);
}

#[test]
fn a_state_with_limits_and_no_target() {
    // The state is to be 110 or more, g 100.
    // Round 0: u 0 gives x 100, dropped; x 110; (−40,960 × 100 + 32,768) / 65,536 = −62.
    // Round 1: s = −62 × 2048, u = 15.5, upwards, gives x 108, dropped. e = 442,368 − 450,560;
    // (−8,192 × 100 + 32,768) / 65,536 = −12. Round 2: y~ = −74 − 12 / 4; u = 19.25 gives x 110.
    // Floor: −77² × 256 + 77 × 4096 × 110 − 77 × 409,600 − 77 × 2048 = 1,478,400; K = 4096 × 19².
    let tape = with_search(&front(FROM_110, 0, 1), 100, 3, 256);
    let rounds = rounds_of(&tape);
    let dropped = |number| Candidate::Dropped {
        step: 0,
        column: 0,
        number,
    };
    assert_eq!(rounds[0].candidate, dropped(100));
    assert_eq!(rounds[0].ending, Ending::Next(vec![vec![-62]]));
    assert_eq!(rounds[1].candidate, dropped(108));
    assert_eq!(rounds[1].ending, Ending::Next(vec![vec![-74]]));
    assert_eq!(rounds[2].y_tilde, [[-77]]);
    assert_eq!(rounds[2].floor, 1_478_400);
    let (mut plan, mut multipliers) = ([0, 0], [0]);
    let proved = Solved::Proved {
        rounds: 3,
        gap: 256,
        first: [19, 0, 0, 0],
    };
    assert_eq!(solve(&tape, &mut plan, &mut multipliers), Ok(proved));
    assert_eq!((plan, multipliers), ([19, 110], [-77]));
    let less = with_search(&front(FROM_110, 0, 1), 100, 3, 255);
    assert_eq!(slip(&less), "open\nrounds 3\n");
    assert_eq!(judge_plan(&tape, &[19, 110], &[-77]), Ok(256));
    let (cost, floor) = (4096 * 361, 1_478_400);
    let judged = judge_plan(&less, &[19, 110], &[-77]);
    assert_eq!(judged, Err(Refusal::Wide { cost, floor }));
}

#[test]
fn with_all_weights_0_the_gap_is_minus_the_floor() {
    // Round 0: u 0 gives x 100, dropped; y −16 as in `an_input_of_weight_0_jumps`.
    // Round 1: u 40 gives x 120. Floor −32,768 × 40 + 65,536 × 110 − 6,553,600 − 32,768.
    let tape = with_search(&front(FROM_110, 0, 0), 25, 2, 688_128);
    let (mut plan, mut multipliers) = ([0, 0], [0]);
    let proved = Solved::Proved {
        rounds: 2,
        gap: 688_128,
        first: [40, 0, 0, 0],
    };
    assert_eq!(solve(&tape, &mut plan, &mut multipliers), Ok(proved));
    assert_eq!((plan, multipliers), ([40, 120], [-16]));
    assert_eq!(floor(&read(&tape).unwrap(), &vec![vec![-16]]), -688_128);
    let less = with_search(&front(FROM_110, 0, 0), 25, 2, 688_127);
    assert_eq!(slip(&less), "open\nrounds 2\n");
}

#[test]
fn impossible_with_all_weights_0() {
    // The ceiling is 0. Floor of −1: −2048 × 40 + 4096 × 200 − 409,600 − 2048. Of 1: 2048 × 0 −
    // 4096 × 300 + 409,600 − 2048.
    let tape = with_search(&front(FROM_200, 0, 0), 25, 5, 40_000);
    let furnace = read(&tape).unwrap();
    assert_eq!(ceiling(&furnace), 0);
    assert_eq!(floor(&furnace, &vec![vec![-1]]), 325_632);
    assert_eq!(judge_multipliers(&tape, &[-1]), Ok(Shown));
    assert_eq!(floor(&furnace, &vec![vec![1]]), -821_248);
    assert_eq!(judge_multipliers(&tape, &[1]), Err(Refusal::NotShown));
    // A floor equal to the ceiling shows nothing.
    assert_eq!(judge_multipliers(&tape, &[0]), Err(Refusal::NotShown));
    // Round 0: (−409,600 × 25 + 32,768) / 65,536 = −155.75. Floor −156 × 2048 × 40 + 156 × 4096 ×
    // 200 − 156 × 409,600 − 156 × 2048.
    let (mut plan, mut multipliers) = ([7, 8], [9]);
    let answer = solve(&tape, &mut plan, &mut multipliers);
    assert_eq!(answer, Ok(Solved::Impossible { rounds: 2 }));
    assert_eq!((plan, multipliers), ([7, 8], [-156]));
    assert_eq!(floor(&furnace, &vec![vec![-156]]), 156 * 325_632);
}

#[test]
fn the_last_temperature_within_reach() {
    // Duty 40 gives 120, and 121 is out of reach. Floor of −1: −81,920 + 4096 × lo − 411,648.
    for (limits, by_hand) in [("78 00 2C 01", -2_048), ("79 00 2C 01", 2_048)] {
        let tape = with_search(&front(limits, 0, 0), 25, 5, 2_048);
        let floor = floor(&read(&tape).unwrap(), &vec![vec![-1]]);
        assert_eq!(floor, by_hand);
        let shown = judge_multipliers(&tape, &[-1]);
        let judged = judge_plan(&tape, &[40, 120], &[-1]);
        if by_hand > 0 {
            let fault = Fault {
                step: 0,
                column: 0,
                found: 120,
                due: 121,
            };
            assert_eq!(shown, Ok(Shown));
            assert_eq!(judged, Err(Refusal::OverLimit(fault)));
        } else {
            assert_eq!((shown, judged), (Err(Refusal::NotShown), Ok(2_048)));
        }
    }
}

#[test]
fn one_number_of_weight_0() {
    // Both columns have one number, 5 and 0, and references elsewhere; x(1) is 0, not 5.
    // y = −1: 4096 × 5 − 2048 exceeds 0. y = 1: −4096 × 5 − 2048.
    let tape = hex(
        "10 01 01 01 30 00 05 00 05 00 20 4E 00 30 01 00 00 00 00 E0 B1 00 \
        40 00 00 00 50 01 00 01 00 00 00 00 00 FF",
    );
    let furnace = read(&tape).unwrap();
    assert_eq!(ceiling(&furnace), 0);
    assert_eq!(floor(&furnace, &vec![vec![-1]]), 18_432);
    assert_eq!(floor(&furnace, &vec![vec![1]]), -22_528);
    assert_eq!(judge_multipliers(&tape, &[-1]), Ok(Shown));
    assert_eq!(judge_multipliers(&tape, &[0]), Err(Refusal::NotShown));
    assert_eq!(judge_multipliers(&tape, &[1]), Err(Refusal::NotShown));
}

#[test]
fn a_curve_of_weight_0_changes_nothing() {
    // 31 for the state: 260 in place of 110, then −20,000.
    for (state, input) in [(0, 1), (0, 0)] {
        let front = front(FROM_110, state, input);
        let without = with_search(&front, 100, 5, 1_000_000);
        for reference in ["04 01", "E0 B1"] {
            let with = format!("{front} 31 00 00 {reference}");
            let with = with_search(&with, 100, 5, 1_000_000);
            assert!(read(&with).unwrap().curves[0].is_some());
            assert_eq!(slip(&with), slip(&without));
            let judged = judge_plan(&with, &[19, 110], &[-77]);
            assert_eq!(judged, judge_plan(&without, &[19, 110], &[-77]));
        }
    }
}
