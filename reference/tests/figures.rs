//! Document 01's figures M1 to M10, and rounds worked out by hand.

mod tapes;

use reference::floor::{ceiling, constant, floor, gap, input_slope, piece, pieces, state_slope};
use reference::model::{
    cost, next_state, residual, rounded_state, Column, Correction, Furnace, Plan,
};
use reference::quotient::lowered;
use reference::rounds::{Candidate, Ending};
use reference::*;
use tapes::*;

/// The plan of one step with one input and one state on tape F.
fn one_step(u: Whole, x: Whole) -> Plan {
    Plan {
        u: vec![vec![u]],
        x: vec![vec![100], vec![x]],
    }
}

#[test]
fn m1_states_from_inputs() {
    let f = read(&tape_f()).unwrap();
    assert_eq!(next_state(&f, &[100], &[1], 0), 101);
    assert_eq!(next_state(&f, &[100], &[2], 0), 101);
    assert_eq!(next_state(&f, &[100], &[3], 0), 102);
}

#[test]
fn m2_rounding_down() {
    assert_eq!(rounded_state(-2048), 0);
    assert_eq!(rounded_state(-2049), -1);
    assert_eq!(rounded_state(2047), 0);
    assert_eq!(rounded_state(2048), 1);
}

#[test]
fn m3_floor() {
    let f = read(&tape_f()).unwrap();
    let y = vec![vec![-16]];
    assert_eq!(input_slope(&f, &y, 0, 0), -32_768);
    assert_eq!(state_slope(&f, &y, 1, 0), 65_536);
    assert_eq!(pieces(&f, &y), -65_536 + 6_946_816);
    assert_eq!(constant(&f, &y), -6_553_600);
    assert_eq!(floor(&f, &y), 294_912);
}

#[test]
fn m4_and_m5_cost_and_gap() {
    let f = read(&tape_f()).unwrap();
    let y = vec![vec![-16]];
    assert_eq!(cost(&f, &one_step(4, 102)), 327_680);
    assert_eq!(gap(&f, &one_step(4, 102), &y), 32_768);
    assert_eq!(judge_plan(&tape_f(), &[4, 102], &[-16]), Ok(32_768));
    assert_eq!(cost(&f, &one_step(3, 102)), 299_008);
    assert_eq!(gap(&f, &one_step(3, 102), &y), 4_096);
    assert_eq!(judge_plan(&tape_f(), &[3, 102], &[-16]), Ok(4_096));
}

#[test]
fn m6_floor_of_zero() {
    let f = read(&tape_f()).unwrap();
    assert_eq!(floor(&f, &vec![vec![0]]), 0);
}

#[test]
fn m7_wanted_gap() {
    let judge = |wanted| judge_plan(&tape_f_gap(wanted), &[4, 102], &[-16]);
    assert_eq!(judge(32_768), Ok(32_768));
    let (cost, floor) = (327_680, 294_912);
    assert_eq!(judge(32_767), Err(Refusal::Wide { cost, floor }));
}

#[test]
fn m8_open() {
    let (mut plan, mut multipliers) = ([7, 8], [9]);
    let answer = solve(&tape_f_gap(30_000), &mut plan, &mut multipliers);
    assert_eq!(answer, Err(Refusal::Open { rounds: 5 }));
    assert_eq!((plan, multipliers), ([7, 8], [9]));
    assert_eq!(slip(&tape_f_gap(30_000)), "open\nrounds 5\n");
}

#[test]
fn m9_impossible() {
    let f = read(&tape_m9()).unwrap();
    assert_eq!(floor(&f, &vec![vec![-100]]), 48_435_200);
    assert_eq!(ceiling(&f), 16_793_600);
    assert_eq!(judge_multipliers(&tape_m9(), &[-100]), Ok(Shown));
}

#[test]
fn m10_pieces_around_an_end() {
    let f = read(&tape_m9()).unwrap();
    assert_eq!(piece(f.state_column(0), 409_600), 92_160_000);
    // 409,599 × 250 − 409,599² / 16,384, the quotient 10,239,950.00006 rounded up (request 7).
    assert_eq!(piece(f.state_column(0), 409_599), 92_159_799);
}

#[test]
fn pieces_at_the_upper_end() {
    let f = read(&tape_m9()).unwrap();
    // 8192 × (300 − 250) = 409,600: from s = −409,600 down the upper end is the least.
    // 4096 × 2500 − 409,600 × 300.
    assert_eq!(piece(f.state_column(0), -409_600), -112_640_000);
    assert_eq!(piece(f.state_column(0), -409_601), -112_640_300);
    // −409,599 × 250 − 409,599² / 16,384, the quotient 10,239,950.00006 rounded up.
    assert_eq!(piece(f.state_column(0), -409_599), -112_639_701);
}

#[test]
fn piece_of_a_single_number() {
    let column = Column {
        lo: 7,
        hi: 7,
        reference: 5,
        weight: 1,
    };
    // 4096 × 4 + 7 s, whichever end is tested.
    assert_eq!(piece(&column, 10), 16_454);
    assert_eq!(piece(&column, -100_000), 16_384 - 700_000);
}

#[test]
fn slip_of_tape_f() {
    // s = −16 × 2048: (8192 v − 32,768)² is at most 16,384 × 32,768 = 2^29, so 8192 v is within 23,170
    // of 32,768, and v from 1.17 to 6.83 (request 8).
    let text = "proved\nrounds 2\ngap 32768\nfirst 4\nrange 1 7\n";
    assert_eq!(slip(&tape_f()), text);
    let without_search = hex(&format!("{F_FRONT} FF"));
    assert_eq!(slip(&without_search), "refused 7 at 36\n");
    assert_eq!(slip(&[]), "refused 1 at 0\n");
    // Round 0 gives e = 409,600 − 4096 × 250 and y = −234, whose floor is 92,991,488.
    assert_eq!(slip(&tape_m9()), "impossible\nrounds 2\n");
}

#[test]
fn slip_of_two_inputs() {
    // At T's largest the candidate of round 0 is proved: the reference inputs 0 and 1.
    let tape = with_search(PAIR_FRONT, 1, 1, u32::MAX);
    // x(1) = 10 + 10 + 0, 20 + 2 + 1 = 20, 23; x(2) = 20 + 11.5 + 0, 23 + 2 + 1 = 32, 26 with
    // the half rounded up. K = 4096 × (0 + 2 × 4 + 144 + 2 × 1) = 4096 × 154, floor 0.
    // With slopes of 0: 3 v² and 4 (v − 1)² are at most 154, v² at most 51.3 and (v − 1)² at most 38.5.
    assert_eq!(
        slip(&tape),
        "proved\nrounds 1\ngap 630784\nfirst 0 1\nrange -8 8\nrange -6 8\n"
    );
}

#[test]
fn solve_fills_the_slices() {
    let (mut plan, mut multipliers) = ([7, 8], [9]);
    let answer = solve(&tape_f(), &mut plan, &mut multipliers);
    let proved = Solved::Proved {
        rounds: 2,
        gap: 32_768,
        first: [4, 0, 0, 0],
    };
    assert_eq!(answer, Ok(proved));
    assert_eq!((plan, multipliers), ([4, 102], [-16]));

    let (mut plan, mut multipliers) = ([7, 8], [9]);
    let answer = solve(&tape_m9(), &mut plan, &mut multipliers);
    assert_eq!(answer, Ok(Solved::Impossible { rounds: 2 }));
    assert_eq!((plan, multipliers), ([7, 8], [-234]));
}

#[test]
fn rounds_with_momentum() {
    // F with g = 10, T = 0. Columns: y, y~, u and x of step 2, e.
    // Round 0: e = 409,600 − 4096 × 110; (−40,960 × 10 + 32,768) / 65,536 = −5.75.
    // Round 1: factor 0; u = 16,384 / 8192, x = 880,640 / 8192 = 107.5; −3.25.
    // Round 2: −10 + 1 × −4 / 4; u = 3.25, x = 105; −1.6875.
    // Round 3: −13 + 2 × (−13 − −10) / 5 = −13 + (−1.2 rounded down); u = 4.25, x = 103;
    //          e = 417,792 − 421,888; (−40,960 + 32,768) / 65,536 = −0.125.
    // Round 4: −16 + 3 × (−16 − −13) / 6 = −16 + (−1.5 rounded down) = −18; u = 5, x = 101.5.
    let expected = [
        (0, 0, 0, 110, -40_960),
        (-6, -6, 2, 107, -24_576),
        (-10, -11, 3, 105, -14_336),
        (-13, -15, 4, 103, -4_096),
        (-16, -18, 5, 101, 6_144),
    ];
    let rounds = rounds_of(&with_search(F_FRONT, 10, 5, 0));
    assert_eq!(rounds.len(), 5);
    for (k, (round, expected)) in rounds.iter().zip(expected).enumerate() {
        let found = (
            round.y[0][0],
            round.y_tilde[0][0],
            round.numbers.u[0][0],
            round.numbers.x[1][0],
            round.residuals[0][0],
        );
        assert_eq!(found, expected, "round {k}");
        assert_eq!(round.k, k as u32);
        assert_eq!(round.numbers.x[0], [100]);
    }
    // (6,144 × 10 + 32,768) / 65,536 = 1.4375.
    assert_eq!(rounds[4].ending, Ending::Next(vec![vec![-17]]));
    // The candidate of round 3: u 4 gives x 102, not step 2's 103. Floor of −15:
    // −57,600 + 61,440 × 110 − 230,400 − 15 × 409,600 − 30,720 = 295,680.
    let candidate = Candidate::Follows {
        plan: one_step(4, 102),
        cost: 327_680,
        gap: 32_000,
    };
    assert_eq!(
        (rounds[3].floor, &rounds[3].candidate),
        (295_680, &candidate)
    );
}

#[test]
fn proved_when_the_gap_is_at_most_the_wanted_one() {
    // The rounds above. Gaps of rounds 0 to 4: 409,600; 348,160 − 187,392 = 160,768;
    // 299,008 − 273,152 = 25,856; 32,000; 303,104 − 285,696 = 17,408.
    let third = (3, 25_856, [3, 102], -11);
    let fifth = (5, 17_408, [5, 103], -18);
    let all = [(25_856, third), (25_855, fifth), (17_408, fifth)];
    for (wanted, (rounds, gap, plan, multiplier)) in all {
        let (mut left_plan, mut left_multipliers) = ([0, 0], [0]);
        let tape = with_search(F_FRONT, 10, 5, wanted);
        let answer = solve(&tape, &mut left_plan, &mut left_multipliers);
        let first = [plan[0], 0, 0, 0];
        assert_eq!(answer, Ok(Solved::Proved { rounds, gap, first }));
        assert_eq!((left_plan, left_multipliers), (plan, [multiplier]));
    }
    let tape = with_search(F_FRONT, 10, 5, 17_407);
    assert_eq!(slip(&tape), "open\nrounds 5\n");
}

#[test]
fn rounds_limited_to_the_multiplier_range() {
    // A and B absent, w = 16,777,216, so x(1) = 4096; state limits −20,000 to 20,000 and
    // r = −20,000; g = 65,535.
    let front = "10 01 01 01  22 00 00 00 00 01  30 00 E0 B1 20 4E E0 B1 01 \
        30 01 00 00 00 00 00 00 01  40 00 00 00";
    let rounds = rounds_of(&with_search(front, 65_535, 4, 0));
    let y: Vec<Whole> = rounds.iter().map(|round| round.y[0][0]).collect();
    let y_tilde: Vec<Whole> = rounds.iter().map(|round| round.y_tilde[0][0]).collect();
    // Round 0: e = 16,777,216 + 81,920,000. Round 1: x at its upper limit, e = 16,777,216 −
    // 81,920,000. Round 2: y~ = −16,777,216 + 1 × −33,554,432 / 4 before limiting; x at its
    // lower limit.
    assert_eq!(y, [0, 16_777_216, -16_777_216, 16_777_216]);
    assert_eq!(y_tilde, [0, 16_777_216, -16_777_216, 16_777_216]);
    assert_eq!(rounds[1].residuals[0][0], 16_777_216 - 81_920_000);
    assert_eq!(rounds[2].residuals[0][0], 16_777_216 + 81_920_000);
}

#[test]
fn dropped_candidate_leaves_the_rounds_going() {
    let rounds = rounds_of(&tape_m9());
    let dropped = Candidate::Dropped {
        step: 0,
        column: 0,
        number: 100,
    };
    assert_eq!(rounds[0].candidate, dropped);
    assert_eq!(rounds[0].ending, Ending::Next(vec![vec![-234]]));
    // Input 40 gives x 120, dropped again; impossibility is tested all the same.
    let dropped = Candidate::Dropped {
        step: 0,
        column: 0,
        number: 120,
    };
    assert_eq!(rounds[1].candidate, dropped);
    assert_eq!(
        (rounds[1].floor, rounds[1].ceiling),
        (92_991_488, 16_793_600)
    );
    assert_eq!(rounds[1].ending, Ending::Impossible);
}

/// A plan of the tape with two states and two inputs, worked out by hand.
const PAIR_PLAN: [i32; 8] = [1, 2, 21, 24, 3, 4, 36, 30];

#[test]
fn two_states_two_inputs_two_steps() {
    let tape = with_search(PAIR_FRONT, 1, 1, 1_525_206);
    let f = read(&tape).unwrap();
    let plan = Plan {
        u: vec![vec![1, 2], vec![3, 4]],
        x: vec![vec![10, 20], vec![21, 24], vec![36, 30]],
    };
    // Inputs 3 × 1 + 4 × 1, states 1 + 2 × 1, inputs 3 × 9 + 4 × 9, states 256 + 2 × 25.
    assert_eq!(cost(&f, &plan), 4096 * (7 + 3 + 63 + 306));
    let y = vec![vec![1, 2], vec![3, -4]];
    let inputs = [(0, 0), (0, 1), (1, 0), (1, 1)].map(|(k, j)| input_slope(&f, &y, k, j));
    assert_eq!(inputs, [4_096, 8_192, 12_288, -16_384]);
    // x(1,0): −4096 + 3 × 4096 − 4 × 0. x(1,1): −8192 + 3 × 2048 − 4 × 4096.
    let states = [(1, 0), (1, 1), (2, 0), (2, 1)].map(|(k, i)| state_slope(&f, &y, k, i));
    assert_eq!(states, [8_192, -18_432, -12_288, 16_384]);
    // 4,096² / 49,152 = 341.33 is 342 upwards. The other quotients are whole: 8,192² / 65,536,
    // 12,288² / 49,152, 16,384² / 65,536; 8,192² / 16,384, 18,432² / 32,768, 12,288² / 16,384,
    // 16,384² / 32,768.
    let by_hand = -342 + 7_168 - 3_072 - 20_480 + 159_744 - 471_168 - 254_976 + 401_408;
    assert_eq!(pieces(&f, &y), by_hand);
    // (2 − 4) × 8192 + 1 × (40,960 + 40,960) + 2 × 81,920.
    assert_eq!(constant(&f, &y), 229_376);
    // Less 2048 × 10. With 341 the floor would be 27,179.
    assert_eq!((floor(&f, &y), lowered(&f, &y)), (27_178, 1));
    assert_eq!(judge_plan(&tape, &PAIR_PLAN, &[1, 2, 3, -4]), Ok(1_525_206));
    let less = with_search(PAIR_FRONT, 1, 1, 1_525_205);
    let refused = judge_plan(&less, &PAIR_PLAN, &[1, 2, 3, -4]);
    let (cost, floor) = (4096 * 379, 27_178);
    assert_eq!(refused, Err(Refusal::Wide { cost, floor }));
    // x(1,0) = 10 + 20 / 2 + 1 leaves nothing over.
    assert_eq!(residual(&f, &plan, 0, 0), 0);
    let off = Plan {
        x: vec![vec![10, 20], vec![21, 24], vec![35, 31]],
        ..plan
    };
    assert_eq!(residual(&f, &off, 1, 0), 4_096);
    assert_eq!(residual(&f, &off, 1, 1), -4_096);
}

#[test]
fn read_gives_each_number() {
    let furnace = read(&with_search(PAIR_FRONT, 3, 10_000, 0xffff_fffe)).unwrap();
    let column = |reference, weight| Column {
        lo: -1000,
        hi: 1000,
        reference,
        weight,
    };
    let expected = Furnace {
        states: 2,
        inputs: 2,
        horizon: 2,
        a: vec![vec![4096, 2048], vec![0, 4096]],
        b: vec![vec![4096, 0], vec![0, 4096]],
        drift: vec![0, 8192],
        columns: vec![column(20, 1), column(25, 2), column(0, 3), column(1, 4)],
        curves: vec![None; 4],
        start: vec![10, 20],
        correction: Correction::Gain,
        step_size: 3,
        rounds: 10_000,
        wanted_gap: 4_294_967_294,
    };
    assert_eq!(furnace, expected);
}
