//! Each refusal, in several places, and two refusals at once.

mod refused;
mod reported;
mod tapes;

use reference::generate::commands;
use reference::*;
use refused::*;
use reported::*;
use tapes::*;

/// One state, one input, one step: 4 bytes.
const ONE: &str = "10 01 01 01";

/// One state, two inputs, one step.
const TWO_INPUTS: &str = "10 01 02 01";

/// Two states, one input, one step.
const TWO_STATES: &str = "10 02 01 01";

#[test]
fn numbers_words_and_carried() {
    let all = [
        (Refusal::Cut { offset: 3 }, "cut", Some(3)),
        (Refusal::Unknown { offset: 3 }, "unknown", Some(3)),
        (Refusal::Misplaced { offset: 3 }, "misplaced", Some(3)),
        (Refusal::NoSuchPlace { offset: 3 }, "no such place", Some(3)),
        (Refusal::OutOfRange { offset: 3 }, "out of range", Some(3)),
        (Refusal::Twice { offset: 3 }, "twice", Some(3)),
        (Refusal::Absent { offset: 3 }, "absent", Some(3)),
        (Refusal::Overrun { offset: 3 }, "overrun", Some(3)),
        (Refusal::Length, "length", None),
        (off_model(1, 2, 3, 4), "off model", None),
        (over_limit(1, 2, 3, 4), "over limit", None),
        (Refusal::Multiplier, "multiplier", None),
        (wide(4, 3), "wide", None),
        (Refusal::NotShown, "not shown", None),
        (Refusal::Open { rounds: 3 }, "open", Some(3)),
        (Refusal::NotFinite { entry: Some(3) }, "not finite", Some(3)),
        (Refusal::TooLarge { entry: Some(3) }, "too large", Some(3)),
        (Refusal::Weightless { offset: 3 }, "weightless", Some(3)),
    ];
    for (index, (refusal, word, carried)) in all.into_iter().enumerate() {
        assert_eq!(refusal.number() as usize, index + 1);
        assert_eq!(refusal.word(), word);
        assert_eq!(refusal.carried(), carried);
    }
    for (refusal, number, word) in [
        (Refusal::ArgumentOutOfRange, 5, "out of range"),
        (Refusal::NotFinite { entry: None }, 16, "not finite"),
        (Refusal::TooLarge { entry: None }, 17, "too large"),
    ] {
        assert_eq!((refusal.number(), refusal.word()), (number, word));
        assert_eq!(refusal.carried(), None);
    }
}

#[test]
fn refusal_1_cut() {
    // Inside a command: its offset. Before FF: the tape's length.
    all_refused("", 1, &[("", 0), ("10", 0), ("10 01 01", 0), (ONE, 4)]);
    all_refused(
        ONE,
        1,
        &[("20 00 00 00", 4), ("50 01 00 01 00 00 00 00", 4)],
    );
    all_refused(ONE, 1, &[("40 00 64 00", 8), ("40 00 64 00 30", 8)]);
    // An FF among the operands is not the end.
    all_refused(ONE, 1, &[("22 00 FF FF FF FF", 10), ("40 FF FF", 4)]);
    let f = tape_f();
    refused(&f[..45], 1, 45);
    refused(&f[..44], 1, 36);
    refused(&f[..36], 1, 36);
    refused(&f[..35], 1, 32);
}

#[test]
fn refusal_1_before_others() {
    // With 3: a first command that is not 10, and a second 10.
    all_refused("", 1, &[("20", 0), ("50 00", 0), ("40 09 FF", 0)]);
    all_refused(ONE, 1, &[("10", 4), ("10 07 00", 4)]);
    // With 4, 5 and 6.
    all_refused(ONE, 1, &[("20 01 01", 4), ("22 01 FF FF FF", 4)]);
    all_refused("", 1, &[("10 00 00", 0), ("10 07", 0)]);
    all_refused(ONE, 1, &[("40 00 64 00 40 00 64", 8)]);
}

#[test]
fn refusal_2_unknown() {
    // First, in the middle, last. An unknown byte has no operands and is never cut.
    all_refused(
        "",
        2,
        &[("00", 0), ("11", 0), ("FE FF", 0), ("01 01 01 01", 0)],
    );
    all_refused(ONE, 2, &[("23", 4), ("00 FF", 4), ("40 00 64 00 32", 8)]);
    all_refused(
        F_FRONT,
        2,
        &[("52", 36), ("50 19 00 05 00 40 9C 00 00 60", 45)],
    );
}

#[test]
fn refusal_3_misplaced() {
    all_refused(
        "",
        3,
        &[("FF", 0), ("20 00 00 00 10", 0), ("22 00 00 00 00 00", 0)],
    );
    all_refused(
        ONE,
        3,
        &[("10 01 01 01", 4), ("40 00 64 00 10 02 02 02 FF", 8)],
    );
    // With 4 and 5.
    all_refused(
        "",
        3,
        &[("40 09 FF 7F", 0), ("50 00 00 00 00 00 00 00 00", 0)],
    );
    all_refused(ONE, 3, &[("10 00 00 00", 4), ("10 07 05 0D", 4)]);
    // With 7 and 8: FF comes to those only when 10 was first.
    all_refused("", 3, &[("FF FF", 0), ("FF 10 01 01 01", 0)]);
}

#[test]
fn refusal_4_no_such_place() {
    all_refused(ONE, 4, &[("20 01 00 00 00", 4), ("20 00 01 00 00", 4)]);
    all_refused(ONE, 4, &[("21 01 00 00 00", 4), ("21 00 01 00 00", 4)]);
    all_refused(
        ONE,
        4,
        &[("22 01 00 00 00 00", 4), ("22 FF 00 00 00 00", 4)],
    );
    all_refused(ONE, 4, &[("30 02 00 00 00 00 00 00 01", 4)]);
    all_refused(ONE, 4, &[("40 00 00 00 40 01 00 00", 8)]);
    // The second index of A is a state, that of B an input; 40 takes no input's column.
    all_refused(
        TWO_INPUTS,
        4,
        &[("20 00 01 00 00", 4), ("21 01 00 00 00", 4)],
    );
    all_refused(TWO_INPUTS, 4, &[("40 01 00 00", 4), ("21 00 02 00 00", 4)]);
    all_refused(
        TWO_STATES,
        4,
        &[("21 00 01 00 00", 4), ("21 02 00 00 00", 4)],
    );
    all_refused(TWO_STATES, 4, &[("30 03 00 00 00 00 00 00 01", 4)]);
}

#[test]
fn refusal_4_before_5() {
    all_refused(ONE, 4, &[("20 01 00 FF 7F", 4), ("20 00 01 FF 7F", 4)]);
    all_refused(ONE, 4, &[("21 01 00 FF 7F", 4), ("21 00 01 FF 7F", 4)]);
    all_refused(ONE, 4, &[("22 01 FF FF FF 7F", 4), ("40 01 FF 7F", 4)]);
    all_refused(ONE, 4, &[("30 02 01 00 00 00 00 00 01", 4)]);
    all_refused(ONE, 4, &[("30 02 00 00 00 00 00 00 00", 4)]);
    all_refused(ONE, 4, &[("30 02 00 00 00 00 21 4E 00", 4)]);
}

#[test]
fn refusal_5_sizes() {
    all_refused(
        "",
        5,
        &[("10 00 01 01", 0), ("10 01 00 01", 0), ("10 01 01 00", 0)],
    );
    all_refused(
        "",
        5,
        &[("10 07 01 01", 0), ("10 01 05 01", 0), ("10 01 01 0D", 0)],
    );
    all_refused(
        "",
        5,
        &[("10 FF 01 01", 0), ("10 01 FF 01", 0), ("10 01 01 FF", 0)],
    );
    // Before the tape is found to be cut after the command.
    all_refused("", 5, &[("10 00 00 00 FF", 0)]);
}

#[test]
fn refusal_5_entries() {
    // 16,385 and −16,385 in A and B, 16,777,217 and −16,777,217 in w.
    all_refused(ONE, 5, &[("20 00 00 01 40", 4), ("20 00 00 FF BF", 4)]);
    all_refused(ONE, 5, &[("21 00 00 01 40", 4), ("21 00 00 FF BF", 4)]);
    all_refused(
        ONE,
        5,
        &[("22 00 01 00 00 01", 4), ("22 00 FF FF FF FE", 4)],
    );
    // 20,001 and −20,001 as a start.
    all_refused(ONE, 5, &[("40 00 21 4E", 4), ("40 00 DF B1", 4)]);
}

#[test]
fn refusal_5_columns_and_search() {
    let columns = [
        "30 00 DF B1 00 00 00 00 01", // lo −20,001
        "30 00 21 4E 21 4E 00 00 01", // lo 20,001
        "30 01 00 00 21 4E 00 00 01", // hi 20,001
        "30 01 DF B1 DF B1 00 00 01", // hi −20,001
        "30 00 00 00 00 00 21 4E 01", // r 20,001
        "30 01 00 00 00 00 DF B1 01", // r −20,001
        "30 00 01 00 00 00 00 00 01", // lo 1, hi 0
        "30 01 00 00 FF FF 00 00 01", // lo 0, hi −1
        "30 00 00 00 00 00 21 4E 00", // r 20,001, weight 0
        "30 01 01 00 00 00 00 00 00", // lo 1, hi 0, weight 0
    ];
    for column in columns {
        all_refused(ONE, 5, &[(column, 4)]);
    }
    let searches = [
        "50 00 00 01 00 00 00 00 00", // g 0
        "50 01 00 00 00 00 00 00 00", // R 0
        "50 01 00 11 27 00 00 00 00", // R 10,001
        "50 FF FF FF FF FF FF FF FF", // R 65,535
    ];
    for search in searches {
        all_refused(ONE, 5, &[(search, 4)]);
    }
}

#[test]
fn refusal_5_before_6() {
    all_refused(ONE, 5, &[("20 00 00 00 00 20 00 00 01 40", 9)]);
    all_refused(ONE, 5, &[("40 00 00 00 40 00 21 4E", 8)]);
    all_refused(F_FRONT, 5, &[("30 00 00 00 00 00 21 4E 00", 36)]);
    let twice = "50 01 00 01 00 00 00 00 00 50 00 00 01 00 00 00 00 00";
    all_refused(ONE, 5, &[(twice, 13)]);
}

#[test]
fn refusal_6_twice() {
    all_refused(
        F_FRONT,
        6,
        &[("20 00 00 00 10", 36), ("20 00 00 00 00", 36)],
    );
    all_refused(
        F_FRONT,
        6,
        &[("21 00 00 00 08", 36), ("21 00 00 01 00", 36)],
    );
    all_refused(F_FRONT, 6, &[("30 00 18 FC E8 03 6E 00 01", 36)]);
    all_refused(F_FRONT, 6, &[("30 01 00 00 00 00 00 00 01", 36)]);
    all_refused(F_FRONT, 6, &[("30 00 00 00 00 00 00 00 00", 36)]);
    all_refused(F_FRONT, 6, &[("40 00 64 00", 36), ("40 00 00 00 FF", 36)]);
    // A 0 that was given counts.
    all_refused(ONE, 6, &[("20 00 00 00 00 20 00 00 00 00", 9)]);
    all_refused(ONE, 6, &[("21 00 00 00 00 21 00 00 00 00", 9)]);
    all_refused(ONE, 6, &[("22 00 00 00 00 00 22 00 00 00 00 00", 10)]);
    let search = "50 01 00 01 00 00 00 00 00";
    all_refused(ONE, 6, &[(&format!("{search} {search}"), 13)]);
    all_refused(
        ONE,
        6,
        &[(&format!("{search} 50 02 00 02 00 01 00 00 00"), 13)],
    );
    // A(0,1) and A(1,0) are two places.
    all_refused(
        TWO_STATES,
        6,
        &[("20 00 01 00 00 20 01 00 00 00 20 01 00 00 00", 14)],
    );
}

#[test]
fn refusal_7_absent() {
    all_refused(ONE, 7, &[("FF", 4)]);
    all_refused(F_FRONT, 7, &[("FF", 36)]);
    let search = "50 01 00 01 00 00 00 00 00";
    let column_0 = "30 00 00 00 00 00 00 00 01";
    let column_1 = "30 01 00 00 00 00 00 00 01";
    let start = "40 00 00 00";
    all_refused(
        ONE,
        7,
        &[(&format!("{search} {column_0} {column_1} FF"), 31)],
    );
    all_refused(ONE, 7, &[(&format!("{search} {column_0} {start} FF"), 26)]);
    all_refused(ONE, 7, &[(&format!("{search} {column_1} {start} FF"), 26)]);
    // Before 8.
    all_refused(ONE, 7, &[("FF 00", 4), ("FF FF", 4)]);
    // With all four it is accepted, though A, B and w are absent.
    let whole = format!("{ONE} {search} {column_0} {column_1} {start} FF");
    let furnace = read(&hex(&whole)).unwrap();
    assert_eq!((furnace.a, furnace.b), (vec![vec![0]], vec![vec![0]]));
    assert_eq!(furnace.drift, [0]);
}

#[test]
fn refusal_8_overrun() {
    let f = "50 19 00 05 00 40 9C 00 00 FF";
    all_refused(
        F_FRONT,
        8,
        &[(&format!("{f} 00"), 46), (&format!("{f} FF"), 46)],
    );
    all_refused(F_FRONT, 8, &[(&format!("{f} 40 00 64 00"), 46)]);
    let mut long = with_search(PAIR_FRONT, 1, 1, 0);
    let length = long.len();
    long.extend([0; 600]);
    refused(&long, 8, length);
}

#[test]
fn longest_tape_without_curves() {
    let tape = full_commands().concat();
    assert_eq!(tape.len(), 464);
    let furnace = read(&tape).unwrap();
    assert_eq!(furnace.plan_length(), 120);
    assert_eq!(furnace.multipliers_length(), 72);
    assert_eq!(furnace.a, vec![vec![-16_384; 6]; 6]);
    assert_eq!(furnace.b, vec![vec![16_384; 4]; 6]);
    assert_eq!(furnace.drift, [-16_777_216; 6]);
    assert_eq!(furnace.start, [20_000; 6]);
    assert_eq!((furnace.step_size, furnace.rounds), (65_535, 10_000));
    assert_eq!(furnace.wanted_gap, 4_294_967_295);
    // One byte more, one byte fewer, and a second 50 in place of FF.
    let mut longer = tape.clone();
    longer.push(0);
    refused(&longer, 8, 464);
    refused(&tape[..463], 1, 463);
    let again = [&tape[..463], &commands::search(1, 1, 0)].concat();
    refused(&again, 6, 463);
}

#[test]
fn steps_12_and_13() {
    let tape = hex(
        "10 01 01 0C 30 00 00 00 00 00 00 00 01 30 01 00 00 00 00 00 00 01 \
        40 00 00 00 50 01 00 01 00 00 00 00 00 FF",
    );
    let furnace = read(&tape).unwrap();
    assert_eq!(furnace.horizon, 12);
    assert_eq!(judge_plan(&tape, &[0; 24], &[0; 12]), Ok(0));
    let mut more = tape.clone();
    more[3] = 13;
    refused(&more, 5, 0);
}

#[test]
fn refusal_9_length() {
    let f = tape_f();
    for plan in [&[][..], &[4], &[4, 102, 0]] {
        assert_eq!(judge_plan(&f, plan, &[-16]), Err(Refusal::Length));
        let (mut copy, mut multipliers) = (plan.to_vec(), [5]);
        let solved = solve(&f, &mut copy, &mut multipliers);
        assert_eq!(solved, Err(Refusal::Length));
        assert_eq!((&copy[..], multipliers), (plan, [5]));
    }
    for multipliers in [&[][..], &[-16, 0]] {
        let judged = judge_plan(&f, &[4, 102], multipliers);
        assert_eq!(judged, Err(Refusal::Length));
        let judged = judge_multipliers(&f, multipliers);
        assert_eq!(judged, Err(Refusal::Length));
        let (mut plan, mut copy) = ([6, 7], multipliers.to_vec());
        let solved = solve(&f, &mut plan, &mut copy);
        assert_eq!(solved, Err(Refusal::Length));
        assert_eq!((plan, &copy[..]), ([6, 7], multipliers));
    }
    // The two lengths exchanged, on a tape where they differ.
    let pair = with_search(PAIR_FRONT, 1, 1, 0);
    assert_eq!(judge_plan(&pair, &[0; 4], &[0; 8]), Err(Refusal::Length));
    // Before 12.
    assert_eq!(judge_plan(&f, &[4], &[i32::MAX]), Err(Refusal::Length));
    let judged = judge_multipliers(&f, &[i32::MAX, 0]);
    assert_eq!(judged, Err(Refusal::Length));
}

#[test]
fn refusal_10_off_model() {
    for state in [101, 103, -102, i32::MIN, i32::MAX] {
        let judged = judge_plan(&tape_f(), &[4, state], &[-16]);
        assert_eq!(judged, Err(off_model(0, 0, state, 102)));
    }
    // Also outside its limits (200 to 300): 10 before 11.
    let judged = judge_plan(&tape_m9(), &[4, 103], &[0]);
    assert_eq!(judged, Err(off_model(0, 0, 103, 102)));
    // The second state of the second step: 24 + 4 + 2.
    let pair = with_search(PAIR_FRONT, 1, 1, u32::MAX);
    let judged = judge_plan(&pair, &[1, 2, 21, 24, 3, 4, 36, 31], &[0; 4]);
    assert_eq!(judged, Err(off_model(1, 1, 31, 30)));
    // In step 0, before an input outside its limits in step 1: 20 + 2 + 2.
    let judged = judge_plan(&pair, &[1, 2, 21, 25, 3000, 4, 36, 30], &[0; 4]);
    assert_eq!(judged, Err(off_model(0, 1, 25, 24)));
}

#[test]
fn refusal_11_over_limit() {
    // An input, before its step's state is off the model.
    for (input, limit) in [(-1, 0), (41, 40), (i32::MIN, 0), (i32::MAX, 40)] {
        let judged = judge_plan(&tape_f(), &[input, 0], &[-16]);
        assert_eq!(judged, Err(over_limit(0, 1, input, limit)));
    }
    // A state that meets the model: u 4 gives x 102, outside 200 to 300.
    let judged = judge_plan(&tape_m9(), &[4, 102], &[0]);
    assert_eq!(judged, Err(over_limit(0, 0, 102, 200)));
    // The second input of a step, before the first state, which is off the model.
    let pair = with_search(PAIR_FRONT, 1, 1, u32::MAX);
    let judged = judge_plan(&pair, &[1, 1001, 0, 0, 3, 4, 36, 30], &[0; 4]);
    assert_eq!(judged, Err(over_limit(0, 3, 1001, 1000)));
    // State 0 over its limit, before state 1, which is off the model: hi of state 0 is 20.
    let low = PAIR_FRONT.replace("30 00 18 FC E8 03", "30 00 18 FC 14 00");
    let low = with_search(&low, 1, 1, u32::MAX);
    let judged = judge_plan(&low, &[1, 2, 21, 25, 3, 4, 36, 30], &[0; 4]);
    assert_eq!(judged, Err(over_limit(0, 0, 21, 20)));
    // Inputs at their ends are within: 4096 × 10², and 4096 × (40² + 10²).
    let judged = judge_plan(&tape_f(), &[0, 100], &[-16]);
    assert_eq!(judged, Err(wide(409_600, 294_912)));
    let judged = judge_plan(&tape_f(), &[40, 120], &[-16]);
    assert_eq!(judged, Err(wide(6_963_200, 294_912)));
}

#[test]
fn refusal_12_multiplier() {
    for multiplier in [16_777_217, -16_777_217, i32::MIN, i32::MAX] {
        // Before 10, 11 and 13, and before 14.
        for plan in [[4, 102], [4, 0], [41, 0]] {
            let judged = judge_plan(&tape_f(), &plan, &[multiplier]);
            assert_eq!(judged, Err(Refusal::Multiplier));
        }
        let judged = judge_multipliers(&tape_m9(), &[multiplier]);
        assert_eq!(judged, Err(Refusal::Multiplier));
    }
    // Both ends are within. At 2^24 the input is at 0 and the state at 1000, at −2^24 they are at 40
    // and at −1000: 4096 × 890² − 2^36 × 1000 + 2^24 × 409,600 − 2^24 × 2048, and
    // 4096 × (40² + 1110²) − 2^35 × 40 − 2^36 × 1000 − 2^24 × 409,600 − 2^24 × 2048.
    for (multiplier, floor) in [
        (16_777_216, -61_878_644_359_168),
        (-16_777_216, -76_995_120_447_488),
    ] {
        let judged = judge_plan(&tape_f(), &[4, 102], &[multiplier]);
        assert_eq!(judged, Err(wide(327_680, floor)));
    }
    // Only the last of four is outside; the plan is off the model in its first step.
    let pair = with_search(PAIR_FRONT, 1, 1, 0);
    let judged = judge_plan(&pair, &[0; 8], &[0, 0, 0, 16_777_217]);
    assert_eq!(judged, Err(Refusal::Multiplier));
}

#[test]
fn refusal_13_wide() {
    // y = 0: floor 0, so the gap is K = 327,680.
    let judged = judge_plan(&tape_f(), &[4, 102], &[0]);
    assert_eq!(judged, Err(wide(327_680, 0)));
    let judge = |wanted| judge_plan(&tape_f_gap(wanted), &[4, 102], &[0]);
    assert_eq!(judge(327_679), Err(wide(327_680, 0)));
    assert_eq!(judge(327_680), Ok(327_680));
}

#[test]
fn refusal_14_not_shown() {
    assert_eq!(judge_multipliers(&tape_f(), &[-16]), Err(Refusal::NotShown));
    assert_eq!(judge_multipliers(&tape_m9(), &[0]), Err(Refusal::NotShown));
    assert_eq!(
        judge_multipliers(&tape_m9(), &[100]),
        Err(Refusal::NotShown)
    );
    // The lowest multiplier: both numbers at their ends 200 and 40, so that the floor is their
    // costs and 16,777,216 × (4096 × 200 − 2048 × 40 − 409,600 − 2048).
    assert_eq!(judge_multipliers(&tape_m9(), &[-16_777_216]), Ok(Shown));
    // A floor equal to the ceiling does not exceed it: all limits are the reference.
    let fixed = hex(
        "10 01 01 01 30 00 05 00 05 00 05 00 01 30 01 00 00 00 00 00 00 01 \
        40 00 00 00 50 01 00 01 00 00 00 00 00 FF",
    );
    assert_eq!(judge_multipliers(&fixed, &[0]), Err(Refusal::NotShown));
    // There x(1) is 0, not 5. y = −1: 4096 × 5 − 2048 exceeds 0.
    assert_eq!(judge_multipliers(&fixed, &[-1]), Ok(Shown));
}

#[test]
fn refusal_15_open() {
    // The fixed point of F's rounds has gap 32,768.
    for rounds in [1, 2, 5, 10_000] {
        let tape = with_search(F_FRONT, 25, rounds, 32_767);
        let (mut plan, mut multipliers) = ([7, 8], [9]);
        let solved = solve(&tape, &mut plan, &mut multipliers);
        let rounds = u32::from(rounds);
        assert_eq!(solved, Err(Refusal::Open { rounds }));
        assert_eq!((plan, multipliers), ([7, 8], [9]));
        assert_eq!(slip(&tape), format!("open\nrounds {rounds}\n"));
    }
    // One round too few for the answer that comes in round 2.
    let tape = with_search(F_FRONT, 25, 1, 40_000);
    assert_eq!(slip(&tape), "open\nrounds 1\n");
    let tape = with_search(F_FRONT, 25, 2, 40_000);
    assert_eq!(slip(&tape), slip(&tape_f()));
    let tape = with_search(M9_FRONT, 25, 1, 40_000);
    assert_eq!(slip(&tape), "open\nrounds 1\n");
}
