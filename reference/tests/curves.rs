//! Command 31: its refusals, and figures with curves worked out by hand.

mod refused;
mod tapes;

use reference::cases::reference_numbers;
use reference::floor::{ceiling, constant, floor, gap, pieces};
use reference::generate::commands;
use reference::model::{cost, Plan};
use reference::rounds::{Candidate, Ending};
use reference::*;
use refused::*;
use tapes::*;

/// One state, one input, one step: 4 bytes.
const ONE: &str = "10 01 01 01";

/// One state, one input, twelve steps.
const TWELVE: &str = "10 01 01 0C";

/// Two states, one input, three steps.
const THREE_COLUMNS: &str = "10 02 01 03";

/// What else a tape of one state and one input needs: 31 bytes.
const REST: &str = "30 00 00 00 00 00 00 00 01  30 01 00 00 00 00 00 00 01 \
    40 00 00 00  50 01 00 01 00 00 00 00 00";

/// A state's curve of two steps, 104 and 112.
const STATE_CURVE: &str = "31 00 00 68 00  31 00 01 70 00";

/// An input's curve of two steps, 2 and 6.
const INPUT_CURVE: &str = "31 01 00 02 00  31 01 01 06 00";

/// Document 01's tape F with two steps, up to its command 50: 36 bytes.
fn two_steps() -> String {
    F_FRONT.replace("10 01 01 01", "10 01 01 02")
}

/// [`two_steps`] with curves on both columns.
fn both_curves() -> String {
    format!("{} {STATE_CURVE} {INPUT_CURVE}", two_steps())
}

#[test]
fn cut() {
    // Known, so that it can be cut: at its own offset.
    for rest in ["31", "31 00", "31 00 00", "31 00 00 6E"] {
        all_refused(ONE, 1, &[(rest, 4)]);
        // Before 3.
        all_refused("", 1, &[(rest, 0)]);
    }
    // Before 4, and before 6.
    all_refused(ONE, 1, &[("31 09 09 00", 4)]);
    all_refused(ONE, 1, &[("31 00 00 6E 00 31 00 00 6E", 9)]);
    // Whole: the tape ends before FF.
    all_refused(ONE, 1, &[("31 00 00 6E 00", 9)]);
}

#[test]
fn misplaced() {
    all_refused("", 3, &[("31 00 00 6E 00", 0), ("31 00 00 6E 00 FF", 0)]);
    // Before 4 and 5.
    all_refused("", 3, &[("31 09 0C 6E 00", 0), ("31 00 00 FF 7F", 0)]);
}

#[test]
fn no_such_place() {
    // Columns 0 and 1, step 0.
    for rest in [
        "31 02 00 6E 00",
        "31 FF 00 6E 00",
        "31 00 01 6E 00",
        "31 00 FF 6E 00",
        "31 02 01 6E 00",
    ] {
        all_refused(ONE, 4, &[(rest, 4)]);
    }
    // Columns 0 to 2, steps 0 to 2.
    all_refused(
        THREE_COLUMNS,
        4,
        &[("31 03 02 6E 00", 4), ("31 02 03 6E 00", 4)],
    );
    all_refused(THREE_COLUMNS, 1, &[("31 02 02 6E 00", 9)]);
    // Steps 0 to 11.
    all_refused(TWELVE, 4, &[("31 00 0C 6E 00", 4), ("31 01 0D 6E 00", 4)]);
    all_refused(TWELVE, 1, &[("31 01 0B 6E 00", 9)]);
    // Before 5, and before 6.
    all_refused(ONE, 4, &[("31 02 00 21 4E", 4), ("31 00 01 DF B1", 4)]);
    all_refused(ONE, 4, &[("31 00 00 6E 00 31 00 01 6E 00", 9)]);
}

#[test]
fn out_of_range() {
    // 20,001, −20,001, 32,767 and −32,768.
    for reference in ["21 4E", "DF B1", "FF 7F", "00 80"] {
        all_refused(ONE, 5, &[(&format!("31 00 00 {reference}"), 4)]);
        all_refused(ONE, 5, &[(&format!("31 01 00 {reference}"), 4)]);
        // Before 6.
        let twice = format!("31 00 00 6E 00 31 00 00 {reference}");
        all_refused(ONE, 5, &[(&twice, 9)]);
    }
    // 20,000 and −20,000.
    let ends = hex(&format!("{ONE} {REST} 31 00 00 20 4E 31 01 00 E0 B1 FF"));
    let curves = vec![Some(vec![20_000]), Some(vec![-20_000])];
    assert_eq!(read(&ends).unwrap().curves, curves);
}

#[test]
fn reference_of_command_30_keeps_its_range() {
    let column = "30 00 00 00 00 00 21 4E 01";
    all_refused(ONE, 5, &[(&format!("31 00 00 6E 00 {column}"), 9)]);
}

#[test]
fn twice() {
    all_refused(ONE, 6, &[("31 00 00 6E 00 31 00 00 6E 00", 9)]);
    all_refused(ONE, 6, &[("31 00 00 6E 00 31 00 00 6F 00", 9)]);
    // A 0 that was given counts.
    all_refused(ONE, 6, &[("31 00 00 00 00 31 00 00 00 00", 9)]);
    // The same step of two columns, and two steps of one column, are different places.
    all_refused(
        TWELVE,
        6,
        &[(
            "31 00 01 6E 00 31 01 00 6E 00 31 00 00 6E 00 31 01 00 6E 00",
            19,
        )],
    );
    // At the second 31, although the tape has no FF, and before its 30.
    all_refused(
        ONE,
        6,
        &[(&format!("31 01 00 6E 00 31 01 00 6E 00 {REST}"), 9)],
    );
}

#[test]
fn absent() {
    // One step of two, on either column, also where its reference is 0 or that of command 30.
    let front = two_steps();
    let search = "50 19 00 05 00 40 9C 00 00";
    for step in [
        "31 00 00 68 00",
        "31 00 01 70 00",
        "31 01 00 02 00",
        "31 01 01 00 00",
        "31 00 00 6E 00",
    ] {
        all_refused(&front, 7, &[(&format!("{step} {search} FF"), 50)]);
    }
    // The other column's curve does not stand in for it.
    let short = format!("{INPUT_CURVE} 31 00 01 70 00 {search} FF");
    all_refused(&front, 7, &[(&short, 60)]);
    // One step of each column.
    let short = format!("31 00 00 68 00 31 01 01 06 00 {search} FF");
    all_refused(&front, 7, &[(&short, 55)]);
    // Before 8.
    let short = format!("31 00 00 68 00 {search} FF 00");
    all_refused(&front, 7, &[(&short, 50)]);
    // A whole curve on a column without its 30.
    let without = "30 01 00 00 00 00 00 00 01 40 00 00 00 50 01 00 01 00 00 00 00 00";
    all_refused(ONE, 7, &[(&format!("31 00 00 6E 00 {without} FF"), 31)]);
}

#[test]
fn overrun() {
    let tape = format!("{} 50 19 00 05 00 40 9C 00 00 FF", both_curves());
    all_refused(&tape, 8, &[("31 00 00 68 00", 66), ("00", 66)]);
}

#[test]
fn before_between_and_behind_its_30() {
    let columns = "30 00 18 FC E8 03 6E 00 01  30 01 00 00 28 00 00 00 01";
    let front = two_steps();
    let behind = format!("{columns} {STATE_CURVE} {INPUT_CURVE}");
    let before = format!("{STATE_CURVE} {INPUT_CURVE} {columns}");
    let between = "31 01 01 06 00  31 00 01 70 00  30 00 18 FC E8 03 6E 00 01 \
        31 00 00 68 00  30 01 00 00 28 00 00 00 01  31 01 00 02 00";
    let expected = read(&with_search(&both_curves(), 25, 5, 0)).unwrap();
    assert_eq!(expected.curves, [Some(vec![104, 112]), Some(vec![2, 6])]);
    for order in [behind, before, between.to_string()] {
        let tape = with_search(&front.replace(columns, &order), 25, 5, 0);
        assert_eq!(read(&tape), Ok(expected.clone()));
    }
}

#[test]
fn given_places_are_marked() {
    // Without any 31.
    let furnace = read(&tape_f()).unwrap();
    assert_eq!(furnace.curves, [None, None]);
    assert_eq!(reference_numbers(&furnace), [0; 240]);
    // 0 in both steps of the state; r = 110 and the input's r are not copied.
    let front = format!("{} 31 00 00 00 00 31 00 01 00 00", two_steps());
    let furnace = read(&with_search(&front, 25, 5, 0)).unwrap();
    assert_eq!(furnace.columns[0].reference, 110);
    assert_eq!(furnace.curves, [Some(vec![0, 0]), None]);
    let mut expected = [0; 240];
    (expected[120], expected[121]) = (1, 1);
    assert_eq!(reference_numbers(&furnace), expected);
}

#[test]
fn twelve_steps() {
    // Step k of the input has reference k − 6, from the last step to the first.
    let steps: Vec<Vec<u8>> = (0..12)
        .rev()
        .map(|k| commands::step_reference(1, k, k as Whole - 6))
        .collect();
    let front = hex(&format!("{TWELVE} {REST}"));
    let tape = [&front[..], &steps.concat(), &[0xff]].concat();
    let furnace = read(&tape).unwrap();
    let curve: Vec<Whole> = (-6..6).collect();
    assert_eq!(furnace.curves, [None, Some(curve.clone())]);
    let numbers = reference_numbers(&furnace);
    assert_eq!(numbers[12..24], curve);
    assert_eq!(numbers[132..144], [1; 12]);
    assert_eq!(numbers.iter().filter(|number| **number != 0).count(), 23);
    // Without one of them.
    for left_out in 0..12 {
        let mut short = steps.clone();
        short.remove(left_out);
        let tape = [&front[..], &short.concat(), &[0xff]].concat();
        refused(&tape, 7, 4 + 31 + 55);
    }
}

#[test]
fn longest_tape() {
    let mut commands = full_commands();
    let end = commands.pop().unwrap();
    for column in 0..10 {
        for k in 0..12 {
            commands.push(commands::step_reference(column, k, 20_000 - k as Whole));
        }
    }
    let before_end = commands.concat();
    let tape = [before_end.clone(), end].concat();
    assert_eq!(tape.len(), 1_064);
    let curve: Vec<Whole> = (19_989..=20_000).rev().collect();
    assert_eq!(read(&tape).unwrap().curves, vec![Some(curve); 10]);
    // One byte more, one byte fewer, and a command again in place of FF.
    refused(&[&tape[..], &[0]].concat(), 8, 1_064);
    refused(&before_end, 1, 1_063);
    for command in &commands[1..] {
        refused(&[&before_end[..], command].concat(), 6, 1_063);
    }
    refused(&[&before_end[..], &commands[0]].concat(), 3, 1_063);
    refused(&[&before_end[..], &[0x32]].concat(), 2, 1_063);
}

/// The plan u(0) = 4, x(1) = 102, u(1) = 5, x(2) = 105 from the start 100. 102 + 5 / 2 = 104.5
/// is rounded up.
fn ramp_plan() -> Plan {
    Plan {
        u: vec![vec![4], vec![5]],
        x: vec![vec![100], vec![102], vec![105]],
    }
}

#[test]
fn cost_takes_the_steps_references() {
    // (4 − 2)² + (102 − 104)² + (5 − 6)² + (105 − 112)² = 4 + 4 + 1 + 49.
    let furnace = read(&with_search(&both_curves(), 25, 5, 0)).unwrap();
    assert_eq!(cost(&furnace, &ramp_plan()), 4096 * 58);
    // A curve on the state alone, the input's reference being 0: 16 + 4 + 25 + 49.
    let front = format!("{} {STATE_CURVE}", two_steps());
    let furnace = read(&with_search(&front, 25, 5, 0)).unwrap();
    assert_eq!(cost(&furnace, &ramp_plan()), 4096 * 94);
    // A curve on the input alone, the state's reference being 110: 4 + 64 + 1 + 25.
    let front = format!("{} {INPUT_CURVE}", two_steps());
    let furnace = read(&with_search(&front, 25, 5, 0)).unwrap();
    assert_eq!(cost(&furnace, &ramp_plan()), 4096 * 94);
    // None: 16 + 64 + 25 + 25.
    let furnace = read(&with_search(&two_steps(), 25, 5, 0)).unwrap();
    assert_eq!(cost(&furnace, &ramp_plan()), 4096 * 130);
}

#[test]
fn floor_and_gap_of_two_steps() {
    // y(0) = −12, y(1) = −8. Slopes: u(0) −12 × 2048 = −24,576, u(1) −16,384,
    // x(1) 12 × 4096 − 8 × 4096 = 16,384, x(2) 8 × 4096 = 32,768.
    // Pieces s × r − s² / 16,384: −49,152 − 36,864; −98,304 − 16,384;
    // 16,384 × 104 − 16,384; 32,768 × 112 − 65,536.
    // Constant −12 × 4096 × 100; 2048 × (12 + 8) = 40,960.
    let furnace = read(&with_search(&both_curves(), 25, 5, 0)).unwrap();
    let y = vec![vec![-12], vec![-8]];
    assert_eq!(
        pieces(&furnace, &y),
        -86_016 - 114_688 + 1_687_552 + 3_604_480
    );
    assert_eq!(constant(&furnace, &y), -4_915_200);
    assert_eq!(floor(&furnace, &y), 135_168);
    // 4096 × 58 − 135,168.
    assert_eq!(gap(&furnace, &ramp_plan(), &y), 102_400);
    let judge = |wanted| {
        let tape = with_search(&both_curves(), 25, 5, wanted);
        judge_plan(&tape, &[4, 102, 5, 105], &[-12, -8])
    };
    assert_eq!(judge(102_400), Ok(102_400));
    let (cost, floor) = (4096 * 58, 135_168);
    assert_eq!(judge(102_399), Err(Refusal::Wide { cost, floor }));
}

#[test]
fn ceiling_of_two_steps() {
    // Inputs (40 − 2)² + (40 − 6)² = 1,444 + 1,156, states (−1000 − 104)² + (−1000 − 112)² =
    // 1,218,816 + 1,236,544.
    let furnace = read(&with_search(&both_curves(), 25, 5, 0)).unwrap();
    assert_eq!(ceiling(&furnace), 4096 * 2_457_960);
}

#[test]
fn references_outside_the_limits() {
    // State references −1500 and 1500 with limits −1000 to 1000: under y = 0 x(1) is at its lower
    // end and x(2) at its upper one, 500 away each. Ceiling: 2500² for each state, 40² for each
    // input.
    let front = format!("{} 31 00 00 24 FA 31 00 01 DC 05", two_steps());
    let tape = with_search(&front, 25, 1, 0);
    let furnace = read(&tape).unwrap();
    assert_eq!(furnace.curves[0], Some(vec![-1500, 1500]));
    assert_eq!(floor(&furnace, &vec![vec![0], vec![0]]), 4096 * 2 * 250_000);
    assert_eq!(ceiling(&furnace), 4096 * 2 * (6_250_000 + 1_600));
    let rounds = rounds_of(&tape);
    assert_eq!(rounds[0].numbers.x, [[100], [-1000], [1000]]);
    assert_eq!(rounds[0].numbers.u, [[0], [0]]);
}

#[test]
fn rounds_take_the_steps_references() {
    let rounds = rounds_of(&with_search(&both_curves(), 25, 2, 0));
    // Round 0: the references themselves. e(0) = 4096 × (100 + 1 − 104), e(1) = 4096 × (104 + 3
    // − 112). The candidate 2, 101, 6, 104 costs 4096 × (9 + 64), its floor is 0.
    assert_eq!(rounds[0].numbers.u, [[2], [6]]);
    assert_eq!(rounds[0].numbers.x, [[100], [104], [112]]);
    assert_eq!(rounds[0].residuals, [[-12_288], [-20_480]]);
    let candidate = Candidate::Follows {
        plan: Plan {
            u: vec![vec![2], vec![6]],
            x: vec![vec![100], vec![101], vec![104]],
        },
        cost: 299_008,
        gap: 299_008,
    };
    assert_eq!(rounds[0].candidate, candidate);
    // (−12,288 × 25 + 32,768) / 65,536 = −4.19, (−20,480 × 25 + 32,768) / 65,536 = −7.31.
    assert_eq!(rounds[0].ending, Ending::Next(vec![vec![-5], vec![-8]]));
    // Round 1: slopes −10,240, −16,384, 5 × 4096 − 8 × 4096 = −12,288, 32,768. Numbers r − s / 8192:
    // 3.25, 8, 105.5 (upwards), 108. e(0) = 4096 × (100 + 1.5 − 106), e(1) = 4096 × (106 + 4 − 108).
    assert_eq!(rounds[1].y_tilde, [[-5], [-8]]);
    assert_eq!(rounds[1].numbers.u, [[3], [8]]);
    assert_eq!(rounds[1].numbers.x, [[100], [106], [108]]);
    assert_eq!(rounds[1].residuals, [[-18_432], [8_192]]);
    // Floor: −20,480 − 6,400; −114,688; −12,288 × 104 − 9,216; 3,604,480; −5 × 409,600;
    // −2048 × 13.
    assert_eq!(rounds[1].floor, 101_120);
    // The candidate 3, 102 (101.5 upwards), 8, 106 costs 4096 × (1 + 4 + 4 + 36) = 184,320.
    let proved = Solved::Proved {
        rounds: 2,
        gap: 83_200,
        first: [3, 0, 0, 0],
    };
    let (mut plan, mut multipliers) = ([0; 4], [0; 2]);
    let tape = with_search(&both_curves(), 25, 5, 83_200);
    assert_eq!(solve(&tape, &mut plan, &mut multipliers), Ok(proved));
    assert_eq!((plan, multipliers), ([3, 102, 8, 106], [-5, -8]));
    let tape = with_search(&both_curves(), 25, 2, 83_199);
    assert_eq!(slip(&tape), "open\nrounds 2\n");
}

#[test]
fn impossibility_with_a_curve() {
    // M9 with the state's reference 260 in its one step, y = −100: input −204,800² / 16,384 =
    // 2,560,000 below 0, state 409,600 × 260 − 10,240,000, constant −40,960,000, 2048 × 100.
    // Ceiling 60² for the state, 40² for the input.
    let front = format!("{M9_FRONT} 31 00 00 04 01");
    let tape = with_search(&front, 25, 5, 40_000);
    let furnace = read(&tape).unwrap();
    assert_eq!(floor(&furnace, &vec![vec![-100]]), 52_531_200);
    assert_eq!(ceiling(&furnace), 4096 * 5_200);
    assert_eq!(judge_multipliers(&tape, &[-100]), Ok(Shown));
    assert_eq!(judge_multipliers(&tape, &[0]), Err(Refusal::NotShown));
}

#[test]
fn one_step_with_the_reference_of_another_hold() {
    // F and M9's tape with another r in command 30 and their own r in command 31.
    let f = F_FRONT.replace("6E 00 01", "9C FF 01");
    let tape = with_search(&format!("{f} 31 00 00 6E 00"), 25, 5, 40_000);
    assert_eq!(read(&tape).unwrap().columns[0].reference, -100);
    assert_eq!(slip(&tape), slip(&tape_f()));
    assert_eq!(judge_plan(&tape, &[4, 102], &[-16]), Ok(32_768));
    let m9 = M9_FRONT.replace("FA 00 01", "9C FF 01");
    let tape = with_search(&format!("{m9} 31 00 00 FA 00"), 25, 5, 40_000);
    assert_eq!(read(&tape).unwrap().columns[0].reference, -100);
    assert_eq!(slip(&tape), slip(&tape_m9()));
    assert_eq!(judge_multipliers(&tape, &[-100]), Ok(Shown));
}
