//! Reports of plans, worked out by hand and found on the examples' tapes.

use fibergravel::{
    calls, judge_plan, judge_report, read, solve, Column, Fault, Refusal, Report, Solved, Tape,
};

/// Document 01's tape F: x(1) is 100 + u(0) / 2, halves upward; the input is from 0 to 40, the state
/// from -1000 to 1000 with r 110, and T is 40,000.
const TAPE_F: &[u8; 46] = include_bytes!("../../examples/f.tape");

/// Two zones with a heater each, 2 steps, all weights 1. From 100 and 50, a zone keeps its
/// temperature; heater 0 adds its duty to zone 0, heater 1 half of its own to zone 1.
fn two_zones(wanted_gap: u32) -> Vec<u8> {
    let mut tape = vec![
        0x10, 2, 2, 2, // size
        0x20, 0, 0, 0x00, 0x10, // A(0,0) = 4096
        0x20, 1, 1, 0x00, 0x10, // A(1,1) = 4096
        0x21, 0, 0, 0x00, 0x10, // B(0,0) = 4096
        0x21, 1, 1, 0x00, 0x08, // B(1,1) = 2048
        0x30, 0, 95, 0, 200, 0, 110, 0, 1, // state 0: 95 to 200, r 110
        0x30, 1, 0, 0, 52, 0, 52, 0, 1, // state 1: 0 to 52, r 52
        0x30, 2, 0xF6, 0xFF, 40, 0, 5, 0, 1, // input 0: -10 to 40, r 5
        0x30, 3, 0, 0, 40, 0, 2, 0, 1, // input 1: 0 to 40, r 2
        0x40, 0, 100, 0, // x(0,0)
        0x40, 1, 50, 0, // x(0,1)
        0x50, 25, 0, 5, 0, // g 25, R 5
    ];
    tape.extend(wanted_gap.to_le_bytes());
    tape.push(0xFF);
    tape
}

/// u(0), x(1), u(1) and x(2) of a plan that follows that tape. Its numbers are off their references
/// by 5, 2, 0, 0, 0, -2, 5 and 0, so it costs 4096 × 58.
const TWO_ZONES_PLAN: [i32; 8] = [10, 4, 110, 52, 5, 0, 115, 52];
const TWO_ZONES_COST: u32 = 237_568;

/// The line of a report.
fn line(tape: &[u8], plan: &[i32], multipliers: &[i32]) -> String {
    let report = judge_report(tape, plan, multipliers);
    report.expect("a report").to_string()
}

#[test]
fn reports_of_tape_f() {
    let wide = "is above the wanted one";
    for (plan, y, text) in [
        // Figures M4 and M5.
        ([4, 102], -16, "gap 32768".to_string()),
        ([3, 102], -16, "gap 4096".to_string()),
        // M6, and y = 16: pieces 0 and -7,471,104, constant 6,553,600, and 2048 × 16 off.
        (
            [4, 102],
            0,
            format!("cost 327680, floor 0: the gap, 327680, {wide}"),
        ),
        (
            [4, 102],
            16,
            format!("cost 327680, floor -950272: the gap, 1277952, {wide}"),
        ),
        // The floor of M3, and a cost of 4096 × (1 + 81).
        (
            [1, 101],
            -16,
            format!("cost 335872, floor 294912: the gap, 40960, {wide}"),
        ),
    ] {
        assert_eq!(line(TAPE_F, &plan, &[y]), text);
    }
    for (plan, text) in [
        ([4, 103], "step 0, state 0: 103 found, the model gives 102"),
        ([4, 101], "step 0, state 0: 101 found, the model gives 102"),
        ([41, 121], "step 0, input 0: 41 found, above the limit 40"),
        ([-1, 100], "step 0, input 0: -1 found, below the limit 0"),
        // The input comes before the state, and the model before the limits.
        ([41, 0], "step 0, input 0: 41 found, above the limit 40"),
        (
            [40, 1001],
            "step 0, state 0: 1001 found, the model gives 120",
        ),
        (
            [i32::MIN, 0],
            "step 0, input 0: -2147483648 found, below the limit 0",
        ),
        (
            [0, i32::MAX],
            "step 0, state 0: 2147483647 found, the model gives 100",
        ),
    ] {
        // Under any multipliers.
        for y in [-16_777_216, -16, 0, 16_777_216] {
            assert_eq!(line(TAPE_F, &plan, &[y]), text);
        }
    }
}

#[test]
fn reports_of_two_zones() {
    let zeros = [0; 4];
    let plan = TWO_ZONES_PLAN;
    // Each reference is within its limits: with no slopes, each piece is 0.
    let accepted = two_zones(TWO_ZONES_COST);
    assert_eq!(line(&accepted, &plan, &zeros), "gap 237568");
    let wide = two_zones(TWO_ZONES_COST - 1);
    let text = "cost 237568, floor 0: the gap, 237568, is above the wanted one";
    assert_eq!(line(&wide, &plan, &zeros), text);

    for (plan, text) in [
        (
            [-11, 4, 89, 52, 5, 0, 94, 52],
            "step 0, input 0: -11 found, below the limit -10",
        ),
        (
            [10, 41, 110, 52, 5, 0, 115, 52],
            "step 0, input 1: 41 found, above the limit 40",
        ),
        (
            [-6, 4, 94, 52, 5, 0, 99, 52],
            "step 0, state 0: 94 found, below the limit 95",
        ),
        (
            [10, 4, 110, 51, 5, 0, 115, 51],
            "step 0, state 1: 51 found, the model gives 52",
        ),
        (
            [10, 4, 110, 52, 41, 0, 151, 52],
            "step 1, input 0: 41 found, above the limit 40",
        ),
        (
            [10, 4, 110, 52, 5, 0, 116, 52],
            "step 1, state 0: 116 found, the model gives 115",
        ),
        // Half a unit more is rounded up, to 53, which the model asks for and the limits forbid.
        (
            [10, 4, 110, 52, 5, 1, 115, 53],
            "step 1, state 1: 53 found, above the limit 52",
        ),
        (
            [10, 4, 110, 52, 5, 1, 115, 52],
            "step 1, state 1: 52 found, the model gives 53",
        ),
        (
            [10, 4, 110, 52, 5, 1, 115, 54],
            "step 1, state 1: 54 found, the model gives 53",
        ),
        // The first fault of several.
        (
            [10, 4, 111, 53, 41, -1, 0, 0],
            "step 0, state 0: 111 found, the model gives 110",
        ),
        (
            [10, 4, 110, 52, 5, -1, 0, 0],
            "step 1, input 1: -1 found, below the limit 0",
        ),
    ] {
        for multipliers in [zeros, [-16_777_216, 3, -1, 16_777_216]] {
            assert_eq!(line(&accepted, &plan, &multipliers), text);
        }
    }
}

#[test]
fn a_fault_by_its_parts() {
    let plan = [10, 4, 110, 52, 5, -1, 115, 52];
    let fault = Fault {
        step: 1,
        column: Column::Input(1),
        found: -1,
        due: 0,
    };
    let report = judge_report(&two_zones(0), &plan, &[0; 4]);
    assert_eq!(report, Ok(Report::OverLimit(fault)));
}

/// The refusal of a report, after `out` was found to be as it was.
fn refusal(tape: &[u8], plan: &[i32], multipliers: &[i32]) -> Option<Refusal> {
    let marks = [1, -2, 3, -4, 5];
    let mut out = marks;
    let answer = calls::judge_report(tape, plan, multipliers, &mut out);
    assert_eq!(out, marks);
    let refusal = Refusal::from_answer(answer);
    assert_eq!(judge_report(tape, plan, multipliers).err(), refusal);
    assert_eq!(judge_plan(tape, plan, multipliers).err(), refusal);
    refusal
}

#[test]
fn what_is_refused_is_left_as_it_was() {
    // Of the tape, whatever else is wrong.
    let mut tape = TAPE_F.to_vec();
    tape.push(0);
    let overrun = Refusal::Overrun { offset: 46 };
    assert_eq!(refusal(&tape, &[4, 103], &[i32::MAX]), Some(overrun));
    tape.drain(36..45);
    let absent = Refusal::Absent { offset: 36 };
    assert_eq!(refusal(&tape, &[], &[]), Some(absent));
    let cut = Refusal::Cut { offset: 0 };
    assert_eq!(refusal(&[], &[4, 102], &[-16]), Some(cut));

    for (plan, multipliers) in [
        (&[][..], &[-16][..]),
        (&[4], &[-16]),
        (&[4, 102, 0], &[-16]),
        (&[4, 102], &[]),
        (&[4, 103], &[i32::MAX, 0]),
    ] {
        assert_eq!(refusal(TAPE_F, plan, multipliers), Some(Refusal::Length));
    }
    // Before the plan.
    for y in [16_777_217, -16_777_217, i32::MAX, i32::MIN] {
        let found = refusal(TAPE_F, &[41, 0], &[y]);
        assert_eq!(found, Some(Refusal::Multiplier));
    }
}

const PROVED: [&[u8]; 5] = [
    TAPE_F,
    include_bytes!("../../examples/firing.tape"),
    include_bytes!("../../examples/four_heaters.tape"),
    include_bytes!("../../examples/insulation.tape"),
    include_bytes!("../../examples/ramp.tape"),
];

/// Each place of a plan, with its step and column: for each step its inputs, then its states.
fn places(numbers: &Tape) -> impl Iterator<Item = (usize, Column)> {
    let (states, inputs) = (numbers.states, numbers.inputs);
    (0..numbers.steps).flat_map(move |step| {
        let columns = (0..inputs).map(Column::Input);
        let columns = columns.chain((0..states).map(Column::State));
        columns.map(move |column| (step, column))
    })
}

/// Every place of a solved plan is put wrong in turn.
#[test]
fn faults_are_reported_at_their_places() {
    for tape in PROVED {
        let numbers = read(tape).expect("a tape");
        let mut plan = vec![0; numbers.plan_length()];
        let mut multipliers = vec![0; numbers.multipliers_length()];
        let Ok(Solved::Proved { gap, .. }) = solve(tape, &mut plan, &mut multipliers) else {
            panic!("this tape has a plan")
        };
        let report = |plan: &[i32]| judge_report(tape, plan, &multipliers).expect("a report");
        assert_eq!(report(&plan), Report::Accepted { gap });
        for (place, (step, column)) in places(&numbers).enumerate() {
            let solved = i64::from(plan[place]);
            let (found, due) = match column {
                Column::State(_) => (solved + 1, solved),
                Column::Input(input) => {
                    let hi = numbers.hi[numbers.states + input];
                    (hi + 1, hi)
                }
            };
            let mut wrong = plan.clone();
            wrong[place] = found as i32;
            let fault = Fault {
                step,
                column,
                found,
                due,
            };
            let expected = match column {
                Column::State(_) => Report::OffModel(fault),
                Column::Input(_) => Report::OverLimit(fault),
            };
            assert_eq!(report(&wrong), expected);
        }
    }
}
