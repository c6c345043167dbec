//! Ranges of first duties, worked out by hand and found on the examples' slips.

use fibergravel::{calls, judge_plan, ranges, read, solve, Refusal, Solved};

/// Document 01's tape F: x(1) is 100 + u(0) / 2, halves upward; the input is from 0 to 40, the state
/// from -1000 to 1000 with r 110, and T is 40,000.
const TAPE_F: &[u8; 46] = include_bytes!("../../examples/f.tape");

/// Four heaters that heat nothing, one step. The first has r below lo, the second r above hi, the
/// third r between them, and the last weight 0; the other weights are 1.
fn four_heaters(wanted_gap: u32) -> Vec<u8> {
    let mut tape = vec![
        0x10, 1, 4, 1, // size
        0x30, 0, 0xFB, 0xFF, 5, 0, 0, 0, 1, // the state: -5 to 5, r 0
        0x30, 1, 0xF6, 0xFF, 10, 0, 0xF1, 0xFF, 1, // input 0: -10 to 10, r -15
        0x30, 2, 0xF6, 0xFF, 10, 0, 15, 0, 1, // input 1: -10 to 10, r 15
        0x30, 3, 0xF6, 0xFF, 10, 0, 0xFD, 0xFF, 1, // input 2: -10 to 10, r -3
        0x30, 4, 0xF9, 0xFF, 3, 0, 0, 0, 0, // input 3: -7 to 3, no target
        0x40, 0, 0, 0, // x(0) = 0
        0x50, 1, 0, 1, 0, // g 1, R 1
    ];
    tape.extend(wanted_gap.to_le_bytes());
    tape.push(0xFF);
    tape
}

/// The text of each range.
fn lines(tape: &[u8], plan: &[i32], multipliers: &[i32]) -> Vec<String> {
    let ranges = ranges(tape, plan, multipliers).expect("an accepted plan");
    ranges.iter().map(|range| range.to_string()).collect()
}

#[test]
fn ranges_of_tape_f() {
    // M4's plan has gap 32,768 and slope -16 × 2048: (8192 v - 32,768)² is at most 2^29, so that v is
    // from 1.17 to 6.83. M5's has gap 4096: the square is at most 2^26, and v from 3 to 5.
    assert_eq!(lines(TAPE_F, &[4, 102], &[-16]), ["1 7"]);
    assert_eq!(lines(TAPE_F, &[3, 102], &[-16]), ["3 5"]);
}

#[test]
fn ranges_of_each_piece() {
    // With no slopes the third piece is 0, and the plan has the lowest cost but for input 2, which is
    // off its reference by d: the gap is 4096 d², and a duty can be off by d.
    for (duty, gap, expected) in [
        (-3, 0, ["-10 -10", "10 10", "-3 -3", "-7 3"]),
        (-1, 16_384, ["-10 -8", "8 10", "-5 -1", "-7 3"]),
        (6, 331_776, ["-10 -1", "1 10", "-10 6", "-7 3"]),
        (10, 692_224, ["-10 3", "-3 10", "-10 10", "-7 3"]),
    ] {
        let plan = [-10, 10, duty, 1, 0];
        for wanted_gap in [gap, u32::MAX] {
            let tape = four_heaters(wanted_gap);
            assert_eq!(judge_plan(&tape, &plan, &[0]), Ok(i64::from(gap)));
            assert_eq!(lines(&tape, &plan, &[0]), expected);
        }
    }
}

/// The examples of which a solve leaves a plan, with their slips.
const PROVED: [(&[u8], &str); 6] = [
    (TAPE_F, include_str!("../../examples/f.slip")),
    (
        include_bytes!("../../examples/coupled.tape"),
        include_str!("../../examples/coupled.slip"),
    ),
    (
        include_bytes!("../../examples/firing.tape"),
        include_str!("../../examples/firing.slip"),
    ),
    (
        include_bytes!("../../examples/four_heaters.tape"),
        include_str!("../../examples/four_heaters.slip"),
    ),
    (
        include_bytes!("../../examples/insulation.tape"),
        include_str!("../../examples/insulation.slip"),
    ),
    (
        include_bytes!("../../examples/ramp.tape"),
        include_str!("../../examples/ramp.slip"),
    ),
];

#[test]
fn ranges_on_slips() {
    for (tape, slip) in PROVED {
        let numbers = read(tape).expect("a tape");
        let mut plan = vec![0; numbers.plan_length()];
        let mut multipliers = vec![0; numbers.multipliers_length()];
        let Ok(Solved::Proved { first, .. }) = solve(tape, &mut plan, &mut multipliers) else {
            panic!("this tape has a plan")
        };
        let printed = slip.lines().filter_map(|line| line.strip_prefix("range "));
        assert!(printed.eq(lines(tape, &plan, &multipliers)));
        let ranges = ranges(tape, &plan, &multipliers).expect("an accepted plan");
        assert_eq!(ranges.len(), numbers.inputs);
        for (j, range) in ranges.iter().enumerate() {
            assert!((range.low..=range.high).contains(&first[j]));
        }
    }
}

/// The refusal of ranges, after `out` was found to be as it was.
fn refusal(tape: &[u8], plan: &[i32], multipliers: &[i32]) -> Option<Refusal> {
    let marks = [1, -2, 3, -4, 5, -6, 7, -8];
    let mut out = marks;
    let answer = calls::ranges(tape, plan, multipliers, &mut out);
    assert_eq!(out, marks);
    let refusal = Refusal::from_answer(answer);
    assert_eq!(ranges(tape, plan, multipliers).err(), refusal);
    assert_eq!(judge_plan(tape, plan, multipliers).err(), refusal);
    refusal
}

#[test]
fn what_is_refused_is_left_as_it_was() {
    let mut tape = TAPE_F.to_vec();
    tape.push(0);
    let overrun = Refusal::Overrun { offset: 46 };
    assert_eq!(refusal(&tape, &[4, 103], &[i32::MAX]), Some(overrun));
    let cut = Refusal::Cut { offset: 0 };
    assert_eq!(refusal(&[], &[4, 102], &[-16]), Some(cut));
    for (plan, multipliers, expected) in [
        (&[4][..], &[-16][..], Refusal::Length),
        (&[4, 102], &[i32::MAX, 0], Refusal::Length),
        // The multipliers come before the plan.
        (&[41, 0], &[16_777_217], Refusal::Multiplier),
        (&[4, 103], &[-16], Refusal::OffModel),
        (&[41, 121], &[-16], Refusal::OverLimit),
        (&[4, 102], &[16], Refusal::Wide),
    ] {
        assert_eq!(refusal(TAPE_F, plan, multipliers), Some(expected));
    }
    let plan = [-10, 10, -1, 1, 0];
    let found = refusal(&four_heaters(16_383), &plan, &[0]);
    assert_eq!(found, Some(Refusal::Wide));
}
