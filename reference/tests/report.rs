//! The report on a judged plan (request 6), worked out by hand.

mod reported;
mod tapes;

use reference::calls::lent_plan;
use reference::faults::faults;
use reference::plan_file::PlanFile;
use reference::*;
use reported::*;
use tapes::*;

/// A plan that follows the tape of two states and two inputs: `u(0,0) u(0,1) x(1,0) x(1,1)` and so
/// on. x(1) = 10 + 10 + 1, 20 + 2 + 2; x(2) = 21 + 12 + 3, 24 + 4 + 2.
const PAIR_PLAN: [i32; 8] = [1, 2, 21, 24, 3, 4, 36, 30];

/// The step and the column of each place of that plan. Columns 0 and 1 are states.
const PAIR_PLACES: [(usize, usize); 8] = [
    (0, 2),
    (0, 3),
    (0, 0),
    (0, 1),
    (1, 2),
    (1, 3),
    (1, 0),
    (1, 1),
];

/// The tape of two states and two inputs, which takes any gap.
fn pair() -> Vec<u8> {
    with_search(PAIR_FRONT, 1, 1, u32::MAX)
}

/// The report on a plan for [`pair`], with multipliers 0.
fn of_pair(plan: &[i32]) -> Report {
    judge_report(&pair(), plan, &[0; 4]).expect("a report")
}

/// That plan with other numbers at some places.
fn with(numbers: &[(usize, i32)]) -> [i32; 8] {
    let mut plan = PAIR_PLAN;
    for (place, number) in numbers {
        plan[*place] = *number;
    }
    plan
}

#[test]
fn worked_examples_of_tape_f() {
    for (plan, multiplier, numbers, words) in [
        ([4, 102], -16, [0, 32_768, 0, 0, 0], "gap 32768"),
        (
            [4, 103],
            -16,
            [10, 0, 0, 103, 102],
            "step 0, state 0: 103 found, the model gives 102",
        ),
        (
            [41, 103],
            -16,
            [11, 0, 1, 41, 40],
            "step 0, input 0: 41 found, above the limit 40",
        ),
        (
            [-1, 102],
            -16,
            [11, 0, 1, -1, 0],
            "step 0, input 0: -1 found, below the limit 0",
        ),
        (
            [4, 102],
            0,
            [13, 327_680, 0, 0, 0],
            "cost 327680, floor 0: the gap, 327680, is above the wanted one",
        ),
    ] {
        let report = judge_report(&tape_f(), &plan, &[multiplier]).unwrap();
        assert_eq!(report.numbers(), numbers);
        assert_eq!(report.words(1), words);
        let text = report::text(&tape_f(), &plan, &[multiplier]);
        assert_eq!(text, Ok(format!("{words}\n")));
    }
}

#[test]
fn words() {
    let fault = |column, found, due| fault(3, column, found, due);
    for (report, words) in [
        (
            Report::OffModel(fault(1, 812, 815)),
            "step 3, state 1: 812 found, the model gives 815",
        ),
        (
            Report::OverLimit(fault(2, 41, 40)),
            "step 3, input 0: 41 found, above the limit 40",
        ),
        (
            Report::OverLimit(fault(1, -5, 0)),
            "step 3, state 1: -5 found, below the limit 0",
        ),
        (
            Report::Wide {
                cost: 98_304,
                floor: 32_768,
            },
            "cost 98304, floor 32768: the gap, 65536, is above the wanted one",
        ),
    ] {
        assert_eq!(report.words(2), words);
    }
}

#[test]
fn a_fault_at_every_place() {
    assert_eq!(
        of_pair(&PAIR_PLAN),
        Report::Accepted { gap: 4096 * 379 },
        "3 + 4 + 1 + 2, 27 + 36 + 256 + 50"
    );
    for (place, (step, column)) in PAIR_PLACES.into_iter().enumerate() {
        let right = PAIR_PLAN[place];
        for wrong in [i32::MIN, -1001, right - 1, right + 1, 1001, i32::MAX] {
            let report = of_pair(&with(&[(place, wrong)]));
            let expected = match (column, wrong) {
                // 10 wins where a state is outside its limits as well.
                (0 | 1, _) => Report::OffModel(fault(step, column, wrong, Whole::from(right))),
                (_, ..=-1001) => Report::OverLimit(fault(step, column, wrong, -1000)),
                (_, 1001..) => Report::OverLimit(fault(step, column, wrong, 1000)),
                // Within its limits: the first state of its step that it moves.
                (2, _) => moved(step, 0, wrong - right),
                (_, _) => moved(step, 1, wrong - right),
            };
            assert_eq!(report, expected, "{wrong} at place {place}");
        }
    }
}

/// The report where an input of a step is so much more: its state is off the model by that.
fn moved(step: usize, state: usize, more: i32) -> Report {
    let found = PAIR_PLAN[4 * step + 2 + state];
    Report::OffModel(fault(step, state, found, Whole::from(found + more)))
}

#[test]
fn the_first_of_several_faults() {
    let first = [
        (vec![(7, 31), (4, 1001)], over_limit(1, 2, 1001, 1000)),
        (vec![(3, 25), (0, -1001)], over_limit(0, 2, -1001, -1000)),
        (vec![(5, 1001), (2, 20)], off_model(0, 0, 20, 21)),
        (
            vec![(6, 35), (7, 31), (5, -1001)],
            over_limit(1, 3, -1001, -1000),
        ),
        (vec![(7, 29), (6, 1001)], off_model(1, 0, 1001, 36)),
    ];
    for (numbers, refusal) in first {
        let judged = judge_plan(&pair(), &with(&numbers), &[0; 4]);
        assert_eq!(judged, Err(refusal));
    }
}

#[test]
fn every_fault_is_listed() {
    let furnace = read(&pair()).unwrap();
    let listed = |plan: &[i32]| faults(&furnace, &lent_plan(&furnace, plan));
    assert_eq!(listed(&PAIR_PLAN), []);
    // x(1) = 10 + 10 + 1, 20 + 1001 + 2; x(2) = 21 + 12.5 + 3000 with the half upward, 25 + 4 + 2.
    let several = [
        over_limit(0, 3, 1001, 1000),
        off_model(0, 1, 25, 1023),
        over_limit(1, 2, 3000, 1000),
        off_model(1, 0, 36, 3034),
        off_model(1, 1, 30, 31),
    ];
    assert_eq!(listed(&[1, 1001, 21, 25, 3000, 4, 36, 30]), several);
    // Both kinds at one place: all numbers are −2^31. What the model gives for x(2) is 2.5 and 2
    // times that, beyond 32 bits.
    let low = i32::MIN;
    let lowest = [
        over_limit(0, 2, low, -1000),
        over_limit(0, 3, low, -1000),
        off_model(0, 0, low, -2_147_483_628),
        over_limit(0, 0, low, -1000),
        off_model(0, 1, low, -2_147_483_626),
        over_limit(0, 1, low, -1000),
        over_limit(1, 2, low, -1000),
        over_limit(1, 3, low, -1000),
        off_model(1, 0, low, -5_368_709_120),
        over_limit(1, 0, low, -1000),
        off_model(1, 1, low, -4_294_967_294),
        over_limit(1, 1, low, -1000),
    ];
    assert_eq!(listed(&[low; 8]), lowest);
}

#[test]
fn states_on_the_model_beyond_a_limit() {
    // x(1,0) is 21, and may be up to 20, or from 22 on; x(2,1) is 30, and may be up to 29.
    for (limits, changed, refusal) in [
        (
            "30 00 18 FC E8 03",
            "30 00 18 FC 14 00",
            over_limit(0, 0, 21, 20),
        ),
        (
            "30 00 18 FC E8 03",
            "30 00 16 00 E8 03",
            over_limit(0, 0, 21, 22),
        ),
        (
            "30 01 18 FC E8 03",
            "30 01 18 FC 1D 00",
            over_limit(1, 1, 30, 29),
        ),
    ] {
        let tape = with_search(&PAIR_FRONT.replace(limits, changed), 1, 1, u32::MAX);
        let judged = judge_plan(&tape, &PAIR_PLAN, &[0; 4]);
        assert_eq!(judged, Err(refusal));
    }
    // 10 wins: 20 is neither the model's number nor within the limits.
    let tape = PAIR_FRONT.replace("30 00 18 FC E8 03", "30 00 16 00 E8 03");
    let tape = with_search(&tape, 1, 1, u32::MAX);
    let judged = judge_plan(&tape, &with(&[(2, 20)]), &[0; 4]);
    assert_eq!(judged, Err(off_model(0, 0, 20, 21)));
}

#[test]
fn cost_and_floor() {
    // y = 16: the input's slope is 32,768 and its piece 0 at duty 0; the state's is −65,536, its
    // piece −65,536 × 110 − 262,144. The constant is 16 × 409,600, and 32,768 goes off.
    let judge = |wanted| judge_report(&tape_f_gap(wanted), &[4, 102], &[16]).unwrap();
    let wide = Report::Wide {
        cost: 327_680,
        floor: -950_272,
    };
    assert_eq!(judge(1_277_952), Report::Accepted { gap: 1_277_952 });
    assert_eq!(judge(1_277_951), wide);
    assert_eq!(judge(0), wide);
    assert_eq!(wide.numbers(), [13, 327_680, -950_272, 0, 0]);
    assert_eq!(
        wide.words(1),
        "cost 327680, floor -950272: the gap, 1277952, is above the wanted one"
    );
}

#[test]
fn other_refusals_are_no_report() {
    let f = tape_f();
    // The plan is off the model as well, and over its limit.
    for (tape, plan, multipliers, number, text) in [
        (&f[..45], vec![41, 0], vec![-16], 1, "refused 1 at 45\n"),
        (&f, vec![41], vec![16_777_217], 9, "refused 9\n"),
        (&f, vec![41, 0], vec![], 9, "refused 9\n"),
        (&f, vec![41, 0], vec![16_777_217], 12, "refused 12\n"),
    ] {
        let refusal = judge_report(tape, &plan, &multipliers).unwrap_err();
        assert_eq!(refusal.number(), number);
        assert_eq!(report::text(tape, &plan, &multipliers), Err(refusal));
        assert_eq!(slip::refused(refusal), text);
    }
}

#[test]
fn plan_files() {
    let lent = |plan: &[i32], multipliers: &[i32]| PlanFile {
        plan: plan.to_vec(),
        multipliers: multipliers.to_vec(),
    };
    for (text, expected) in [
        ("plan 4 102\nmultipliers -16\n", lent(&[4, 102], &[-16])),
        (
            " plan\n4\t102 multipliers\r\n\n-16",
            lent(&[4, 102], &[-16]),
        ),
        ("plan multipliers", lent(&[], &[])),
        (
            "plan -2147483648 multipliers 2147483647",
            lent(&[i32::MIN], &[i32::MAX]),
        ),
    ] {
        assert_eq!(text.parse(), Ok(expected));
    }
    for text in [
        "",
        "4 102 -16",
        "plan 4 102",
        "multipliers -16 plan 4 102",
        "plan 4 102 multipliers -16 plan",
        "plan 4 102 multipliers -16 multipliers",
        "plan 4, 102 multipliers -16",
        "plan 4 102 multipliers 1.5",
        "plan 2147483648 multipliers",
        "Plan 4 102 multipliers -16",
    ] {
        assert!(text.parse::<PlanFile>().is_err(), "{text}");
    }
}
