//! How near a good duty must be (request 8): figures by hand, and what the calls and the slip say. More
//! ends are in `range_ends`, and the rivals in `near_rivals`.

mod tapes;

use reference::floor::Piece;
use reference::generate::{case, kind, tape, Kind};
use reference::model::Column;
use reference::range::{all_ranges, allows, first_ranges, range};
use reference::*;
use tapes::*;

/// The largest T, and with it the largest gap of an accepted plan.
const MOST_GAP: Whole = 0xffff_ffff;

/// A column.
fn column(weight: Whole, lo: Whole, hi: Whole, reference: Whole) -> Column {
    Column {
        lo,
        hi,
        reference,
        weight,
    }
}

/// The two ends of a range.
fn ends(column: &Column, s: Whole, gap: Whole) -> (Whole, Whole) {
    let Range { low, high } = range(column, s, gap);
    (low, high)
}

#[test]
fn tape_f() {
    // y = −16: the input's slope is −16 × 2048. Where (8192 v − 32,768)² is at most 16,384 × 32,768 =
    // 2^29, 8192 v is within 23,170.5 of 32,768, and v from 1.17 to 6.83.
    let f = read(&tapes::tape_f()).unwrap();
    let (y, gap) = (vec![vec![-16]], 32_768);
    assert_eq!(ends(f.input_column(0), -32_768, gap), (1, 7));
    // In hundredths 1.17 is not allowed, and 1.18 is: 8192 × 2.83 = 23,183.4, 8192 × 2.82 = 23,101.4.
    let allowed = [117, 118, 682, 683].map(|v| allows(f.input_column(0), -32_768, gap, 100, v));
    assert_eq!(allowed, [false, true, true, false]);
    // The state's slope is 65,536: from 110 − 8 − 2.83 to 110 − 8 + 2.83.
    let all = [(1, 7), (99, 105)].map(|(low, high)| Range { low, high });
    assert_eq!(all_ranges(&f, &y, gap), all);
    assert_eq!(first_ranges(&f, &y, gap), all[..1]);
    let tape = tapes::tape_f();
    assert_eq!(
        ranges(&tape, &[4, 102], &[-16]),
        Ok([1, 7, 0, 0, 0, 0, 0, 0])
    );
    // M5's plan has gap 4096. (8192 v − 32,768)² is at most 2^26: from 3 to 5, just.
    assert_eq!(
        ranges(&tape, &[3, 102], &[-16]),
        Ok([3, 5, 0, 0, 0, 0, 0, 0])
    );
    let text = "proved\nrounds 2\ngap 32768\nfirst 4\nrange 1 7\n";
    assert_eq!(slip(&tape), text);
}

#[test]
fn lines_for_two_duties() {
    // Multipliers of 0 have slopes of 0. u(0,0): 3 v² is at most 154, v² at most 51.3; u(0,1): 4 (v −
    // 1)² is at most 154, (v − 1)² at most 38.5.
    let tape = with_search(PAIR_FRONT, 1, 1, u32::MAX);
    let text = "proved\nrounds 1\ngap 630784\nfirst 0 1\nrange -8 8\nrange -6 8\n";
    assert_eq!(slip(&tape), text);
    let plan = [0, 1, 20, 23, 0, 1, 32, 26];
    assert_eq!(
        ranges(&tape, &plan, &[0; 4]),
        Ok([-8, 8, -6, 8, 0, 0, 0, 0])
    );
    // x(k,0): (v − 20)² is at most 154; x(k,1): 2 (v − 25)² is. √154 = 12.4, √77 = 8.8.
    let furnace = read(&tape).unwrap();
    let step = [(-8, 8), (-6, 8), (7, 33), (16, 34)];
    let step = step.map(|(low, high)| Range { low, high });
    let all = all_ranges(&furnace, &vec![vec![0; 2]; 2], 630_784);
    assert_eq!(all, [step, step].concat());
}

#[test]
fn the_first_step_has_its_own_reference() {
    // F with curves of one step: the input's reference is 6 in place of 0, the state's 110 as before.
    let front = format!("{F_FRONT} 31 01 00 06 00");
    let tape = with_search(&front, 25, 5, 40_000);
    // y = 0: 4096 × (64 + 4) is the gap of u 4, x 102. (v − 6)² is at most 68, √68 = 8.2.
    assert_eq!(judge_plan(&tape, &[4, 102], &[0]), Err(wide(278_528)));
    let tape = with_search(&front, 25, 5, 278_528);
    assert_eq!(
        ranges(&tape, &[4, 102], &[0]),
        Ok([0, 15, 0, 0, 0, 0, 0, 0])
    );
}

/// 13 with a floor of 0.
fn wide(cost: Whole) -> Refusal {
    Refusal::Wide { cost, floor: 0 }
}

#[test]
fn a_gap_of_0_allows_the_centre_alone() {
    // The centre is r − s / 8192.
    let duty = column(1, -10, 10, 2);
    assert_eq!(ends(&duty, 0, 0), (2, 2));
    assert_eq!(ends(&duty, 8_192, 0), (1, 1));
    // Between whole numbers it is rounded to both sides: 1.5, 2 + 1/8192, 2 − 1/8192, −7.5.
    assert_eq!(ends(&duty, 4_096, 0), (1, 2));
    assert_eq!(ends(&duty, -1, 0), (2, 3));
    assert_eq!(ends(&duty, 1, 0), (1, 2));
    assert_eq!(ends(&duty, 77_824, 0), (-8, -7));
    assert!(allows(&duty, 4_096, 0, 2, 3) && allows(&duty, -1, 0, 8_192, 16_385));
    assert!(!allows(&duty, 4_096, 0, 1, 1) && !allows(&duty, 4_096, 0, 1, 2));
    // From 12 × 8192 on the first piece applies, from −8 × 8192 down the second. One less, and the
    // centre is 1/8192 inside.
    assert_eq!(Piece::of(&duty, 98_304), Piece::First);
    assert_eq!(ends(&duty, 98_304, 0), (-10, -10));
    assert_eq!(ends(&duty, 98_303, 0), (-10, -9));
    assert_eq!(Piece::of(&duty, -65_536), Piece::Second);
    assert_eq!(ends(&duty, -65_536, 0), (10, 10));
    assert_eq!(ends(&duty, -65_535, 0), (9, 10));
}

#[test]
fn ends_on_whole_numbers_and_one_beyond() {
    // The third piece with P = 4096 × 3 and the centre −1: 3 units either way are 110,592.
    let duty = column(3, -10, 10, 2);
    let s = 2 * 12_288 * 3;
    assert_eq!(12_288 * 9, 110_592);
    let by_gap = [110_591, 110_592, 110_593].map(|gap| ends(&duty, s, gap));
    assert_eq!(by_gap, [(-4, 2), (-4, 2), (-5, 3)]);
    let at_end = [110_591, 110_592].map(|gap| allows(&duty, s, gap, 1, -4));
    assert_eq!(at_end, [false, true]);
    // Two units are 49,152: one less is rounded outward to these as well.
    let by_gap = [49_151, 49_152, 49_153].map(|gap| ends(&duty, s, gap));
    assert_eq!(by_gap, [(-3, 1), (-3, 1), (-4, 2)]);
    // A centre half-way, −1.5: half a unit is P / 4 = 3,072, one and a half 9 times that.
    let s = 2 * 12_288 * 7 / 2;
    let by_gap = [3_071, 3_072, 3_073, 27_648, 27_649].map(|gap| ends(&duty, s, gap));
    assert_eq!(by_gap, [(-2, -1), (-2, -1), (-3, 0), (-3, 0), (-4, 1)]);
    // The lower end at lo, then beyond it: from −1 to −10 are 9 units, to 10 are 11.
    let s = 2 * 12_288 * 3;
    let by_gap = [995_328, 995_329, 1_486_848, 1_486_849].map(|gap| ends(&duty, s, gap));
    assert_eq!(by_gap, [(-10, 8), (-10, 9), (-10, 10), (-10, 10)]);
}

#[test]
fn the_first_and_second_pieces_have_one_side() {
    // P = 8192, s = 0, r below lo: from lo 3 units are 73,728.
    let duty = column(2, -10, 10, -15);
    assert_eq!(Piece::of(&duty, 0), Piece::First);
    let by_gap = [0, 1, 8_192, 8_193, 73_728, 73_729].map(|gap| ends(&duty, 0, gap));
    assert_eq!(
        by_gap,
        [
            (-10, -10),
            (-10, -9),
            (-10, -9),
            (-10, -8),
            (-10, -7),
            (-10, -6)
        ]
    );
    // As far off on the other side of lo, which the limits shut out and the inequality does not.
    assert!(allows(&duty, 0, 73_728, 1, -13) && !allows(&duty, 0, 73_727, 1, -13));
    // r above hi: the same from 10 down. 20 units are 3,276,800.
    let duty = column(2, -10, 10, 15);
    assert_eq!(Piece::of(&duty, 0), Piece::Second);
    let by_gap = [0, 1, 8_192, 8_193, 73_728, 73_729].map(|gap| ends(&duty, 0, gap));
    assert_eq!(
        by_gap,
        [(10, 10), (9, 10), (9, 10), (8, 10), (7, 10), (6, 10)]
    );
    let by_gap = [2_957_312, 2_957_313, 3_276_800, 3_276_801].map(|gap| ends(&duty, 0, gap));
    assert_eq!(by_gap, [(-9, 10), (-10, 10), (-10, 10), (-10, 10)]);
    // The slope counts for which piece applies, and then no more.
    for s in [0, 100_000, 1_000_000_000_000] {
        assert_eq!(ends(&column(2, -10, 10, -15), s, 73_729), (-10, -6));
        assert_eq!(ends(&column(2, -10, 10, 15), -s, 73_729), (6, 10));
    }
}

#[test]
fn the_widest_gap() {
    // P × 1024² is 2^32 at weight 1: the largest gap is one less, and 1,023.9999 units wide. 1023 units
    // are 4,286,582,784.
    let duty = column(1, -20_000, 20_000, 0);
    assert_eq!(ends(&duty, 0, MOST_GAP), (-1_024, 1_024));
    assert_eq!(ends(&duty, 0, 4_286_582_784), (-1_023, 1_023));
    assert_eq!(ends(&duty, 0, 4_286_582_785), (-1_024, 1_024));
    // 4096 × 255 × 64² is 4,278,190,080: 64.1 units.
    let duty = column(255, -20_000, 20_000, 0);
    assert_eq!(ends(&duty, 0, MOST_GAP), (-65, 65));
    assert_eq!(ends(&duty, 0, 4_278_190_080), (-64, 64));
    // The centre 20,000 − 1/2 of 2 × 1,044,480, and the widest limits: 64.1 units down, half a unit up.
    let s = -2 * 1_044_480 * 20_000 + 1_044_480;
    assert_eq!(ends(&duty, s, MOST_GAP), (19_935, 20_000));
    assert_eq!(ends(&duty, -s, MOST_GAP), (-20_000, -19_935));
    // With narrow limits both ends are these.
    assert_eq!(ends(&column(1, -3, 9, 4), 0, MOST_GAP), (-3, 9));
}

#[test]
fn weight_0_has_no_range() {
    let insulation = column(0, -3, 9, 5);
    for s in [-7, 0, 7] {
        for gap in [0, 1, MOST_GAP] {
            assert_eq!(ends(&insulation, s, gap), (-3, 9));
            assert!((-30..=90).all(|number| allows(&insulation, s, gap, 7, number)));
        }
    }
}

#[test]
fn one_number_alone() {
    for (weight, s) in [(0, 0), (1, 0), (1, 10_000_000), (1, -10_000_000), (255, 1)] {
        for gap in [0, 1, MOST_GAP] {
            assert_eq!(ends(&column(weight, -7, -7, 3), s, gap), (-7, -7));
        }
    }
}

#[test]
fn a_reference_outside_the_limits() {
    // r = 20,000, lo to hi −40 to 0. A slope of 8192 × 20,010 puts the centre at −10.
    let duty = column(1, -40, 0, 20_000);
    let s = 8_192 * 20_010;
    assert_eq!(Piece::of(&duty, s), Piece::Third);
    assert_eq!(ends(&duty, s, 4_096 * 25), (-15, -5));
    assert_eq!(ends(&duty, s, 4_096 * 25 + 1), (-16, -4));
    // The largest slopes: 8192 × 20,040 at the lower end, 8192 × 20,000 at the upper one.
    assert_eq!(ends(&duty, 8_192 * 20_040, 4_096), (-40, -39));
    assert_eq!(ends(&duty, 8_192 * 20_000, 4_096), (-1, 0));
    assert_eq!(ends(&duty, 0, 4_096), (-1, 0));
    // r = −20,000, as far below.
    let duty = column(1, 0, 40, -20_000);
    assert_eq!(ends(&duty, -8_192 * 20_010, 4_096 * 25), (5, 15));
    assert_eq!(ends(&duty, 0, 4_096), (0, 1));
}

/// One state that the input does not move, x(1) = x(0) = 5 with r 5 or 4; the input's limits are −10 to
/// 10 and its r 0, both weights 1.
fn unmoved(reference: &str) -> Vec<u8> {
    let front = format!(
        "10 01 01 01  20 00 00 00 10  30 00 F6 FF 0A 00 {reference} 00 01 \
         30 01 F6 FF 0A 00 00 00 01  40 00 05 00"
    );
    with_search(&front, 1, 1, u32::MAX)
}

#[test]
fn rivals_of_equal_cost_take_both_ends() {
    // y = 0: u 3 costs 4096 × 9, which is the gap, and so does u −3.
    let tape = unmoved("05");
    let taken = |u| judge_plan(&tape, &[u, 5], &[0]);
    assert_eq!([taken(3), taken(-3)], [Ok(36_864); 2]);
    assert_eq!(ranges(&tape, &[3, 5], &[0]).unwrap()[..2], [-3, 3]);
}

#[test]
fn a_cheaper_rival_beyond_the_whole_number_within() {
    // r 4: u 3, x 5 costs 4096 × 10, and v² is at most 10: √10 = 3.16, outward 4.
    let tape = unmoved("04");
    assert_eq!(judge_plan(&tape, &[3, 5], &[0]), Ok(40_960));
    assert_eq!(ranges(&tape, &[3, 5], &[0]).unwrap()[..2], [-4, 4]);
    // u = 3.12 and x = 4.5, which leaves a residual of 2048, cost 4096 × (9.7344 + 0.25).
    let furnace = read(&tape).unwrap();
    let cheaper = [312, 450];
    assert!(rival::is_rival(&furnace, 100, &cheaper));
    let cost = rival::cost(&furnace, 100, &cheaper);
    assert_eq!(cost, 4_096 * 99_844);
    assert!(cost < 40_960 * 100 * 100);
    assert!(allows(furnace.input_column(0), 0, 40_960, 100, 312));
}

/// The slip of a tape by the calls: the solve's answer, and `ranges` of what it leaves. What kind it is.
fn slip_by_calls(tape: &[u8]) -> (String, &'static str) {
    let furnace = read(tape).unwrap();
    let mut plan = vec![0; furnace.plan_length()];
    let mut multipliers = vec![0; furnace.multipliers_length()];
    let (rounds, gap) = match solve(tape, &mut plan, &mut multipliers) {
        Ok(Solved::Proved { rounds, gap, .. }) => (rounds, gap),
        Ok(Solved::Impossible { rounds }) => {
            return (format!("impossible\nrounds {rounds}\n"), "impossible");
        }
        Err(_) => return (format!("open\nrounds {}\n", furnace.rounds), "open"),
    };
    let mut text = format!("proved\nrounds {rounds}\ngap {gap}\nfirst");
    for duty in &plan[..furnace.inputs] {
        text += &format!(" {duty}");
    }
    let ends = ranges(tape, &plan, &multipliers).unwrap();
    for j in 0..furnace.inputs {
        text += &format!("\nrange {} {}", ends[2 * j], ends[2 * j + 1]);
    }
    assert_eq!(ends[2 * furnace.inputs..], [0; 8][2 * furnace.inputs..]);
    (text + "\n", "proved")
}

#[test]
fn slips_have_the_ranges_of_what_the_solve_leaves() {
    // By m: proved ones.
    let mut proved = [0; 4];
    let mut others = 0;
    for seed in 0..1_200 {
        // Late ones take long, and damaged ones may be refused.
        if [Kind::Late, Kind::Damaged, Kind::Noise].contains(&kind(seed)) {
            continue;
        }
        let tape = tape(seed).bytes;
        let (text, kind) = slip_by_calls(&tape);
        assert_eq!(slip(&tape), text, "seed {seed}");
        match kind {
            "proved" => proved[read(&tape).unwrap().inputs - 1] += 1,
            _ => others += 1,
        }
    }
    assert!(proved.iter().all(|count| *count > 20), "{proved:?}");
    assert!(others > 100, "{others}");
}

#[test]
fn ranges_are_of_accepted_plans_alone() {
    // By number: judging has 1 to 13 and 18.
    let (mut accepted, mut refused) = (0, [0; 18]);
    for seed in 0..400 {
        if kind(seed) == Kind::Late {
            continue;
        }
        let case = case(seed);
        let tape = &case.tape.bytes;
        for lent in &case.judged {
            let judged = judge_plan(tape, &lent.plan, &lent.multipliers);
            let answer = ranges(tape, &lent.plan, &lent.multipliers);
            let Ok(ends) = answer else {
                assert_eq!(judged, Err(answer.unwrap_err()), "seed {seed}");
                refused[judged.unwrap_err().number() as usize - 1] += 1;
                continue;
            };
            assert!(judged.is_ok(), "seed {seed}");
            accepted += 1;
            // The plan is a rival itself.
            let furnace = read(tape).unwrap();
            for (j, duty) in lent.plan[..furnace.inputs].iter().enumerate() {
                let (duty, column) = (Whole::from(*duty), furnace.input_column(j));
                let [low, high] = [ends[2 * j], ends[2 * j + 1]];
                assert!(column.lo <= low && low <= duty, "seed {seed}");
                assert!(duty <= high && high <= column.hi, "seed {seed}");
            }
            let rest = &ends[2 * furnace.inputs..];
            assert!(rest.iter().all(|number| *number == 0), "seed {seed}");
        }
    }
    assert!(accepted > 100, "{accepted}");
    let expected = refused[..13].iter().chain(&refused[17..]);
    assert!(expected.into_iter().all(|count| *count > 0), "{refused:?}");
    assert_eq!(refused[13..17], [0; 4]);
}
