//! Rivals between whole units (request 7): their definition, and the case that shows why the third
//! piece's quotient is rounded up.

mod tapes;
mod tiny;

use std::collections::BTreeMap;

use reference::calls::lent_plan;
use reference::floor::{ceiling, floor, input_slope, piece, state_slope};
use reference::generate::Random;
use reference::model::{self, follows_tape, Plan};
use reference::quotient::solve_both;
use reference::rival::{cost, is_rival, residual};
use reference::rounds::Outcome;
use reference::*;
use tapes::*;
use tiny::*;

/// Numbers as a rival has them.
fn wide(numbers: &[i64]) -> Vec<Whole> {
    numbers.iter().map(|number| Whole::from(*number)).collect()
}

/// A plan of the tape with two states and two inputs, in halves: `u(0,0) u(0,1) x(1,0) x(1,1)` and so
/// on. x(1) = 10 + 10 + 1.5, 20 + 2.5 + 2; x(2) = 21.5 + 12.25 + 3, 24.5 + 4 + 2. Of these x(2,0) =
/// 36.75 lies between two halves.
const PAIR_IN_HALVES: [Whole; 8] = [3, 5, 43, 49, 6, 8, 73, 61];

#[test]
fn two_states_two_inputs_in_halves() {
    let furnace = read(&with_search(PAIR_FRONT, 1, 1, 0)).unwrap();
    let residuals =
        [(0, 0), (0, 1), (1, 0), (1, 1)].map(|(k, i)| residual(&furnace, 2, &PAIR_IN_HALVES, k, i));
    // A half of a half unit: 4096 × 73.5 − 4096 × 73.
    assert_eq!(residuals, [0, 0, 2_048, 0]);
    // 36, 36.5, 37 and 37.5 leave 6144, 2048, −2048 and −6144. From −4096 to 4096 is allowed.
    for (number, is) in [(72, false), (73, true), (74, true), (75, false)] {
        let mut numbers = PAIR_IN_HALVES;
        numbers[6] = number;
        assert_eq!(is_rival(&furnace, 2, &numbers), is, "{number}");
    }
    // r = 20 25 0 1 and h = 1 2 3 4, in quarters: 3 × 9 + 4 × 9 + 9 + 2 × 1, 3 × 36 + 4 × 36 + 33² +
    // 2 × 121.
    let by_hand = 27 + 36 + 9 + 2 + 108 + 144 + 1_089 + 242;
    assert_eq!(cost(&furnace, 2, &PAIR_IN_HALVES), 4096 * by_hand);
}

#[test]
fn every_place_of_a_rival_is_tested() {
    // Five units more or less leave the model, a thousand the limits of −1000 to 1000 as well.
    let furnace = read(&with_search(PAIR_FRONT, 1, 1, 0)).unwrap();
    assert!(is_rival(&furnace, 2, &PAIR_IN_HALVES));
    for place in 0..8 {
        for by in [-2_000, -10, 10, 2_000] {
            let mut numbers = PAIR_IN_HALVES;
            numbers[place] += by;
            assert!(!is_rival(&furnace, 2, &numbers), "{by} at {place}");
        }
    }
    // Another D, no D, and lists of another length.
    for d in [-2, 0, 1, 3] {
        assert!(!is_rival(&furnace, d, &PAIR_IN_HALVES), "{d}");
    }
    assert!(!is_rival(&furnace, 0, &[0; 8]));
    assert!(!is_rival(&furnace, 2, &PAIR_IN_HALVES[..7]));
    assert!(!is_rival(
        &furnace,
        2,
        &[PAIR_IN_HALVES.to_vec(), vec![0]].concat()
    ));
    assert!(!is_rival(&furnace, 2, &[]));
}

#[test]
fn ends_are_allowed() {
    // Tape F: x = 100 + u / 2 within −1000 to 1000, u in 0 to 40. In thirds, 2048 × 3 = 6144.
    let furnace = read(&tape_f()).unwrap();
    let is = |u, x| is_rival(&furnace, 3, &[u, x]);
    // u at 0 and at 40, x at 100 and at 120.
    assert!(is(0, 300) && is(120, 360));
    assert!(!is(-1, 300) && !is(121, 360));
    // u = 1: S = 1,228,800 + 2048 × 3 is 301.5 × 4096. x = 300 and 303 leave 6144 and −6144.
    assert_eq!(residual(&furnace, 3, &[3, 300], 0, 0), 6_144);
    assert_eq!(residual(&furnace, 3, &[3, 303], 0, 0), -6_144);
    assert!(is(3, 300) && is(3, 301) && is(3, 302) && is(3, 303));
    assert!(!is(3, 299) && !is(3, 304));
    // M9's limits 200 to 300 are out of reach, 40 / 2 being 20. With a drift of 80 units x is 200 at
    // u = 40, and half a unit less is enough.
    let mut furnace = read(&tape_m9()).unwrap();
    furnace.drift[0] = 80 * 4096 - 2048;
    let is = |u, x| is_rival(&furnace, 3, &[u, x]);
    assert!(is(120, 600));
    assert!(!is(119, 600) && !is(120, 599) && !is(120, 601));
    furnace.drift[0] -= 1;
    assert!(!is_rival(&furnace, 3, &[120, 600]));
}

#[test]
fn costs_take_the_steps_references() {
    // F with two steps and curves on both columns, the state's 104 and 112, the input's 2 and 6.
    let front = F_FRONT.replace("10 01 01 01", "10 01 01 02");
    let curves = "31 00 00 68 00  31 00 01 70 00  31 01 00 02 00  31 01 01 06 00";
    let furnace = read(&with_search(&format!("{front} {curves}"), 25, 5, 0)).unwrap();
    // In quarters: u 17/4, x 409/4, u 19/4, x 419/4. From references: 9, −7, −5, −29.
    let numbers = [17, 409, 19, 419];
    assert_eq!(cost(&furnace, 4, &numbers), 4096 * (81 + 49 + 25 + 841));
    // 102.125 and 104.625 are due: a half of a quarter less each.
    assert_eq!(residual(&furnace, 4, &numbers, 0, 0), -2_048);
    assert_eq!(residual(&furnace, 4, &numbers, 1, 0), -2_048);
    assert!(is_rival(&furnace, 4, &numbers));
}

/// All lists of one step, from `beyond` below the limits to `beyond` above them.
fn lists_of_one_step(furnace: &Furnace, d: i64, beyond: i64) -> Vec<Vec<i64>> {
    let [state, input] = [0, 1].map(|c| {
        let column = furnace.columns[c];
        d * column.lo as i64 - beyond..=d * column.hi as i64 + beyond
    });
    let with = |u: i64| state.clone().map(move |x| vec![u, x]);
    input.flat_map(with).collect()
}

/// Rivals and lists beside them: one number of each moved by a unit of 1/D or a whole unit.
fn lists_beside_rivals(furnace: &Furnace, d: i64, random: &mut Random) -> Vec<Vec<i64>> {
    let mut all = Vec::new();
    each_rival(furnace, d, |list, _| {
        let mut beside = list.to_vec();
        beside[random.below(list.len())] += random.choose(&[-d, -1, 1, d]);
        all.extend([list.to_vec(), beside]);
    });
    all
}

#[test]
fn the_definition_agrees_with_the_listing() {
    let mut random = Random::new(11);
    // By D: lists that are rivals, and lists that are not.
    let mut found = [[0; MOST_D as usize]; 2];
    for _ in 0..300 {
        let furnace = tiny(&mut random);
        // Lists of two steps grow fast.
        let most = if furnace.horizon == 1 { MOST_D } else { 3 };
        for d in 1..=most {
            let mut listed = BTreeMap::new();
            each_rival(&furnace, d, |list, cost| {
                listed.insert(list.to_vec(), Whole::from(cost));
            });
            let lists = match furnace.horizon {
                1 => lists_of_one_step(&furnace, d, 2),
                _ => lists_beside_rivals(&furnace, d, &mut random),
            };
            for list in lists {
                let (numbers, d) = (wide(&list), Whole::from(d));
                let expected = listed.get(&list).copied();
                let is = is_rival(&furnace, d, &numbers);
                assert_eq!(is, expected.is_some(), "{furnace:?} {d} {list:?}");
                let by_definition = is.then(|| cost(&furnace, d, &numbers));
                assert_eq!(by_definition, expected, "{furnace:?} {d} {list:?}");
                found[usize::from(!is)][d as usize - 1] += 1;
            }
        }
    }
    let mut all = found.iter().flatten();
    assert!(all.all(|count| *count > 1_000), "{found:?}");
}

/// Does the list meet document 01's limits, with residuals from −2048 to `highest`?
fn meets(furnace: &Furnace, plan: &Plan, highest: Whole) -> bool {
    (0..furnace.horizon).all(|k| {
        furnace.input_column(0).contains(plan.u[k][0])
            && furnace.state_column(0).contains(plan.x[k + 1][0])
            && (-2048..=highest).contains(&model::residual(furnace, plan, k, 0))
    })
}

#[test]
fn with_d_1_rivals_are_plans_but_for_residuals_of_2048() {
    let mut random = Random::new(12);
    // Plans that follow the tape, rivals that do not, lists that are neither.
    let mut found = [0; 3];
    for _ in 0..500 {
        let furnace = tiny(&mut random);
        let lists = match furnace.horizon {
            1 => lists_of_one_step(&furnace, 1, 2),
            _ => lists_beside_rivals(&furnace, 1, &mut random),
        };
        for list in lists {
            let slice: Vec<i32> = list.iter().map(|number| *number as i32).collect();
            let (plan, numbers) = (lent_plan(&furnace, &slice), wide(&list));
            let (is, follows) = (
                is_rival(&furnace, 1, &numbers),
                follows_tape(&furnace, &plan),
            );
            assert_eq!(is, meets(&furnace, &plan, 2048), "{furnace:?} {list:?}");
            assert_eq!(
                follows,
                meets(&furnace, &plan, 2047),
                "{furnace:?} {list:?}"
            );
            assert!(is || !follows);
            let cost = cost(&furnace, 1, &numbers);
            assert_eq!(cost, model::cost(&furnace, &plan));
            let place = [follows, is].iter().filter(|is| !**is).count();
            found[place] += 1;
        }
    }
    assert!(found.iter().all(|count| *count > 100), "{found:?}");
}

/// One state that one input hardly moves: A 0, B 3, w 4,096, limits −9 to 9, r 0, h 1, x(0) 0.
const HARDLY_MOVED: &str = "10 01 01 01  21 00 00 03 00  22 00 00 10 00 00 \
    30 00 F7 FF 09 00 00 00 01  30 01 F7 FF 09 00 00 00 01  40 00 00 00";

#[test]
fn a_rival_below_the_floor_of_quotients_rounded_down() {
    let furnace = read(&with_search(HARDLY_MOVED, 1, 1, 3_073)).unwrap();
    // u = −3/8192 and x = 1/2 − 9/2^25: in units of 1/2^25, −3 × 2^12 and 2^24 − 9.
    let (d, numbers) = (1 << 25, [-12_288, 16_777_207]);
    // 3 × −12,288 + 4096 × 2^25 − 4096 × (2^24 − 9) = 2^36.
    assert_eq!(residual(&furnace, d, &numbers, 0, 0), 2_048 * d);
    assert!(is_rival(&furnace, d, &numbers));
    // 4096 × (9 × 2^24 + 2^48 − 18 × 2^24 + 81) = 2^60 − 9 × 2^36 + 331,776, that is 1,023.99945 D².
    let cost = cost(&furnace, d, &numbers);
    assert_eq!(cost, (1 << 60) - 9 * (1 << 36) + 331_776);
    // y = 1: slopes 3 and −4096, quotients 9 / 16,384, which is 1 upwards, and 1024. 4096 − 2048.
    let y = vec![vec![1]];
    let slopes = [
        input_slope(&furnace, &y, 0, 0),
        state_slope(&furnace, &y, 1, 0),
    ];
    assert_eq!(slopes, [3, -4_096]);
    assert_eq!(piece(furnace.input_column(0), 3), -1);
    assert_eq!(piece(furnace.state_column(0), -4_096), -1_024);
    assert_eq!(floor(&furnace, &y), 1_023);
    // Downwards the first quotient is 0, and the floor 1,024.
    assert!(d * d * 1_023 <= cost && cost < d * d * 1_024);
}

#[test]
fn rounding_up_makes_the_gap_larger() {
    // The plan u 0, x 1 costs 4096. With quotients rounded down its gap is 3,072, which that rival
    // belies: 4096 − 3,072 = 1,024.
    let tape = |wanted| with_search(HARDLY_MOVED, 16, 5, wanted);
    assert_eq!(judge_plan(&tape(3_073), &[0, 1], &[1]), Ok(3_073));
    let (cost, floor) = (4_096, 1_023);
    let judged = judge_plan(&tape(3_072), &[0, 1], &[1]);
    assert_eq!(judged, Err(Refusal::Wide { cost, floor }));
    // Round 0: u 0 and x 0 leave e = 4096, and (4096 × 16 + 32,768) / 65,536 = 1.5. Round 1: y~ = 1,
    // u = −3 / 8192 and x = 1/2 are 0 and 1, e = 0. So all later rounds are the same.
    // (8192 v + 3)² is at most 16,384 × 3,073 = 50,348,032, 8192 v + 3 within 7,095.6, v within 0.87.
    let text = "proved\nrounds 2\ngap 3073\nfirst 0\nrange -1 1\n";
    assert_eq!(slip(&tape(3_073)), text);
    assert_eq!(slip(&tape(3_072)), "open\nrounds 5\n");
    let (answer, down) = solve_both(&tape(3_072), &mut [0, 0], &mut [0]);
    assert_eq!(answer, Err(Refusal::Open { rounds: 5 }));
    let Outcome::Proved { rounds, gap, .. } = down else {
        panic!("{down:?}");
    };
    assert_eq!((rounds, gap), (2, 3_072));
}

/// [`HARDLY_MOVED`] with 0 alone for the state, −1 to 1 for the input, and a drift of 4 bytes.
fn out_of_reach(drift: &str) -> String {
    let limits = "30 00 00 00 00 00 00 00 01  30 01 FF FF 01 00 00 00 01";
    format!("10 01 01 01  21 00 00 03 00  22 00 {drift}  {limits}  40 00 00 00")
}

#[test]
fn rounding_up_puts_impossible_off() {
    // The ceiling is 4096 × 1². y = 1: the input's quotient 9 / 16,384 is 1, the state's piece −4096 ×
    // 0; the floor is w − 2048 − 1. With w = 6,145 that is the ceiling, and one more shows it.
    let tape = |drift, rounds| with_search(&out_of_reach(drift), 10, rounds, 0);
    let (at, above) = ("01 18 00 00", "02 18 00 00");
    let furnace = read(&tape(at, 5)).unwrap();
    assert_eq!(
        (floor(&furnace, &vec![vec![1]]), ceiling(&furnace)),
        (4_096, 4_096)
    );
    assert_eq!(
        judge_multipliers(&tape(at, 5), &[1]),
        Err(Refusal::NotShown)
    );
    assert_eq!(judge_multipliers(&tape(above, 5), &[1]), Ok(Shown));
    // y = 2: 36 / 16,384 is 1 again; 2 × 6,145 − 4096 − 1.
    assert_eq!(floor(&furnace, &vec![vec![2]]), 8_193);
    // Round 0: e = 6,145, and (61,450 + 32,768) / 65,536 = 1.4. Round 1: u = −3 / 8192 is 0, and the
    // next y is 2. Round 2: y~ = 2 + 1 / 4.
    assert_eq!(slip(&tape(at, 5)), "impossible\nrounds 3\n");
    assert_eq!(slip(&tape(at, 2)), "open\nrounds 2\n");
    assert_eq!(slip(&tape(above, 5)), "impossible\nrounds 2\n");
    // With quotients rounded down the floor of y = 1 is 4,097, and with w = 6,144 it is the ceiling.
    let (answer, down) = solve_both(&tape(at, 2), &mut [0, 0], &mut [0]);
    assert_eq!(answer, Err(Refusal::Open { rounds: 2 }));
    let (rounds, multipliers) = (2, vec![vec![1]]);
    let impossible = Outcome::Impossible {
        rounds,
        multipliers,
    };
    assert_eq!(down, impossible);
    let (_, down) = solve_both(&tape("00 18 00 00", 2), &mut [0, 0], &mut [0]);
    assert_eq!(down, Outcome::Open);
}

#[test]
fn no_rival_nearby_is_below_the_floor() {
    let furnace = read(&with_search(HARDLY_MOVED, 1, 1, 0)).unwrap();
    // Powers of two, and multiples of 8192 that are none. How many rivals are below 1,024 D².
    let mut below = BTreeMap::new();
    for d in [13, 17, 20, 21, 22, 23, 24, 25].map(|power| 1 << power) {
        below.insert(d, rivals_below_1024(&furnace, d));
    }
    for d in [3, 90, 227, 229, 1_001].map(|factor| 8_192 * factor) {
        below.insert(d, rivals_below_1024(&furnace, d));
    }
    // x = 1/2 − 1/D asks for 3 U + 4096 ≤ 0, and a cost below 1,024 for U² < D − 1. So 1366² =
    // 1,865,956 is below D − 1: none up to 227 × 8192 = 1,859,584, and with 2^21 U is −1,448 to −1,366.
    // x = 1/2 − 2/D would ask for U ≤ −2,731 and U² < 2 D − 4.
    assert!(below.range(..=227 * 8_192).all(|(_, count)| *count == 0));
    assert_eq!(below[&(1 << 21)], 83);
    assert!(below.range(228 * 8_192..).all(|(_, count)| *count > 0));
    // An odd D has x = 1/2 − 1/2D, with 3 U + 2048 ≤ 0 and 4 U² < 2 D − 1: U is −683, from 932,979 on.
    let odd = [932_977, 932_979].map(|d| rivals_below_1024(&furnace, d));
    assert_eq!(odd, [0, 1]);
}

/// Tries all u from −1/1024 to 1/1024 with all x within 20/D of 1/2: no rival is below the floor. How
/// many are below 1,024.
fn rivals_below_1024(furnace: &Furnace, d: Whole) -> u32 {
    let mut below = 0;
    for u in -d / 1_024..=d / 1_024 {
        for x in d / 2 - 20..=d / 2 + 20 {
            if is_rival(furnace, d, &[u, x]) {
                let cost = cost(furnace, d, &[u, x]);
                assert!(cost >= 1_023 * d * d, "{u} {x} of {d}");
                below += u32::from(cost < 1_024 * d * d);
            }
        }
    }
    below
}
