//! The banded step: command 51, refusal 18, W, its pivots and d, worked out by hand and in other ways.

// The loops name rows and columns.
#![allow(clippy::needless_range_loop)]

mod refused;
mod tapes;

use reference::banded::{matrix, Elimination};
use reference::calls::RESIDUAL_RANGE;
use reference::generate::furnaces::sized;
use reference::generate::{case, commands, Random};
use reference::model::Correction;
use reference::rounds::{next_multiplier, Ending};
use reference::shapes::some_weight_0;
use reference::*;
use refused::*;
use tapes::*;

/// Command 50 of tape F, without its byte.
const OPERANDS: &str = "19 00 05 00 40 9C 00 00";

/// Tape F up to its command 50, with weight 0 on its input: F_FRONT with another last weight.
const WEIGHTLESS_FRONT: &str = "10 01 01 01  20 00 00 00 10  21 00 00 00 08 \
    30 00 18 FC E8 03 6E 00 01  30 01 00 00 28 00 00 00 00  40 00 64 00";

/// The same with weight 0 on its state instead, and without its start.
const STARTLESS_FRONT: &str = "10 01 01 01  20 00 00 00 10  21 00 00 00 08 \
    30 00 18 FC E8 03 6E 00 00  30 01 00 00 28 00 00 00 01";

/// Tape F with command 51.
fn banded_f() -> Vec<u8> {
    hex(&format!("{F_FRONT} 51 {OPERANDS} FF"))
}

/// A furnace of one state and one input with these weights of the state and the input.
fn one_state(horizon: usize, a: Whole, b: Whole, [of_state, of_input]: [Whole; 2]) -> Furnace {
    let mut furnace = sized(1, 1, horizon);
    furnace.a[0][0] = a;
    furnace.b[0][0] = b;
    furnace.columns[0].weight = of_state;
    furnace.columns[1].weight = of_input;
    furnace.correction = Correction::Banded;
    furnace
}

/// A furnace of the banded step with entries within the range and weights of up to `most`.
fn drawn(n: usize, m: usize, steps: usize, range: Whole, most: Whole, seed: u64) -> Furnace {
    let mut random = Random::new(seed);
    let mut furnace = sized(n, m, steps);
    for entry in furnace.a.iter_mut().chain(&mut furnace.b).flatten() {
        *entry = random.between(-range, range);
    }
    for column in &mut furnace.columns {
        column.weight = random.between(1, most);
    }
    furnace.correction = Correction::Banded;
    furnace
}

/// The whole tape of a furnace.
fn tape_of(furnace: &Furnace) -> Vec<u8> {
    commands::of_furnace(furnace, &mut Random::new(1)).concat()
}

/// What the call gives for lent floats of 7.0: its answer, the pivots and d.
fn corrected(tape: &[u8], residuals: &[i64]) -> (Result<Whole, Refusal>, Vec<f64>, Vec<f64>) {
    let mut pivots = vec![7.0; residuals.len()];
    let mut d = pivots.clone();
    let answer = banded_correction(tape, residuals, &mut pivots, &mut d);
    (answer, pivots, d)
}

/// A furnace whose pivots fall to 0 or below by rounding: A at the ends of its range or next to them, B 0.
fn falling() -> Furnace {
    let furnaces = (0..100).map(|seed| {
        let mut furnace = drawn(3, 1, 12, 1, 255, seed);
        let mut random = Random::new(seed);
        for entry in furnace.a.iter_mut().flatten() {
            *entry = random.choose(&[-16_384, 16_384, 16_383, -16_383]);
        }
        furnace.b = vec![vec![0]; 3];
        furnace
    });
    let mut furnaces = furnaces.filter(|furnace| Elimination::of_tape(furnace).is_none());
    furnaces.next().expect("one of many")
}

#[test]
fn command_51_has_the_operands_of_50() {
    assert_eq!(read_step(&tape_f()), Ok(0));
    assert_eq!(read_step(&banded_f()), Ok(1));
    let (gain, banded) = (read(&tape_f()).unwrap(), read(&banded_f()).unwrap());
    assert_eq!(banded.correction, Correction::Banded);
    let correction = Correction::Gain;
    assert_eq!(
        Furnace {
            correction,
            ..banded
        },
        gain
    );
    // g 0, R 0, R 10,001.
    let ranges = ["51 00 00", "51 01 00 00 00", "51 01 00 11 27"];
    for start in ranges {
        let mut tape = hex(&format!("{F_FRONT} {start} 00 00 00 00 00 00"));
        tape.truncate(36 + 9);
        refused(&tape, 5, 36);
    }
    all_refused(F_FRONT, 1, &[("51", 36), ("51 19 00 05 00 40 9C 00", 36)]);
    all_refused("", 3, &[("51 00 00 00 00 00 00 00 00", 0)]);
}

#[test]
fn either_after_either_is_twice() {
    for (first, second) in [("50", "50"), ("51", "51"), ("50", "51"), ("51", "50")] {
        let front = format!("{F_FRONT} {first} {OPERANDS} {second}");
        all_refused(
            &front,
            6,
            &[(OPERANDS, 45), (&format!("{OPERANDS} FF"), 45)],
        );
        // 5 before 6, and 1 before 5.
        all_refused(&front, 5, &[("00 00 05 00 40 9C 00 00 FF", 45)]);
        all_refused(&front, 1, &[("00 00 05 00 40 9C 00", 45)]);
    }
    all_refused(F_FRONT, 7, &[("FF", 36), ("FF FF", 36)]);
}

#[test]
fn refusal_18_weightless() {
    let banded = format!("51 {OPERANDS} FF");
    all_refused(WEIGHTLESS_FRONT, 18, &[(&banded, 45)]);
    assert_eq!(
        read(&hex(&format!("{WEIGHTLESS_FRONT} {banded}")))
            .unwrap_err()
            .word(),
        "weightless"
    );
    // Before 8, whatever follows.
    for rest in ["00", "FF", "51", "30 01 00 00 28 00 00 00 01"] {
        let rest = format!("{banded} {rest}");
        all_refused(WEIGHTLESS_FRONT, 18, &[(&rest, 45)]);
        all_refused(F_FRONT, 8, &[(&rest, 46)]);
    }
    // After 7, with bytes behind or without. With the start it is 18.
    all_refused(
        STARTLESS_FRONT,
        7,
        &[(&banded, 41), (&format!("{banded} 00"), 41)],
    );
    let with_start = format!("40 00 64 00 {banded}");
    all_refused(STARTLESS_FRONT, 18, &[(&with_start, 45)]);
    // After the refusals of commands.
    all_refused(WEIGHTLESS_FRONT, 1, &[(&format!("51 {OPERANDS}"), 45)]);
    all_refused(
        WEIGHTLESS_FRONT,
        6,
        &[(&format!("51 {OPERANDS} 40 00 64 00 FF"), 45)],
    );
    // With command 50 a weight of 0 is allowed.
    assert_eq!(
        read_step(&hex(&format!("{WEIGHTLESS_FRONT} 50 {OPERANDS} FF"))),
        Ok(0)
    );
}

#[test]
fn a_weight_of_0_in_any_column() {
    let mut furnace = sized(6, 4, 12);
    furnace.correction = Correction::Banded;
    for c in 0..10 {
        let mut weightless = furnace.clone();
        weightless.columns[c].weight = 0;
        let tape = tape_of(&weightless);
        refused(&tape, 18, tape.len() - 1);
    }
    assert_eq!(read_step(&tape_of(&furnace)), Ok(1));
}

#[test]
fn one_row_by_hand() {
    // Tape F: W = 2048² / 8192 + 4096² / 8192.
    let (answer, pivots, d) = corrected(&banded_f(), &[2_560]);
    assert_eq!((answer, pivots, d), (Ok(1), vec![2_560.0], vec![1.0]));
    // Weights 5 and 3: 2P is 40,960 of the state and 24,576 of the input, which comes first.
    let furnace = one_state(1, 16_384, 1_000, [5, 3]);
    let w = 1_000_000.0 / 24_576.0 + 16_777_216.0 / 40_960.0;
    let (answer, pivots, d) = corrected(&tape_of(&furnace), &[-12_345]);
    assert_eq!((answer, pivots, d), (Ok(1), vec![w], vec![-12_345.0 / w]));
}

#[test]
fn the_product_comes_before_the_division() {
    // Dividing one coefficient first would give other bits here.
    let furnace = one_state(1, 0, 1_001, [255, 3]);
    let products = 1_002_001.0 / 24_576.0 + 16_777_216.0 / 2_088_960.0;
    let quotients = 1_001.0 / 24_576.0 * 1_001.0 + 4_096.0 / 2_088_960.0 * 4_096.0;
    assert_ne!(products, quotients);
    assert_eq!(matrix(&furnace), [[products]]);
}

#[test]
fn plan_numbers_come_in_plan_order() {
    // n = 1, m = 2, N = 2: row 1 has x(1), u(1,0), u(1,1), x(2). In another order the sum differs.
    let mut furnace = sized(1, 2, 2);
    furnace.correction = Correction::Banded;
    furnace.a[0][0] = 12_345;
    furnace.b[0] = vec![-777, 3_001];
    for (column, weight) in furnace.columns.iter_mut().zip([7, 11, 13]) {
        column.weight = weight;
    }
    let of_a = 152_399_025.0 / 57_344.0;
    let of_b = [603_729.0 / 90_112.0, 9_006_001.0 / 106_496.0];
    let of_unit = 16_777_216.0 / 57_344.0;
    let coupling = -50_565_120.0 / 57_344.0;
    let first = of_b[0] + of_b[1] + of_unit;
    let second = of_a + of_b[0] + of_b[1] + of_unit;
    assert_eq!(matrix(&furnace), [[first, coupling], [coupling, second]]);
    assert_ne!(second, of_unit + of_b[1] + of_b[0] + of_a);
}

#[test]
fn two_rows_by_hand() {
    // All 2P are 8192: W = 2560, −1024 / −1024, 3072. f = −0.4.
    let furnace = one_state(2, 2_048, 2_048, [1, 1]);
    assert_eq!(matrix(&furnace), [[2_560.0, -1_024.0], [-1_024.0, 3_072.0]]);
    let f = -1_024.0 / 2_560.0;
    let pivot = 3_072.0 - f * -1_024.0;
    let right = 700.0 - f * 3_000.0;
    let second = right / pivot;
    let first = (3_000.0 - -1_024.0 * second) / 2_560.0;
    let (answer, pivots, d) = corrected(&tape_of(&furnace), &[3_000, 700]);
    assert_eq!(answer, Ok(1));
    assert_eq!(pivots, [2_560.0, pivot]);
    assert_eq!(d, [first, second]);
    // Near 1.4573 and 0.7136: W × d is near 3,000 and 700.
    assert!((2_560.0 * d[0] - 1_024.0 * d[1] - 3_000.0).abs() < 1e-9);
    assert!((3_072.0 * d[1] - 1_024.0 * d[0] - 700.0).abs() < 1e-9);
}

#[test]
fn the_start_is_no_plan_number() {
    // With N = 1 no A stands in W.
    let one = drawn(3, 2, 1, 16_384, 255, 5);
    let mut other = one.clone();
    other.a = vec![vec![9; 3]; 3];
    assert_eq!(matrix(&one), matrix(&other));
}

#[test]
fn the_curves_do_not_count() {
    let furnace = drawn(3, 2, 4, 4_096, 9, 3);
    let mut curved = furnace.clone();
    curved.curves = vec![Some(vec![1, 2, 3, 4]); 5];
    curved.drift = vec![5, 6, 7];
    curved.start = vec![8, 9, 10];
    curved.step_size = 77;
    let residuals: Vec<i64> = (0..12).map(|e| 1_000 * e - 5_000).collect();
    let one = corrected(&tape_of(&furnace), &residuals);
    assert_eq!(one.0, Ok(1));
    assert_eq!(one, corrected(&tape_of(&curved), &residuals));
}

/// Eliminates a square beside which the right side stands as one more column, without a band: every row
/// and every column after the pivot is touched. Where entries out of reach are 0 that changes nothing.
fn without_band(furnace: &Furnace, residuals: &[i64]) -> (Vec<f64>, Vec<f64>) {
    let mut rows = matrix(furnace);
    let size = rows.len();
    for (row, e) in rows.iter_mut().zip(residuals) {
        row.push(*e as f64);
    }
    for p in 0..size {
        let (taken, after) = rows.split_at_mut(p + 1);
        for row in after {
            let f = row[p] / taken[p][p];
            for b in p + 1..=size {
                row[b] -= f * taken[p][b];
            }
        }
    }
    let pivots = (0..size).map(|p| rows[p][p]).collect();
    let mut d: Vec<f64> = rows.iter().map(|row| row[size]).collect();
    for p in (0..size).rev() {
        let after = p + 1..size;
        let sum = after.fold(0.0, |sum, b| sum + rows[p][b] * d[b]);
        d[p] = (d[p] - sum) / rows[p][p];
    }
    (pivots, d)
}

#[test]
fn the_band_leaves_nothing_out() {
    let mut random = Random::new(3);
    for seed in 0..200 {
        let (n, m) = (1 + random.below(6), 1 + random.below(4));
        let range = random.choose(&[100, 4_096, 16_384]);
        let furnace = drawn(n, m, 1 + random.below(12), range, 255, seed);
        let size = furnace.multipliers_length();
        let range = Whole::from(RESIDUAL_RANGE);
        let residuals: Vec<i64> = (0..size)
            .map(|_| random.between(-range, range) as i64)
            .collect();
        let (answer, pivots, d) = corrected(&tape_of(&furnace), &residuals);
        if answer == Ok(1) {
            assert_eq!(
                (pivots, d),
                without_band(&furnace, &residuals),
                "seed {seed}"
            );
        }
    }
}

/// d in units of 2^−60, rounded down in size: less than a unit is lost where d is small.
fn fixed_point(d: f64) -> Whole {
    assert!(d.abs() < 1_048_576.0);
    (d * 1_152_921_504_606_846_976.0) as Whole
}

#[test]
fn w_times_d_is_near_e() {
    // In whole numbers: W times 8192 × 60, the weights being from 1 to 6, and d in units of 2^−60. States
    // that decay and inputs that heat them make W well-conditioned.
    let mut random = Random::new(4);
    for seed in 0..60 {
        let (n, m) = (1 + random.below(6), 1 + random.below(4));
        let mut furnace = drawn(n, m, 1 + random.below(12), 600, 6, seed);
        for i in 0..n {
            furnace.a[i][i] = random.between(1_000, 3_500);
        }
        let size = furnace.multipliers_length();
        let residuals: Vec<i64> = (0..size)
            .map(|_| random.between(-1_000_000, 1_000_000) as i64)
            .collect();
        let (answer, _, d) = corrected(&tape_of(&furnace), &residuals);
        assert_eq!(answer, Ok(1));
        for a in 0..size {
            let mut left = -Whole::from(residuals[a]) * 8_192 * 60 * (1 << 60);
            for b in 0..size {
                left += exact_entry(&furnace, a, b) * fixed_point(d[b]);
            }
            // A millionth of a unit.
            assert!(
                left.abs() < 8_192 * 60 * (1 << 60) / 1_000_000,
                "seed {seed}"
            );
        }
    }
}

/// W(a,b) × 8192 × 60, from the residuals as document 01 writes them.
fn exact_entry(furnace: &Furnace, a: usize, b: usize) -> Whole {
    let n = furnace.states;
    let ((k, i), (l, q)) = ((a / n, a % n), (b / n, b % n));
    let share = |c: usize| 60 / furnace.columns[c].weight;
    let mut sum = 0;
    if k == l {
        for j in 0..furnace.inputs {
            sum += furnace.b[i][j] * furnace.b[q][j] * share(n + j);
        }
        for j in (0..n).filter(|_| k > 0) {
            sum += furnace.a[i][j] * furnace.a[q][j] * share(j);
        }
        if i == q {
            sum += 4_096 * 4_096 * share(i);
        }
    } else if l == k + 1 {
        sum -= 4_096 * furnace.a[q][i] * share(i);
    } else if k == l + 1 {
        sum -= 4_096 * furnace.a[i][q] * share(q);
    }
    sum
}

#[test]
fn refusals_of_a_correction() {
    let furnace = drawn(2, 1, 3, 4_096, 9, 2);
    let gain = Furnace {
        correction: Correction::Gain,
        ..furnace.clone()
    };
    let small = falling();
    for (furnace, answer) in [(&furnace, 1), (&gain, 0), (&small, 0)] {
        let (tape, size) = (tape_of(furnace), furnace.multipliers_length());
        let mut right = vec![3; size];
        let lengths = [size - 1, size + 1, 0];
        for wrong in lengths {
            for slice in 0..3 {
                let mut sizes = [size; 3];
                sizes[slice] = wrong;
                // 9 before 5.
                let residuals = vec![i64::MIN; sizes[0]];
                let (mut pivots, mut d) = (vec![1.5; sizes[1]], vec![2.5; sizes[2]]);
                let refused = banded_correction(&tape, &residuals, &mut pivots, &mut d);
                assert_eq!(refused, Err(Refusal::Length));
                assert!(pivots.iter().all(|pivot| *pivot == 1.5));
                assert!(d.iter().all(|d| *d == 2.5));
            }
        }
        for place in [0, size - 1] {
            for e in [RESIDUAL_RANGE + 1, -RESIDUAL_RANGE - 1, i64::MAX, i64::MIN] {
                right[place] = e;
                let (refused, pivots, d) = corrected(&tape, &right);
                assert_eq!(refused, Err(Refusal::ArgumentOutOfRange));
                assert_eq!((pivots, d), (vec![7.0; size], vec![7.0; size]));
            }
            for e in [RESIDUAL_RANGE, -RESIDUAL_RANGE] {
                right[place] = e;
                let (given, pivots, d) = corrected(&tape, &right);
                assert_eq!(given, Ok(answer));
                let unchanged = (pivots, d) == (vec![7.0; size], vec![7.0; size]);
                assert_eq!(unchanged, answer == 0);
            }
        }
    }
}

#[test]
fn a_tape_falls_back_on_g() {
    let mut furnace = falling();
    furnace.rounds = 20;
    furnace.step_size = 3;
    for column in &mut furnace.columns {
        (column.lo, column.hi, column.reference) = (-2_000, 2_000, 40);
    }
    furnace.drift = vec![40_960, -8_192, 100];
    furnace.start = vec![10, 20, 30];
    let gain = Furnace {
        correction: Correction::Gain,
        ..furnace.clone()
    };
    let rounds = rounds_of(&tape_of(&furnace));
    assert_eq!(rounds.len(), 20);
    assert_eq!(rounds, rounds_of(&tape_of(&gain)));
    // With the elimination the second round would have other multipliers.
    let elimination = Elimination::of_matrix(matrix(&furnace), 3);
    let d = elimination.correction(&rounds[0].residuals.concat());
    let next = d.iter().map(|d| next_multiplier(0, *d));
    assert_ne!(next.collect::<Vec<Whole>>(), rounds[1].y.concat());
}

#[test]
fn rounds_take_d() {
    for seed in 0..40 {
        let mut furnace = drawn(3, 2, 5, 3_000, 9, seed);
        furnace.rounds = 6;
        furnace.drift = vec![400_000, -300_000, 200_000];
        for column in &mut furnace.columns {
            (column.lo, column.hi, column.reference) = (-900, 900, 5);
        }
        let elimination = Elimination::of_tape(&furnace).expect("pivots that can be used");
        for round in rounds_of(&tape_of(&furnace)) {
            if let Ending::Next(next) = &round.ending {
                let d = elimination.correction(&round.residuals.concat());
                let y_tilde = round.y_tilde.concat().into_iter();
                let expected = y_tilde.zip(d).map(|(y, d)| next_multiplier(y, d));
                assert_eq!(next.concat(), expected.collect::<Vec<Whole>>());
            }
        }
    }
}

#[test]
fn f_is_proved_with_either_step() {
    // Round 0: u = 0, x = 110, e = 4096 × (100 − 110) = −40,960 and d = −40,960 / 2,560 = −16, which is
    // M3's y. Round 1 has no momentum: u = 4 and x = 102, gap 32,768.
    assert_eq!(slip(&banded_f()), slip(&tape_f()));
    let rounds = rounds_of(&banded_f());
    assert_eq!(rounds[0].ending, Ending::Next(vec![vec![-16]]));
}

#[test]
fn judging_does_not_depend_on_the_step() {
    let mut judged = [0; 3];
    for seed in 0..400 {
        let case = case(seed);
        let Ok(furnace) = read(&case.tape.bytes) else {
            continue;
        };
        if some_weight_0(&furnace) {
            continue;
        }
        let tapes = [Correction::Gain, Correction::Banded].map(|correction| {
            let furnace = furnace.clone();
            tape_of(&Furnace {
                correction,
                ..furnace
            })
        });
        // The same bytes but for one.
        let differ = tapes[0]
            .iter()
            .zip(&tapes[1])
            .filter(|(one, other)| one != other);
        assert_eq!(differ.collect::<Vec<_>>(), [(&0x50, &0x51)]);
        for lent in &case.judged {
            let answers = [&tapes[0], &tapes[1]].map(|tape| {
                (
                    judge_plan(tape, &lent.plan, &lent.multipliers),
                    judge_multipliers(tape, &lent.multipliers),
                    judge_report(tape, &lent.plan, &lent.multipliers),
                    ranges(tape, &lent.plan, &lent.multipliers),
                )
            });
            assert_eq!(answers[0], answers[1], "seed {seed}");
            judged[0] += 1;
            judged[1] += u32::from(answers[0].0.is_ok());
            judged[2] += u32::from(answers[0].1.is_ok());
        }
    }
    assert!(judged.iter().all(|count| *count > 100), "{judged:?}");
}
