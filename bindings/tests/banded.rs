//! The banded step, worked out by hand and found on the examples.

use fibergravel::{
    banded_correction, calls, judge_plan, read, read_step, solve, Refusal, Solved, Step,
    MOST_MULTIPLIERS, MOST_RESIDUAL,
};

/// Document 01's tape F, with one state, one input and one step. Its command 50 stands at offset 36.
const TAPE_F: &[u8; 46] = include_bytes!("../../examples/f.tape");

/// Three zones, two heaters and 12 steps, with command 51.
const COUPLED: &[u8; 134] = include_bytes!("../../examples/coupled.tape");

/// The same with command 50.
const COUPLED_GAIN: &[u8; 134] = include_bytes!("../../examples/coupled_gain.tape");

/// Tape F with command 51.
fn banded_f() -> [u8; 46] {
    let mut tape = *TAPE_F;
    tape[36] = 0x51;
    tape
}

/// Two steps of one state with A 2048, B 4096 and weights 1, and command 51: its rows share x(1).
fn two_rows() -> Vec<u8> {
    vec![
        0x10, 1, 1, 2, // size
        0x20, 0, 0, 0x00, 0x08, // A(0,0) = 2048
        0x21, 0, 0, 0x00, 0x10, // B(0,0) = 4096
        0x30, 0, 0x18, 0xFC, 0xE8, 0x03, 0x00, 0x00, 1, // the state: -1000 to 1000, r 0
        0x30, 1, 0x18, 0xFC, 0xE8, 0x03, 0x00, 0x00, 1, // the input: the same
        0x40, 0, 0, 0, // x(0) = 0
        0x51, 1, 0, 1, 0, 0, 0, 0, 0, // g 1, R 1, T 0
        0xFF,
    ]
}

#[test]
fn steps_of_the_examples() {
    assert_eq!(read_step(COUPLED), Ok(Step::Banded));
    assert_eq!(read_step(COUPLED_GAIN), Ok(Step::Gain));
    assert_eq!(read_step(TAPE_F), Ok(Step::Gain));
    // Reading gives the same numbers: they differ in the command's byte alone.
    assert_eq!(read(COUPLED), read(COUPLED_GAIN));
}

#[test]
fn one_row_by_hand() {
    // W = (2048² + 4096²) / 8192.
    for (residual, d) in [
        (-40_960, -16.0),
        (0, 0.0),
        (640, 0.25),
        (1 << 40, 429_496_729.6),
    ] {
        let found = banded_correction(&banded_f(), &[residual]).expect("an accepted tape");
        let found = found.expect("a banded step");
        assert_eq!((&*found.pivots, &*found.d), (&[2_560.0][..], &[d][..]));
    }
}

#[test]
fn two_rows_by_hand() {
    // W = (4096, -1024; -1024, 4608): with f = -1/4 the second pivot is 4608 - 256. For e = (4352, 0)
    // its right side is 1088, so that d(1) is 1/4 and d(0) is (4352 + 256) / 4096.
    let found = banded_correction(&two_rows(), &[4_352, 0]).expect("an accepted tape");
    let found = found.expect("a banded step");
    assert_eq!(*found.pivots, [4_096.0, 4_352.0]);
    assert_eq!(*found.d, [1.125, 0.25]);
}

#[test]
fn none_with_command_50() {
    assert_eq!(banded_correction(TAPE_F, &[-40_960]), Ok(None));
    assert_eq!(banded_correction(COUPLED_GAIN, &[1; 36]), Ok(None));
    assert!(matches!(banded_correction(COUPLED, &[1; 36]), Ok(Some(_))));
}

#[test]
fn pivots_do_not_depend_on_residuals() {
    let floats = |residuals| banded_correction(COUPLED, residuals).expect("an accepted tape");
    let zero = floats(&[0; 36]).expect("a banded step");
    let large = floats(&[-MOST_RESIDUAL; 36]).expect("a banded step");
    assert_eq!(zero.pivots, large.pivots);
    assert_eq!((zero.pivots.len(), zero.d.len()), (36, 36));
    assert_eq!(*zero.d, [0.0; 36]);
    assert!(large.d.iter().any(|d| *d != 0.0));
}

#[test]
fn what_the_step_gains() {
    let (mut plan, mut multipliers) = ([0; 60], [0; 36]);
    let open = Refusal::Open { rounds: 1_000 };
    let with_gain = solve(COUPLED_GAIN, &mut plan, &mut multipliers);
    assert_eq!(with_gain, Err(open));
    let with_d = solve(COUPLED, &mut plan, &mut multipliers);
    let Ok(Solved::Proved { rounds: 2, gap, .. }) = with_d else {
        panic!("this tape is proved in 2 rounds")
    };
    // Judging does not depend on the step.
    for tape in [COUPLED, COUPLED_GAIN] {
        assert_eq!(judge_plan(tape, &plan, &multipliers), Ok(gap));
    }
}

/// The answer of a call with slices of these lengths, after everything lent was found to be as it
/// was.
fn unchanged(tape: &[u8], residuals: &[i64], lengths: [usize; 2]) -> u64 {
    let lent = lengths.map(|length| vec![-7.5; length]);
    let [mut pivots, mut d] = lent.clone();
    let mut out = [-7];
    let answer = calls::banded_correction(tape, residuals, &mut pivots, &mut d, &mut out);
    assert_eq!([pivots, d], lent);
    let expected = if answer == 0 { 0 } else { -7 };
    assert_eq!(out, [expected]);
    answer
}

#[test]
fn what_is_refused_is_left_as_it_was() {
    let length = 9;
    for lengths in [[0, 1], [1, 0], [2, 1], [1, 2]] {
        assert_eq!(unchanged(&banded_f(), &[0], lengths), length);
        assert_eq!(unchanged(TAPE_F, &[0], lengths), length);
    }
    // The length comes before the number, and the tape before both.
    assert_eq!(unchanged(&banded_f(), &[i64::MAX; 2], [1, 1]), length);
    assert_eq!(unchanged(&[0x10], &[i64::MAX; 2], [1, 1]), 1);
    for beyond in [MOST_RESIDUAL + 1, -MOST_RESIDUAL - 1, i64::MIN, i64::MAX] {
        for tape in [TAPE_F, &banded_f()] {
            assert_eq!(unchanged(tape, &[beyond], [1, 1]), 5);
            let refused = banded_correction(tape, &[beyond]);
            assert_eq!(refused, Err(Refusal::ArgumentOutOfRange));
        }
    }
    assert_eq!(unchanged(TAPE_F, &[MOST_RESIDUAL], [1, 1]), 0);
}

#[test]
fn lengths_beyond_the_largest() {
    for count in [0, 35, 37, MOST_MULTIPLIERS, MOST_MULTIPLIERS + 1, 1_000] {
        let found = banded_correction(COUPLED, &vec![0; count]);
        assert_eq!(found, Err(Refusal::Length), "{count}");
    }
}

#[test]
fn a_size_out_of_range_is_the_tapes() {
    // Its refusal is 5 at offset 0, and carries that.
    let mut tape = banded_f();
    tape[1] = 7;
    let refusal = Refusal::OutOfRange { offset: 0 };
    assert_eq!(banded_correction(&tape, &[i64::MAX]), Err(refusal));
    assert_eq!(refusal.carried(), Some(0));
    assert_eq!(Refusal::ArgumentOutOfRange.carried(), None);
}

#[test]
fn a_weight_of_0_is_refused_by_every_call() {
    let mut tape = banded_f().to_vec();
    // The input's weight.
    tape[31] = 0;
    let weightless = Refusal::Weightless { offset: 45 };
    // Bytes behind FF come after it.
    for behind in [&[][..], &[0x00], &[0x51, 0xFF]] {
        let tape = [&tape, behind].concat();
        assert_eq!(read(&tape), Err(weightless));
        assert_eq!(fibergravel::read_references(&tape), Err(weightless));
        assert_eq!(read_step(&tape), Err(weightless));
        assert_eq!(banded_correction(&tape, &[0, 0]), Err(weightless));
        assert_eq!(judge_plan(&tape, &[], &[]), Err(weightless));
        let found = fibergravel::judge_report(&tape, &[], &[]);
        assert_eq!(found, Err(weightless));
        assert_eq!(fibergravel::ranges(&tape, &[], &[]), Err(weightless));
        let found = fibergravel::judge_multipliers(&tape, &[]);
        assert_eq!(found, Err(weightless));
        assert_eq!(solve(&tape, &mut [], &mut []), Err(weightless));
        let found = fibergravel::record(&tape, &mut [], &mut []);
        assert_eq!(found, Err(weightless));
    }
    // What is absent comes before it, and with command 50 there is no such refusal.
    let mut absent = tape.clone();
    absent.drain(32..36);
    assert_eq!(read(&absent), Err(Refusal::Absent { offset: 41 }));
    tape[36] = 0x50;
    assert!(read(&tape).is_ok());
}
