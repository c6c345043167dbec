//! The twelve calls with the numbers that they answer, one to one with C's.
//!
//! Each answers 0 where it has a result, which is then in what it was lent to write; else the
//! refusal's number + 256 × what it carries, and then nothing that was lent has changed.
//! [`crate::Refusal::from_answer`] reads such an answer. The calls ask nothing of what they are
//! lent: slices of any length, with any numbers.

mod foreign {
    extern "C" {
        pub fn fibergravel_read(tape: *const u8, tape_len: usize, out: *mut i64) -> u64;
        pub fn fibergravel_read_references(tape: *const u8, tape_len: usize, out: *mut i64) -> u64;
        pub fn fibergravel_read_step(tape: *const u8, tape_len: usize, out: *mut i64) -> u64;
        pub fn fibergravel_judge_plan(
            tape: *const u8,
            tape_len: usize,
            plan: *const i32,
            plan_len: usize,
            multipliers: *const i32,
            multipliers_len: usize,
            out: *mut i64,
        ) -> u64;
        pub fn fibergravel_judge_report(
            tape: *const u8,
            tape_len: usize,
            plan: *const i32,
            plan_len: usize,
            multipliers: *const i32,
            multipliers_len: usize,
            out: *mut i64,
        ) -> u64;
        pub fn fibergravel_ranges(
            tape: *const u8,
            tape_len: usize,
            plan: *const i32,
            plan_len: usize,
            multipliers: *const i32,
            multipliers_len: usize,
            out: *mut i64,
        ) -> u64;
        pub fn fibergravel_judge_multipliers(
            tape: *const u8,
            tape_len: usize,
            multipliers: *const i32,
            multipliers_len: usize,
        ) -> u64;
        pub fn fibergravel_solve(
            tape: *const u8,
            tape_len: usize,
            plan: *mut i32,
            plan_len: usize,
            multipliers: *mut i32,
            multipliers_len: usize,
            out: *mut i64,
        ) -> u64;
        pub fn fibergravel_record(
            tape: *const u8,
            tape_len: usize,
            laboratory: *mut u8,
            laboratory_len: usize,
            service: *mut u8,
            service_len: usize,
            out: *mut i64,
        ) -> u64;
        pub fn fibergravel_banded_correction(
            tape: *const u8,
            tape_len: usize,
            residuals: *const i64,
            residuals_len: usize,
            pivots: *mut f64,
            pivots_len: usize,
            correction: *mut f64,
            correction_len: usize,
            out: *mut i64,
        ) -> u64;
        pub fn fibergravel_import_entry(entry: f64, out: *mut i64, leftover: *mut f64) -> u64;
        pub fn fibergravel_import_model(
            n: usize,
            m: usize,
            a: *const f64,
            a_len: usize,
            b: *const f64,
            b_len: usize,
            out: *mut u8,
            out_len: usize,
        ) -> u64;
    }
}

/// How many numbers [`read`] writes.
pub const READ_LENGTH: usize = 118;

/// How many numbers [`read_references`] writes.
pub const READ_REFERENCES_LENGTH: usize = 240;

/// How many numbers [`read_step`] writes.
pub const READ_STEP_LENGTH: usize = 1;

/// How many numbers [`judge_plan`] writes.
pub const JUDGE_PLAN_LENGTH: usize = 1;

/// How many numbers [`judge_report`] writes.
pub const JUDGE_REPORT_LENGTH: usize = 5;

/// How many numbers [`ranges`] writes.
pub const RANGES_LENGTH: usize = 8;

/// How many numbers [`solve`] writes.
pub const SOLVE_LENGTH: usize = 7;

/// How many numbers [`record`] writes.
pub const RECORD_LENGTH: usize = 1;

/// How many whole numbers [`banded_correction`] writes.
pub const BANDED_CORRECTION_LENGTH: usize = 1;

/// How many whole numbers [`import_entry`] writes.
pub const IMPORT_ENTRY_LENGTH: usize = 2;

/// How many leftovers [`import_entry`] writes.
pub const IMPORT_LEFTOVER_LENGTH: usize = 1;

/// Reads a tape. `out`: n, m, N, A by rows of 6 (36), B by rows of 4 (24), w (6), lo (10), hi
/// (10), r of command 30 (10), h (10), x(0) (6), g, R, T; columns are states, then inputs, and
/// places beyond the tape's sizes are 0.
pub fn read(tape: &[u8], out: &mut [i64; READ_LENGTH]) -> u64 {
    // SAFETY: the tape's pointer and length are one slice's, never null, and `out` has the places
    // that the call writes. It keeps no pointer.
    unsafe { foreign::fibergravel_read(tape.as_ptr(), tape.len(), out.as_mut_ptr()) }
}

/// Reads a tape's references of command 31. `out`: the references by columns of 12 steps (120), 0
/// where none is given, and their marks in the same order (120), 1 where one is given, else 0.
pub fn read_references(tape: &[u8], out: &mut [i64; READ_REFERENCES_LENGTH]) -> u64 {
    // SAFETY: the tape's pointer and length are one slice's, never null, and `out` has the places
    // that the call writes. It keeps no pointer.
    unsafe { foreign::fibergravel_read_references(tape.as_ptr(), tape.len(), out.as_mut_ptr()) }
}

/// Reads which step a tape asks for. `out`: 0 where it has command 50, 1 where it has 51.
pub fn read_step(tape: &[u8], out: &mut [i64; READ_STEP_LENGTH]) -> u64 {
    // SAFETY: the tape's pointer and length are one slice's, never null, and `out` has the place
    // that the call writes. It keeps no pointer.
    unsafe { foreign::fibergravel_read_step(tape.as_ptr(), tape.len(), out.as_mut_ptr()) }
}

/// Judges a plan with multipliers. `out`: the gap.
pub fn judge_plan(
    tape: &[u8],
    plan: &[i32],
    multipliers: &[i32],
    out: &mut [i64; JUDGE_PLAN_LENGTH],
) -> u64 {
    // SAFETY: each pointer and the length after it are one slice's, read only, and `out` has the
    // place that the call writes. It keeps no pointer.
    unsafe {
        foreign::fibergravel_judge_plan(
            tape.as_ptr(),
            tape.len(),
            plan.as_ptr(),
            plan.len(),
            multipliers.as_ptr(),
            multipliers.len(),
            out.as_mut_ptr(),
        )
    }
}

/// Judges a plan with multipliers as [`judge_plan`] does, and reports what it finds: 10, 11 and 13
/// are no refusals here. `out`: 0 and the gap; 10 or 11, the step, the column (states, then
/// inputs), the number found, and the model's number or the limit passed; or 13, cost and floor. It
/// is 0 behind them.
pub fn judge_report(
    tape: &[u8],
    plan: &[i32],
    multipliers: &[i32],
    out: &mut [i64; JUDGE_REPORT_LENGTH],
) -> u64 {
    // SAFETY: each pointer and the length after it are one slice's, read only, and `out` has the
    // places that the call writes. It keeps no pointer.
    unsafe {
        foreign::fibergravel_judge_report(
            tape.as_ptr(),
            tape.len(),
            plan.as_ptr(),
            plan.len(),
            multipliers.as_ptr(),
            multipliers.len(),
            out.as_mut_ptr(),
        )
    }
}

/// Judges a plan with multipliers as [`judge_plan`] does. `out`: the lower and the upper end of the
/// range of u(0,j) at 2j and 2j + 1; places beyond m are 0.
pub fn ranges(
    tape: &[u8],
    plan: &[i32],
    multipliers: &[i32],
    out: &mut [i64; RANGES_LENGTH],
) -> u64 {
    // SAFETY: each pointer and the length after it are one slice's, read only, and `out` has the
    // places that the call writes. It keeps no pointer.
    unsafe {
        foreign::fibergravel_ranges(
            tape.as_ptr(),
            tape.len(),
            plan.as_ptr(),
            plan.len(),
            multipliers.as_ptr(),
            multipliers.len(),
            out.as_mut_ptr(),
        )
    }
}

/// Judges multipliers for impossibility. The answer 0 is the word 'shown'.
pub fn judge_multipliers(tape: &[u8], multipliers: &[i32]) -> u64 {
    // SAFETY: each pointer and the length after it are one slice's, read only. The call keeps no
    // pointer.
    unsafe {
        foreign::fibergravel_judge_multipliers(
            tape.as_ptr(),
            tape.len(),
            multipliers.as_ptr(),
            multipliers.len(),
        )
    }
}

/// Solves. `out`: the kind (1 proved, 2 impossible), rounds, gap and u(0) in four places; what an
/// answer lacks is 0. 'Proved' fills both slices, 'impossible' the multipliers only.
pub fn solve(
    tape: &[u8],
    plan: &mut [i32],
    multipliers: &mut [i32],
    out: &mut [i64; SOLVE_LENGTH],
) -> u64 {
    // SAFETY: each pointer and the length after it are one slice's, the three that are written
    // are lent mutably and so lie apart, and `out` has the places that the call writes. It keeps
    // no pointer.
    unsafe {
        foreign::fibergravel_solve(
            tape.as_ptr(),
            tape.len(),
            plan.as_mut_ptr(),
            plan.len(),
            multipliers.as_mut_ptr(),
            multipliers.len(),
            out.as_mut_ptr(),
        )
    }
}

/// Solves, and writes the record of it for both readers. `out`: the kind (1 proved, 2 impossible, 3
/// open). Each kind fills both slices; 'open' is no refusal here.
pub fn record(
    tape: &[u8],
    laboratory: &mut [u8],
    service: &mut [u8],
    out: &mut [i64; RECORD_LENGTH],
) -> u64 {
    // SAFETY: each pointer and the length after it are one slice's, the three that are written
    // are lent mutably and so lie apart, and `out` has the place that the call writes. It keeps
    // no pointer.
    unsafe {
        foreign::fibergravel_record(
            tape.as_ptr(),
            tape.len(),
            laboratory.as_mut_ptr(),
            laboratory.len(),
            service.as_mut_ptr(),
            service.len(),
            out.as_mut_ptr(),
        )
    }
}

/// Shows the floats of the banded step for residuals from −2^40 to 2^40, by step and then state.
/// `out`: 1, with the pivots and the d of these residuals in the two slices; or 0, with both as they
/// were, where the tape has command 50 or falls back on g. The answer 5 carries nothing where it is
/// for a residual, and is then the same as that of a tape refused with 5 at offset 0.
pub fn banded_correction(
    tape: &[u8],
    residuals: &[i64],
    pivots: &mut [f64],
    correction: &mut [f64],
    out: &mut [i64; BANDED_CORRECTION_LENGTH],
) -> u64 {
    // SAFETY: each pointer and the length after it are one slice's, the three that are written
    // are lent mutably and so lie apart, and `out` has the place that the call writes. It keeps
    // no pointer.
    unsafe {
        foreign::fibergravel_banded_correction(
            tape.as_ptr(),
            tape.len(),
            residuals.as_ptr(),
            residuals.len(),
            pivots.as_mut_ptr(),
            pivots.len(),
            correction.as_mut_ptr(),
            correction.len(),
            out.as_mut_ptr(),
        )
    }
}

/// Imports one entry of a model. `out`: the kind (1 whole, 2 near) and the number; `leftover`: 0.0
/// where it is whole.
pub fn import_entry(
    entry: f64,
    out: &mut [i64; IMPORT_ENTRY_LENGTH],
    leftover: &mut [f64; IMPORT_LEFTOVER_LENGTH],
) -> u64 {
    // SAFETY: `out` and `leftover` are lent mutably and so lie apart, and have the places that the
    // call writes. It keeps no pointer.
    unsafe { foreign::fibergravel_import_entry(entry, out.as_mut_ptr(), leftover.as_mut_ptr()) }
}

/// Imports a model of n states and m inputs: A and B by rows. `out`: a command for each entry.
pub fn import_model(n: usize, m: usize, a: &[f64], b: &[f64], out: &mut [u8]) -> u64 {
    // SAFETY: each pointer and the length after it are one slice's, and `out`, which alone is
    // written, is lent mutably and so lies apart. The call keeps no pointer.
    unsafe {
        foreign::fibergravel_import_model(
            n,
            m,
            a.as_ptr(),
            a.len(),
            b.as_ptr(),
            b.len(),
            out.as_mut_ptr(),
            out.len(),
        )
    }
}
