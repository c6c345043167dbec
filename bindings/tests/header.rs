//! The header for C and this crate name the same numbers.

use fibergravel::{calls, read, record, Kind, Outcome, Record, Refusal, Seen};

const HEADER: &str = include_str!("../../include/fibergravel.h");

/// The number that the header gives a name.
fn number(name: &str) -> Option<u64> {
    let defined = format!(" FIBERGRAVEL_{name} = ");
    let (_, rest) = HEADER.split_once(&defined)?;
    let digits: String = rest.chars().take_while(char::is_ascii_digit).collect();
    digits.parse().ok()
}

#[test]
fn sizes_and_lengths() {
    let sizes = [
        ("MOST_STATES", fibergravel::MOST_STATES),
        ("MOST_INPUTS", fibergravel::MOST_INPUTS),
        ("MOST_STEPS", fibergravel::MOST_STEPS),
        ("MOST_TAPE", fibergravel::MOST_TAPE),
        ("MOST_PLAN", fibergravel::MOST_PLAN),
        ("MOST_MULTIPLIERS", fibergravel::MOST_MULTIPLIERS),
        ("MOST_SERVICE", fibergravel::MOST_SERVICE),
        ("MOST_MODEL", fibergravel::MOST_MODEL),
        ("READ_LENGTH", calls::READ_LENGTH),
        ("READ_REFERENCES_LENGTH", calls::READ_REFERENCES_LENGTH),
        ("READ_STEP_LENGTH", calls::READ_STEP_LENGTH),
        ("JUDGE_PLAN_LENGTH", calls::JUDGE_PLAN_LENGTH),
        ("JUDGE_REPORT_LENGTH", calls::JUDGE_REPORT_LENGTH),
        ("RANGES_LENGTH", calls::RANGES_LENGTH),
        ("SOLVE_LENGTH", calls::SOLVE_LENGTH),
        ("RECORD_LENGTH", calls::RECORD_LENGTH),
        ("LABORATORY_LENGTH", fibergravel::LABORATORY_LENGTH),
        ("BANDED_CORRECTION_LENGTH", calls::BANDED_CORRECTION_LENGTH),
        ("IMPORT_ENTRY_LENGTH", calls::IMPORT_ENTRY_LENGTH),
        ("IMPORT_LEFTOVER_LENGTH", calls::IMPORT_LEFTOVER_LENGTH),
    ];
    for (name, size) in sizes {
        assert_eq!(number(name), Some(size as u64), "{name}");
    }
}

#[test]
fn places_of_the_references() {
    let count = fibergravel::MOST_COLUMNS * fibergravel::MOST_STEPS;
    assert_eq!(number("REFERENCES"), Some(0));
    assert_eq!(number("REFERENCE_MARKS"), Some(count as u64));
    assert_eq!(calls::READ_REFERENCES_LENGTH, 2 * count);
}

/// The place that the header gives a name.
fn place(name: &str) -> usize {
    number(name).expect("in the header") as usize
}

#[test]
fn places_and_kinds_of_a_report() {
    let tape = include_bytes!("../../examples/f.tape");
    let kind = |name| ("REPORT_KIND", place(name) as i64);
    let accepted = [("REPORT_KIND", 0), ("REPORT_GAP", 32768)];
    let off_model = [
        kind("OFF_MODEL"),
        ("REPORT_STEP", 0),
        ("REPORT_COLUMN", 0),
        ("REPORT_FOUND", 103),
        ("REPORT_DUE", 102),
    ];
    let over_limit = [
        kind("OVER_LIMIT"),
        ("REPORT_STEP", 0),
        ("REPORT_COLUMN", 1),
        ("REPORT_FOUND", -1),
        ("REPORT_DUE", 0),
    ];
    let wide = [
        kind("WIDE"),
        ("REPORT_COST", 327680),
        ("REPORT_FLOOR", -950272),
    ];
    for (plan, y, named) in [
        ([4, 102], -16, &accepted[..]),
        ([4, 103], -16, &off_model),
        ([-1, 100], -16, &over_limit),
        ([4, 102], 16, &wide),
    ] {
        let mut expected = [0; calls::JUDGE_REPORT_LENGTH];
        for (name, number) in named {
            expected[place(name)] = *number;
        }
        let mut out = [7; calls::JUDGE_REPORT_LENGTH];
        assert_eq!(calls::judge_report(tape, &plan, &[y], &mut out), 0);
        assert_eq!(out, expected);
    }
}

#[test]
fn places_of_ranges() {
    let tape = include_bytes!("../../examples/f.tape");
    let mut out = [7; calls::RANGES_LENGTH];
    assert_eq!(calls::ranges(tape, &[4, 102], &[-16], &mut out), 0);
    let (low, high) = (place("RANGE_LOW"), place("RANGE_HIGH"));
    assert_eq!((out[low], out[high]), (1, 7));
    for j in 1..fibergravel::MOST_INPUTS {
        assert_eq!((out[low + 2 * j], out[high + 2 * j]), (0, 0));
    }
}

#[test]
fn the_largest_residual() {
    let defined = "FIBERGRAVEL_MOST_RESIDUAL ((int64_t)1 << ";
    let (_, rest) = HEADER.split_once(defined).expect("in the header");
    let (power, _) = rest.split_once(')').expect("a number");
    assert_eq!(power.parse::<u32>(), Ok(fibergravel::MOST_RESIDUAL.ilog2()));
    assert!(fibergravel::MOST_RESIDUAL.count_ones() == 1);
}

#[test]
fn steps_of_a_tape() {
    for (tape, name) in [
        (
            include_bytes!("../../examples/coupled_gain.tape"),
            "STEP_GAIN",
        ),
        (include_bytes!("../../examples/coupled.tape"), "STEP_BANDED"),
    ] {
        let step = place(name) as i64;
        let mut out = [7; calls::READ_STEP_LENGTH];
        assert_eq!(calls::read_step(tape, &mut out), 0);
        assert_eq!(out, [step]);
        let (residuals, mut pivots, mut d) = ([0; 36], [0.0; 36], [0.0; 36]);
        let mut out = [7; calls::BANDED_CORRECTION_LENGTH];
        let answer = calls::banded_correction(tape, &residuals, &mut pivots, &mut d, &mut out);
        assert_eq!((answer, out), (0, [step]));
    }
}

#[test]
fn kinds_of_a_record() {
    assert_eq!(place("PROVED"), Kind::Proved as usize);
    assert_eq!(place("IMPOSSIBLE"), Kind::Impossible as usize);
    assert_eq!(place("KIND_OPEN"), Kind::Open as usize);
}

/// So many bytes at a named place, low byte first, as one unsigned number.
fn number_at(bytes: &[u8], name: &str, count: usize) -> u32 {
    let bytes = bytes[place(name)..].iter().take(count);
    bytes.rfold(0, |number, byte| number * 256 + u32::from(*byte))
}

#[test]
fn places_of_a_record() {
    let tape = include_bytes!("../../examples/four_heaters.tape");
    let mut laboratory = [0; fibergravel::LABORATORY_LENGTH];
    let mut bytes = vec![0; read(tape).expect("a tape").service_length()];
    let kind = record(tape, &mut laboratory, &mut bytes).expect("a record");
    let found = Record::from_bytes(&bytes).expect("a record");
    let Outcome::Proved { gap, plan, .. } = found.outcome else {
        panic!("this tape has a plan")
    };
    assert_eq!(Seen::from_bytes(&laboratory), Some(found.seen()));
    assert_eq!(number_at(&bytes, "RECORD_KIND", 1), kind as u32);
    assert_eq!(
        number_at(&bytes, "RECORD_DUTY_COUNT", 1),
        found.inputs as u32
    );
    assert_eq!(
        number_at(&bytes, "RECORD_ROUNDS", 2),
        u32::from(found.rounds)
    );
    assert_eq!(number_at(&bytes, "RECORD_GAP", 4), gap);
    assert_eq!(
        number_at(&bytes, "RECORD_DUTIES", 2),
        u32::from(plan[0] as u16)
    );
    assert_eq!(number_at(&bytes, "RECORD_STATES", 1), found.states as u32);
    assert_eq!(number_at(&bytes, "RECORD_INPUTS", 1), found.inputs as u32);
    assert_eq!(number_at(&bytes, "RECORD_STEPS", 1), found.steps as u32);
    assert_eq!(number_at(&bytes, "RECORD_PLAN", 4), plan[0] as u32);
}

#[test]
fn places_and_kinds_of_an_entry() {
    let (mut out, mut leftover) = ([0; 2], [0.0]);
    for (entry, kind, found) in [(1.0, "WHOLE", 4096), (0.2, "NEAR", 819)] {
        assert_eq!(calls::import_entry(entry, &mut out, &mut leftover), 0);
        assert_eq!(out[place("ENTRY_KIND")], place(kind) as i64);
        assert_eq!(out[place("ENTRY_NUMBER")], found);
    }
}

#[test]
fn refusals() {
    for answer in 1..=18 {
        let refusal = Refusal::from_answer(answer).expect("in the table");
        let name = refusal.word().replace(' ', "_").to_uppercase();
        assert_eq!(number(&name), Some(answer), "{name}");
    }
}
