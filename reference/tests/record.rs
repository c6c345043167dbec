//! The firing record (request 5): bytes worked out by hand, refusals, and which records give which
//! bytes.

mod tapes;

use reference::generate::commands::of_furnace;
use reference::generate::{case, kind, records, Random};
use reference::marks::Sizes;
use reference::record::{service_length, Kind, Outcome, LABORATORY_LENGTH};
use reference::*;
use tapes::*;

/// What a slice holds before a call.
const BEFORE: u8 = 7;

/// The kind of an accepted tape's record, and its two forms.
fn recorded(tape: &[u8]) -> (Kind, Vec<u8>, Vec<u8>) {
    let sizes = Sizes::of(&read(tape).expect("an accepted tape"));
    let mut laboratory = vec![BEFORE; LABORATORY_LENGTH];
    let mut service = vec![BEFORE; service_length(sizes)];
    let kind = record(tape, &mut laboratory, &mut service).expect("a record");
    (kind, laboratory, service)
}

/// The tape of a furnace.
fn tape_of(furnace: &Furnace) -> Vec<u8> {
    of_furnace(furnace, &mut Random::new(0)).concat()
}

/// All sizes.
fn all_sizes() -> Vec<Sizes> {
    let mut all = Vec::new();
    for states in 1..=6 {
        for inputs in 1..=4 {
            for horizon in 1..=12 {
                all.push(Sizes {
                    states,
                    inputs,
                    horizon,
                });
            }
        }
    }
    all
}

#[test]
fn lengths() {
    // 1 + 1 + 2 + 4 + 4 × 2; 19 + 4 × 12 × (2 × 6 + 4) and 19 + 4 × 1 × (2 × 1 + 1).
    assert_eq!(LABORATORY_LENGTH, 16);
    assert_eq!(service_length(Sizes::MOST), 787);
    for sizes in all_sizes() {
        let (n, m, steps) = (sizes.states, sizes.inputs, sizes.horizon);
        assert_eq!(service_length(sizes), 19 + 4 * steps * (2 * n + m));
    }
}

#[test]
fn proved_record_of_tape_f() {
    // Kind 1, one duty, 2 rounds, gap 32,768 = 8000 in hexadecimal, u(0) = 4, three duties absent.
    let (kind, laboratory, service) = recorded(&tape_f());
    let seen = "01 01 02 00 00 80 00 00 04 00 FF FF FF FF FF FF";
    assert_eq!(kind, Kind::Proved);
    assert_eq!(laboratory, hex(seen));
    // n, m and N are 1; the plan is 4, 102 = 66 in hexadecimal; y~ is −16, two's complement.
    let rest = "01 01 01  04 00 00 00 66 00 00 00  F0 FF FF FF";
    assert_eq!(service, hex(&format!("{seen} {rest}")));
}

#[test]
fn impossible_record() {
    // M9's tape: kind 2, no duty, 2 rounds, then gap and duties absent. The plan keeps its 8 bytes,
    // and y~ is −234: 10000 − EA = FF16 in hexadecimal.
    let (kind, laboratory, service) = recorded(&tape_m9());
    let seen = "02 00 02 00 FF FF FF FF FF FF FF FF FF FF FF FF";
    assert_eq!(kind, Kind::Impossible);
    assert_eq!(laboratory, hex(seen));
    let rest = "01 01 01  FF FF FF FF FF FF FF FF  16 FF FF FF";
    assert_eq!(service, hex(&format!("{seen} {rest}")));
}

#[test]
fn open_record() {
    // M8: open after 5 rounds, which are R. Plan and multipliers keep their places.
    let (kind, laboratory, service) = recorded(&tape_f_gap(30_000));
    let seen = "03 00 05 00 FF FF FF FF FF FF FF FF FF FF FF FF";
    assert_eq!(kind, Kind::Open);
    assert_eq!(laboratory, hex(seen));
    let rest = "01 01 01  FF FF FF FF FF FF FF FF  FF FF FF FF";
    assert_eq!(service, hex(&format!("{seen} {rest}")));
}

#[test]
fn proved_record_of_two_inputs_and_two_steps() {
    // Round 0 of the pair (figures.rs): gap 630,784 = 9A000, u(0) = 0 1, x(1) = 20 23, u(1) = 0 1,
    // x(2) = 32 26, y~ = 0 in four places.
    let (kind, laboratory, service) = recorded(&with_search(PAIR_FRONT, 1, 1, u32::MAX));
    let seen = "01 02 01 00 00 A0 09 00 00 00 01 00 FF FF FF FF";
    assert_eq!(kind, Kind::Proved);
    assert_eq!(laboratory, hex(seen));
    let plan = "00000000 01000000 14000000 17000000 00000000 01000000 20000000 1A000000";
    let multipliers = "00000000 00000000 00000000 00000000";
    assert_eq!(
        service,
        hex(&format!("{seen} 02 02 02 {plan} {multipliers}"))
    );
}

#[test]
fn the_widest_gap_and_duties_of_minus_1() {
    for inputs in 1..=4 {
        let mut furnace = records::widest_gap(inputs);
        let (kind, laboratory, service) = recorded(&tape_of(&furnace));
        // Gap and all duties, present and absent, are FF; only the number of duties says which.
        let mut seen = hex("01 00 02 00");
        seen[1] = inputs as u8;
        seen.resize(LABORATORY_LENGTH, 0xff);
        assert_eq!((kind, &laboratory), (Kind::Proved, &seen));
        // Duties of −1, the state 0, and y~ = 65,537 = 10001 in hexadecimal.
        let plan = ["FFFFFFFF"].repeat(inputs).concat();
        let rest = hex(&format!("01 {inputs:02X} 01 {plan} 00000000 01000100"));
        assert_eq!(service, [seen, rest].concat());
        // With T one unit less the tape is open.
        furnace.wanted_gap -= 1;
        assert_eq!(recorded(&tape_of(&furnace)).0, Kind::Open);
    }
}

#[test]
fn plans_and_multipliers_of_minus_1() {
    for sizes in all_sizes() {
        let (kind, laboratory, service) = recorded(&tape_of(&records::proved(sizes)));
        assert_eq!((kind, laboratory[1]), (Kind::Proved, sizes.inputs as u8));
        assert_eq!(laboratory[2..8], [1, 0, 0, 0, 0, 0]);
        assert_eq!(laboratory[8..], [0xff; 8]);
        let plan = &service[19..19 + 4 * sizes.plan_length()];
        assert!(plan.iter().all(|byte| *byte == 0xff));
        // 'Impossible' and 'open' differ in the kind alone.
        let (kind, laboratory, mut service) = recorded(&tape_of(&records::impossible(sizes)));
        assert_eq!(kind, Kind::Impossible);
        assert_eq!(laboratory[..4], [2, 0, 2, 0]);
        assert!(service[19..].iter().all(|byte| *byte == 0xff));
        service[0] = 3;
        let (kind, laboratory, open) = recorded(&tape_of(&records::open(sizes)));
        assert_eq!((kind, open), (Kind::Open, service));
        assert_eq!(laboratory[..4], [3, 0, 2, 0]);
    }
}

#[test]
fn records_as_text() {
    assert_eq!(
        record::text(&tape_f()),
        "laboratory 01 01 02 00 00 80 00 00 04 00 FF FF FF FF FF FF\n\
         service 01 01 02 00 00 80 00 00 04 00 FF FF FF FF FF FF 01 01 01 \
         04 00 00 00 66 00 00 00 F0 FF FF FF\n"
    );
    assert_eq!(
        record::text(&tape_m9()),
        "laboratory 02 00 02 00 FF FF FF FF FF FF FF FF FF FF FF FF\n\
         service 02 00 02 00 FF FF FF FF FF FF FF FF FF FF FF FF 01 01 01 \
         FF FF FF FF FF FF FF FF 16 FF FF FF\n"
    );
    assert_eq!(
        record::text(&tape_f_gap(30_000)),
        "laboratory 03 00 05 00 FF FF FF FF FF FF FF FF FF FF FF FF\n\
         service 03 00 05 00 FF FF FF FF FF FF FF FF FF FF FF FF 01 01 01 \
         FF FF FF FF FF FF FF FF FF FF FF FF\n"
    );
    assert_eq!(
        record::text(&hex(&format!("{F_FRONT} FF"))),
        "refused 7 at 36\n"
    );
    assert_eq!(record::text(&[]), "refused 1 at 0\n");
}

#[test]
fn the_tape_is_refused_before_the_lengths() {
    let right = service_length(Sizes::of(&read(&tape_f()).unwrap()));
    let mut overrun = tape_f();
    overrun.push(0);
    let refused = [
        (Vec::new(), Refusal::Cut { offset: 0 }),
        (
            hex(&format!("{F_FRONT} FF")),
            Refusal::Absent { offset: 36 },
        ),
        (overrun, Refusal::Overrun { offset: 46 }),
    ];
    for (tape, refusal) in refused {
        for (of_laboratory, of_service) in [(LABORATORY_LENGTH, right), (0, 0), (17, right)] {
            let mut laboratory = vec![BEFORE; of_laboratory];
            let mut service = vec![BEFORE; of_service];
            let answer = record(&tape, &mut laboratory, &mut service);
            assert_eq!(answer, Err(refusal));
            assert!([laboratory, service].concat().iter().all(|b| *b == BEFORE));
        }
    }
}

#[test]
fn another_length_is_refused() {
    // Two lengths one off, 0 and the other's, for each and for both: 5 × 5 without the right pair.
    for tape in [tape_f(), tape_m9(), tape_f_gap(30_000)] {
        let lengths = records::wrong_lengths(Sizes::of(&read(&tape).unwrap()));
        assert_eq!(lengths.len(), 24);
        for pair in [[15, 31], [17, 31], [0, 31], [16, 30], [16, 32], [31, 16]] {
            assert!(lengths.contains(&pair), "{pair:?}");
        }
        for [of_laboratory, of_service] in lengths {
            let mut laboratory = vec![BEFORE; of_laboratory];
            let mut service = vec![BEFORE; of_service];
            let answer = record(&tape, &mut laboratory, &mut service);
            assert_eq!(answer, Err(Refusal::Length));
            assert!([laboratory, service].concat().iter().all(|b| *b == BEFORE));
        }
    }
}

/// Rounds of which some have FF.
const ROUNDS: [u16; 4] = [1, 0x00ff, 0xff00, 0xffff];

/// Numbers that look absent, and their neighbours.
const NUMBERS: [i32; 3] = [-1, 0, 255];

/// Records of all kinds, of m from 1 to 4 and of up to 2 states and steps, with numbers that look
/// absent.
fn small_records() -> Vec<Record> {
    let small = |sizes: &Sizes| sizes.states <= 2 && sizes.horizon <= 2;
    let mut all = Vec::new();
    for sizes in all_sizes().into_iter().filter(small) {
        for rounds in ROUNDS {
            let outcomes = small_outcomes(sizes).into_iter();
            all.extend(outcomes.map(|outcome| Record {
                sizes,
                rounds,
                outcome,
            }));
        }
    }
    all
}

/// The outcomes of [`small_records`]: plans and multipliers of one number, but for the first or the
/// last of them, which is another in some.
fn small_outcomes(sizes: Sizes) -> Vec<Outcome> {
    let mut all = vec![Outcome::Open];
    let of_multipliers = varied(sizes.multipliers_length());
    for multipliers in &of_multipliers {
        let multipliers = multipliers.clone();
        all.push(Outcome::Impossible { multipliers });
    }
    for gap in [0, 0xff, 0xffff_fffe, 0xffff_ffff] {
        for plan in varied(sizes.plan_length()) {
            for multipliers in of_multipliers.iter().take(2) {
                let (plan, multipliers) = (plan.clone(), multipliers.clone());
                all.push(Outcome::Proved {
                    gap,
                    plan,
                    multipliers,
                });
            }
        }
    }
    all
}

/// Lists of `count` numbers, no two of them equal.
fn varied(count: usize) -> Vec<Vec<i32>> {
    let mut all = Vec::new();
    for number in NUMBERS {
        all.push(vec![number; count]);
    }
    for place in [0, count - 1] {
        let mut list = vec![-1; count];
        list[place] = -256;
        all.push(list);
    }
    all.dedup();
    all
}

/// What the laboratory is to see: kind, rounds, gap and first duties.
fn seen(record: &Record) -> (Kind, u16, Option<u32>, Vec<i16>) {
    (record.kind(), record.rounds, record.gap(), record.duties())
}

#[test]
fn which_records_give_which_bytes() {
    let records = small_records();
    let bytes = |record: &Record| (record.laboratory_bytes(), record.service_bytes());
    let all: Vec<_> = records.iter().map(bytes).collect();
    let mut seen_same = 0;
    for (one, (of_laboratory, of_service)) in records.iter().zip(&all) {
        for (other, bytes) in records.iter().zip(&all) {
            let same = seen(one) == seen(other);
            assert_eq!(*of_laboratory == bytes.0, same, "{one:?}, {other:?}");
            assert_eq!(*of_service == bytes.1, one == other, "{one:?}, {other:?}");
            seen_same += usize::from(same && one != other);
        }
    }
    // Unlike records that the laboratory cannot tell apart are among them.
    assert!(seen_same > 1_000, "{seen_same}");
}

#[test]
fn generated_records_hold_what_a_solve_leaves() {
    let mut kinds = [0; 3];
    for seed in (0..600).filter(|seed| kind(*seed) != generate::Kind::Late) {
        let tape = case(seed).tape.bytes;
        let Ok(furnace) = read(&tape) else {
            continue;
        };
        let sizes = Sizes::of(&furnace);
        let mut plan = vec![7; furnace.plan_length()];
        let mut multipliers = vec![7; furnace.multipliers_length()];
        let solved = solve(&tape, &mut plan, &mut multipliers);
        let expected = Record::of_solve(sizes, solved, &plan, &multipliers).unwrap();
        if let Ok(Solved::Proved { first, .. }) = solved {
            let duties: Vec<i32> = expected.duties().into_iter().map(i32::from).collect();
            assert_eq!(duties, first[..sizes.inputs]);
        }
        let (kind, laboratory, service) = recorded(&tape);
        assert_eq!(kind, expected.kind());
        assert_eq!(laboratory, expected.laboratory_bytes());
        assert_eq!(service, expected.service_bytes());
        assert_eq!(service[..LABORATORY_LENGTH], laboratory);
        kinds[usize::from(kind.number()) - 1] += 1;
    }
    assert!(kinds.iter().all(|count| *count > 0), "{kinds:?}");
}
