//! The record of an example holds what a solve of the same tape gives.

use fibergravel::{
    read, record, solve, Kind, Outcome, Record, Refusal, Seen, Solved, LABORATORY_LENGTH,
    MOST_SERVICE,
};

const TAPES: [(Kind, &[u8]); 7] = [
    (Kind::Proved, include_bytes!("../../examples/f.tape")),
    (Kind::Proved, include_bytes!("../../examples/firing.tape")),
    (
        Kind::Proved,
        include_bytes!("../../examples/four_heaters.tape"),
    ),
    (
        Kind::Proved,
        include_bytes!("../../examples/insulation.tape"),
    ),
    (Kind::Proved, include_bytes!("../../examples/ramp.tape")),
    (
        Kind::Impossible,
        include_bytes!("../../examples/no_plan.tape"),
    ),
    (Kind::Open, include_bytes!("../../examples/open.tape")),
];

/// What the service sees, after the laboratory was found to see its part of it.
fn recorded(tape: &[u8], kind: Kind) -> Record {
    // Whatever the slices hold before, each byte is written.
    let mut laboratory = [0x55; LABORATORY_LENGTH];
    let mut service = vec![0xAA; read(tape).expect("a tape").service_length()];
    assert_eq!(record(tape, &mut laboratory, &mut service), Ok(kind));
    assert_eq!(laboratory, service[..LABORATORY_LENGTH]);
    let record = Record::from_bytes(&service).expect("a record");
    assert_eq!(Seen::from_bytes(&laboratory), Some(record.seen()));
    assert_eq!(record.kind(), kind);
    record
}

#[test]
fn a_record_holds_what_a_solve_gives() {
    for (kind, tape) in TAPES {
        let record = recorded(tape, kind);
        let numbers = read(tape).expect("a tape");
        let sizes = (record.states, record.inputs, record.steps);
        assert_eq!(sizes, (numbers.states, numbers.inputs, numbers.steps));
        let mut plan = vec![0; numbers.plan_length()];
        let mut multipliers = vec![0; numbers.multipliers_length()];
        let rounds = match (solve(tape, &mut plan, &mut multipliers), record.outcome) {
            (
                Ok(Solved::Proved { rounds, gap, .. }),
                Outcome::Proved {
                    gap: g,
                    plan: p,
                    multipliers: y,
                },
            ) => {
                assert_eq!((gap, &*plan, &*multipliers), (i64::from(g), &*p, &*y));
                rounds
            }
            (Ok(Solved::Impossible { rounds }), Outcome::Impossible { multipliers: y }) => {
                assert_eq!(*multipliers, *y);
                rounds
            }
            (Err(Refusal::Open { rounds }), Outcome::Open) => rounds as i64,
            others => panic!("{others:?}"),
        };
        assert_eq!(rounds, i64::from(record.rounds));
    }
}

/// The refusal of a record, after both slices were found to be as they were.
fn refusal(tape: &[u8], laboratory_length: usize, service_length: usize) -> Option<Refusal> {
    let (mut laboratory, mut service) = (vec![0x55; laboratory_length], vec![0xAA; service_length]);
    let refusal = record(tape, &mut laboratory, &mut service).err();
    assert_eq!(laboratory, vec![0x55; laboratory_length]);
    assert_eq!(service, vec![0xAA; service_length]);
    refusal
}

#[test]
fn what_is_refused_is_left_as_it_was() {
    for (_, tape) in TAPES {
        let length = read(tape).expect("a tape").service_length();
        for (laboratory, service) in [(0, length), (15, length), (17, length), (16, 0)] {
            assert_eq!(refusal(tape, laboratory, service), Some(Refusal::Length));
        }
        assert_eq!(refusal(tape, 16, length - 1), Some(Refusal::Length));
        assert_eq!(refusal(tape, 16, length + 1), Some(Refusal::Length));
    }
    let refused = include_bytes!("../../examples/refused.tape");
    let offset = 186;
    for (laboratory, service) in [(16, MOST_SERVICE), (0, 0)] {
        let found = refusal(refused, laboratory, service);
        assert_eq!(found, Some(Refusal::OutOfRange { offset }));
    }
}
