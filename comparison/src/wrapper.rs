//! The same calls through the safe wrapper's own types.

use std::fmt::Debug;

use fibergravel as planner;
use reference::cases::{read_numbers, reference_numbers};
use reference::generate::Model;
use reference::marks::Sizes;
use reference::record::{Kind, Outcome, Record};
use reference::{Entry, Fault, Refusal, Report, Solved, Whole};

use crate::calls::{narrow, narrow_all, Answer, Call, Left, Lending};
use crate::guard::float_bits;

/// What the wrapper says, as a text, where it differs from the second program.
pub fn difference(call: Call, lending: &Lending, answer: &Answer, left: &Left) -> Option<String> {
    let mut plan = lending.plan.to_vec();
    let mut multipliers = lending.multipliers.to_vec();
    let other_answer = match (call, answer) {
        (Call::Solve, Answer::Solved(expected)) => {
            let found = planner::solve(lending.tape, &mut plan, &mut multipliers);
            other(found, expected, |found, end| *found == as_planner(*end))
        }
        (Call::Record, Answer::Recorded(expected)) => record_difference(lending, expected, left),
        (Call::BandedCorrection, Answer::Corrected(expected)) => {
            correction_difference(lending, expected, left)
        }
        _ => answer_difference(call, lending, answer),
    };
    if other_answer.is_none() && plan == left.plan && multipliers == left.multipliers {
        return None;
    }
    let answer = other_answer.unwrap_or("the same answer".to_string());
    Some(format!(
        "{answer}, plan {plan:?}, multipliers {multipliers:?}"
    ))
}

/// The same of a call that is lent nothing to write but `out`.
fn answer_difference(call: Call, lending: &Lending, answer: &Answer) -> Option<String> {
    let (tape, plan, multipliers) = (lending.tape, lending.plan, lending.multipliers);
    match (call, answer) {
        (Call::Read, Answer::Read(expected)) => {
            other(planner::read(tape), expected, |found, read| {
                numbers(found) == narrow_all(read_numbers(read))
            })
        }
        (Call::ReadReferences, Answer::References(expected)) => {
            other(planner::read_references(tape), expected, |found, read| {
                references(found) == narrow_all(reference_numbers(read))
            })
        }
        (Call::ReadStep, Answer::Step(expected)) => {
            other(planner::read_step(tape), expected, |found, step| {
                *found as i64 == narrow(*step)
            })
        }
        (Call::JudgePlan, Answer::Gap(expected)) => {
            let found = planner::judge_plan(tape, plan, multipliers);
            other(found, expected, |found, gap| *found == narrow(*gap))
        }
        (Call::JudgeReport, Answer::Reported(expected)) => report_difference(lending, expected),
        (Call::Ranges, Answer::Ranged(expected)) => {
            let found = planner::ranges(tape, plan, multipliers);
            other(found, expected, |found, ends| {
                same_ranges(found, ends, tape)
            })
        }
        (Call::JudgeMultipliers, Answer::Shown(expected)) => {
            let found = planner::judge_multipliers(tape, multipliers);
            other(found, expected, |planner::Shown, reference::Shown| true)
        }
        _ => Some("an answer of another call".to_string()),
    }
}

/// What was found, as a text, where it is not what was expected.
fn other<Found: Debug, Expected>(
    found: Result<Found, planner::Refusal>,
    expected: &Result<Expected, Refusal>,
    equal: impl Fn(&Found, &Expected) -> bool,
) -> Option<String> {
    (!same(&found, expected, equal)).then(|| format!("{found:?}"))
}

/// Are both results, and equal ones, or both the same refusal?
fn same<Found, Expected>(
    found: &Result<Found, planner::Refusal>,
    expected: &Result<Expected, Refusal>,
    equal: impl Fn(&Found, &Expected) -> bool,
) -> bool {
    match (found, expected) {
        (Ok(found), Ok(expected)) => equal(found, expected),
        (Err(found), Err(expected)) => same_refusal(*found, *expected),
        _ => false,
    }
}

/// Number and carried number are equal.
fn same_refusal(found: planner::Refusal, expected: Refusal) -> bool {
    let carried = expected.carried().map(|carried| carried as u64);
    found.number() == u64::from(expected.number())
        && found.carried() == carried
        && found.word() == expected.word()
}

/// What the wrapper reports on a plan, as a text, where numbers, column or words differ from the
/// second program's.
fn report_difference(lending: &Lending, expected: &Result<Report, Refusal>) -> Option<String> {
    let tape = lending.tape;
    let found = planner::judge_report(tape, lending.plan, lending.multipliers);
    other(found, expected, |found, expected| {
        // A tape that is accepted begins with command 10 and n.
        let states = usize::from(tape[1]);
        *found == report(*expected, states) && found.to_string() == expected.words(states)
    })
}

/// The second program's report in the wrapper's type, for a tape with so many states.
fn report(report: Report, states: usize) -> planner::Report {
    match report {
        Report::Accepted { gap } => planner::Report::Accepted { gap: narrow(gap) },
        Report::OffModel(found) => planner::Report::OffModel(fault(found, states)),
        Report::OverLimit(found) => planner::Report::OverLimit(fault(found, states)),
        Report::Wide { cost, floor } => planner::Report::Wide {
            cost: narrow(cost),
            floor: narrow(floor),
        },
    }
}

/// The second program's fault in the wrapper's type.
fn fault(fault: Fault, states: usize) -> planner::Fault {
    let column = if fault.column < states {
        planner::Column::State(fault.column)
    } else {
        planner::Column::Input(fault.column - states)
    };
    planner::Fault {
        step: fault.step,
        column,
        found: narrow(fault.found),
        due: narrow(fault.due),
    }
}

/// Are there as many ranges as the tape has inputs, with these ends and the words of a slip?
fn same_ranges(found: &[planner::Range], ends: &[Whole], tape: &[u8]) -> bool {
    // A tape that is accepted begins with command 10, n and m.
    let inputs = usize::from(tape[2]);
    let same = |(range, ends): (&planner::Range, &[Whole])| {
        [range.low, range.high].map(Whole::from) == *ends
            && range.to_string() == format!("{} {}", ends[0], ends[1])
    };
    found.len() == inputs && found.iter().zip(ends.chunks(2)).all(same)
}

/// What the wrapper says of an entry, as a text, where it differs from the second program.
pub fn entry_difference(entry: f64, expected: Result<Entry, Refusal>) -> Option<String> {
    let found = planner::import_entry(entry);
    let same = same(&found, &expected, |found, expected| {
        match (*found, *expected) {
            (planner::Entry::Whole(found), Entry::Whole(number)) => found == narrow(number),
            (
                planner::Entry::Near {
                    number: found,
                    leftover: left,
                },
                Entry::Near { number, leftover },
            ) => found == narrow(number) && left.to_bits() == leftover.to_bits(),
            _ => false,
        }
    });
    (!same).then(|| format!("{found:?}"))
}

/// What the wrapper says of a model, as a text, where it differs from the second program.
pub fn model_difference(
    model: &Model,
    expected: Result<(), Refusal>,
    written: &[u8],
) -> Option<String> {
    let mut out = model.out.clone();
    let Model {
        states,
        inputs,
        a,
        b,
        ..
    } = model;
    let found = planner::import_model(*states, *inputs, a, b, &mut out);
    let same = same(&found, &expected, |(), ()| true) && out == written;
    (!same).then(|| format!("{found:?}, out {out:?}"))
}

/// What the wrapper says of a record, as a text, where it differs from the second program.
fn record_difference(
    lending: &Lending,
    expected: &Result<Kind, Refusal>,
    left: &Left,
) -> Option<String> {
    let [mut laboratory, mut service] = lending.for_readers(Call::Record);
    let found = planner::record(lending.tape, &mut laboratory, &mut service);
    let same = same(&found, expected, |found, expected| {
        as_reference(*found) == *expected && reads_back(left)
    });
    if same && laboratory == left.laboratory && service == left.service {
        return None;
    }
    let seen = planner::Seen::from_bytes(&laboratory);
    let record = planner::Record::from_bytes(&service);
    Some(format!(
        "{found:?}, laboratory {laboratory:?}, service {service:?}, read as {seen:?}, {record:?}"
    ))
}

/// What the wrapper shows of a banded step, as a text, where it differs from the second program. It
/// lends places for pivots and d by itself, as many as there are residuals: with another number of
/// them it cannot be asked.
fn correction_difference(
    lending: &Lending,
    expected: &Result<Whole, Refusal>,
    left: &Left,
) -> Option<String> {
    let residuals = lending.residuals(Call::BandedCorrection);
    if lending.floats != [residuals.len(); 2] {
        return None;
    }
    let found = planner::banded_correction(lending.tape, &residuals);
    other(found, expected, |found, expected| match found {
        Some(found) => {
            let bits = [float_bits(&found.pivots), float_bits(&found.d)];
            *expected == 1 && bits == [&left.pivots[..], &left.correction]
        }
        None => *expected == 0,
    })
}

/// Does the wrapper read a record's bytes as the record that the second program wrote? It has no
/// reader of its own; but it writes different bytes for different records, so that writing what was
/// read must give the same bytes again.
fn reads_back(left: &Left) -> bool {
    let (Some(seen), Some(found)) = (
        planner::Seen::from_bytes(&left.laboratory),
        planner::Record::from_bytes(&left.service),
    ) else {
        return false;
    };
    let record = as_record(&found);
    record.service_bytes() == left.service
        && record.laboratory_bytes() == left.laboratory
        && as_reference(found.kind()) == record.kind()
        && found.seen() == seen
        && same_seen(&seen, &record)
}

/// Does the wrapper's laboratory see the record's kind, rounds, gap and first duties?
fn same_seen(seen: &planner::Seen, record: &Record) -> bool {
    match seen {
        planner::Seen::Proved {
            rounds,
            gap,
            duties,
        } => {
            record.kind() == Kind::Proved
                && *rounds == record.rounds
                && Some(*gap) == record.gap()
                && **duties == record.duties()
        }
        planner::Seen::Impossible { rounds } => {
            record.kind() == Kind::Impossible && *rounds == record.rounds
        }
        planner::Seen::Open { rounds } => record.kind() == Kind::Open && *rounds == record.rounds,
    }
}

/// The wrapper's kind in the second program's type.
fn as_reference(kind: planner::Kind) -> Kind {
    match kind {
        planner::Kind::Proved => Kind::Proved,
        planner::Kind::Impossible => Kind::Impossible,
        planner::Kind::Open => Kind::Open,
    }
}

/// The wrapper's record in the second program's type.
fn as_record(found: &planner::Record) -> Record {
    let outcome = match &found.outcome {
        planner::Outcome::Proved {
            gap,
            plan,
            multipliers,
        } => Outcome::Proved {
            gap: *gap,
            plan: plan.to_vec(),
            multipliers: multipliers.to_vec(),
        },
        planner::Outcome::Impossible { multipliers } => Outcome::Impossible {
            multipliers: multipliers.to_vec(),
        },
        planner::Outcome::Open => Outcome::Open,
    };
    Record {
        sizes: Sizes {
            states: found.states,
            inputs: found.inputs,
            horizon: found.steps,
        },
        rounds: found.rounds,
        outcome,
    }
}

/// The second program's answer in the wrapper's type.
fn as_planner(solved: Solved) -> planner::Solved {
    match solved {
        Solved::Proved { rounds, gap, first } => planner::Solved::Proved {
            rounds: i64::from(rounds),
            gap: narrow(gap),
            first,
        },
        Solved::Impossible { rounds } => planner::Solved::Impossible {
            rounds: i64::from(rounds),
        },
    }
}

/// A tape's numbers in the order of the call.
fn numbers(tape: &planner::Tape) -> Vec<i64> {
    let sizes = [tape.states, tape.inputs, tape.steps].map(|size| size as i64);
    let search = [tape.gain, tape.rounds, tape.wanted_gap];
    [
        &sizes,
        tape.a.as_flattened(),
        tape.b.as_flattened(),
        &tape.drift,
        &tape.lo,
        &tape.hi,
        &tape.reference,
        &tape.weight,
        &tape.start,
        &search,
    ]
    .concat()
}

/// A tape's references and then their marks, in the order of the call.
fn references(references: &planner::References) -> Vec<i64> {
    let given = references.given.as_flattened();
    let numbers = given.iter().map(|reference| reference.unwrap_or(0));
    let marks = given.iter().map(|reference| i64::from(reference.is_some()));
    numbers.chain(marks).collect()
}
