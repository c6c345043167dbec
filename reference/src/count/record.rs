//! Counts of records and of the call that writes them.

use super::{tape_answers, Counts};
use crate::generate::records::wrong_lengths;
use crate::marks::Sizes;
use crate::record::{record, service_length, Kind, Record, LABORATORY_LENGTH};
use crate::refusal::Refusal;
use crate::tape::MOST_INPUTS;

/// The heading of the call's answers.
pub const RECORDS: &str = "record";

/// The heading of records by kind and m.
const BY_INPUTS: &str = "record, kind and m";

/// The heading of rare shapes.
const RARE: &str = "record, shape";

/// The heading of wrong lengths.
const LENGTHS: &str = "record, wrong length";

/// The names under [`LENGTHS`].
const READERS: [&str; 3] = ["the laboratory's", "the service's", "both"];

/// A shape of records: its name, and whether a record has it.
type Shape = (&'static str, fn(&Record) -> bool);

/// The shapes that are counted: present numbers that look absent, being FF throughout, and ends of
/// their ranges.
const SHAPES: [Shape; 6] = [
    ("a duty of -1", |record| record.duties().contains(&-1)),
    ("a plan number of -1", |record| {
        record.plan().is_some_and(|plan| plan.contains(&-1))
    }),
    ("proved, a multiplier of -1", |record| {
        record.kind() == Kind::Proved && has_minus_1(record)
    }),
    ("impossible, a multiplier of -1", |record| {
        record.kind() == Kind::Impossible && has_minus_1(record)
    }),
    ("gap 0", |record| record.gap() == Some(0)),
    ("gap of 4 bytes", |record| {
        record.gap().is_some_and(|gap| gap >= 1 << 24)
    }),
];

/// Is a multiplier −1?
fn has_minus_1(record: &Record) -> bool {
    let multipliers = record.multipliers();
    multipliers.is_some_and(|multipliers| multipliers.contains(&-1))
}

impl Counts {
    /// Adds the headings and names of records.
    pub fn expect_records(&mut self) {
        let kinds = Kind::ALL.map(Kind::word);
        self.expect(RECORDS, tape_answers(&kinds, &[9]));
        let by_inputs = kinds
            .iter()
            .flat_map(|kind| (1..=MOST_INPUTS).map(move |inputs| format!("{kind} {inputs}")));
        self.expect(BY_INPUTS, by_inputs);
        self.expect(RARE, SHAPES.map(|(name, _)| name.to_string()));
        self.expect(LENGTHS, READERS.map(str::to_string));
    }

    /// Counts an answer of [`record()`].
    pub fn add_record_answer(&mut self, answer: Result<Kind, Refusal>) {
        self.add_answer(RECORDS, answer.map(Kind::word));
    }

    /// Counts a record by kind, m and shapes.
    pub fn add_record(&mut self, record: &Record) {
        let (kind, inputs) = (record.kind().word(), record.sizes.inputs);
        self.add(BY_INPUTS, &format!("{kind} {inputs}"));
        for (name, _) in SHAPES.iter().filter(|(_, has)| has(record)) {
            self.add(RARE, name);
        }
    }

    /// Counts a pair of lengths that is refused, the laboratory's and the service's.
    pub fn add_wrong_length(&mut self, sizes: Sizes, [laboratory, service]: [usize; 2]) {
        let [of_laboratory, of_service, of_both] = READERS;
        let name = if service == service_length(sizes) {
            of_laboratory
        } else if laboratory == LABORATORY_LENGTH {
            of_service
        } else {
            of_both
        };
        self.add(LENGTHS, name);
    }

    /// Counts the record that a tape's solve has led to, and the call's answers to slices of wrong
    /// lengths; without a record the tape's refusal.
    pub(super) fn add_records(&mut self, tape: &[u8], solved: Option<&Record>) {
        let Some(solved) = solved else {
            self.add_record_answer(record(tape, &mut [], &mut []));
            return;
        };
        self.add_record_answer(Ok(solved.kind()));
        self.add_record(solved);
        for lengths in wrong_lengths(solved.sizes) {
            let [mut laboratory, mut service] = lengths.map(|length| vec![0; length]);
            self.add_record_answer(record(tape, &mut laboratory, &mut service));
            self.add_wrong_length(solved.sizes, lengths);
        }
    }
}
