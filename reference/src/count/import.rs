//! Counts of imported entries and models.

use std::array::from_fn;

use super::{answers, refused, up_to, Counts};
use crate::generate::models::lengths;
use crate::generate::{entries, models, EntryKind, GeneratedEntry, Model};
use crate::import::{import_entry, import_model, Entry};
use crate::model::Whole;
use crate::refusal::Refusal;
use crate::tape::{ENTRY_RANGE, MOST_INPUTS, MOST_STATES};

/// The headings of request 2's calls.
pub const IMPORTS: [&str; 2] = ["import entry", "import model"];

/// The heading of entries of a rare shape.
const RARE_ENTRIES: &str = "import entry, shape";

/// The heading of models in which several things are wrong.
const RARE_MODELS: &str = "import model, shape";

/// A shape of entries: its name, and whether an entry that gives this result, if any, has it.
type EntryShape = (&'static str, fn(f64, Option<Entry>) -> bool);

/// The shapes of entries that are counted.
const ENTRY_SHAPES: [EntryShape; 13] = [
    ("leftover -1/2", |_, entry| leftover(entry) == Some(-0.5)),
    ("leftover next below 1/2", |_, entry| {
        leftover(entry) == Some(0.5_f64.next_down())
    }),
    ("leftover subnormal", |_, entry| {
        leftover(entry).is_some_and(f64::is_subnormal)
    }),
    ("4096a next below 1/2", |a, _| {
        4096.0 * a == 0.5_f64.next_down()
    }),
    ("4096a = -16384.5", |a, _| 4096.0 * a == -16_384.5),
    ("4096a = 16384.5", |a, _| 4096.0 * a == 16_384.5),
    ("4096a beyond floats", |a, _| {
        a.is_finite() && (4096.0 * a).is_infinite()
    }),
    ("number 16384", |_, entry| {
        number(entry) == Some(ENTRY_RANGE)
    }),
    ("number -16384", |_, entry| {
        number(entry) == Some(-ENTRY_RANGE)
    }),
    ("negative zero", |a, _| a == 0.0 && a.is_sign_negative()),
    ("negative infinity", |a, _| a == f64::NEG_INFINITY),
    ("not a number, negative", |a, _| {
        a.is_nan() && a.is_sign_negative()
    }),
    ("not a number, signalling", |a, _| {
        a.is_nan() && a.to_bits() & QUIET == 0
    }),
];

/// The bit of a quiet one that is not a number.
const QUIET: u64 = 1 << 51;

/// A shape of refused models: its name, and whether a model has it, given the refusals of its
/// entries in order.
type ModelShape = (&'static str, fn(&Model, &[Refusal]) -> bool);

/// The shapes of refused models that are counted.
const MODEL_SHAPES: [ModelShape; 11] = [
    ("5 with slices of the sizes", |model, _| {
        let small = model.states.max(model.inputs) < 10;
        small && !sized(model) && model.lengths() == lengths(model.states, model.inputs)
    }),
    ("5 and a faulty entry", |model, faults| {
        !sized(model) && !faults.is_empty()
    }),
    ("9 and a faulty entry", |model, faults| {
        wrong(model).contains(&true) && !faults.is_empty()
    }),
    ("9 for A alone", |model, _| {
        wrong(model) == [true, false, false]
    }),
    ("9 for B alone", |model, _| {
        wrong(model) == [false, true, false]
    }),
    ("9 for out alone", |model, _| {
        wrong(model) == [false, false, true]
    }),
    ("9 with A's last entry in B", |model, _| {
        let entries = model.a.len() + model.b.len();
        wrong(model) == [true, true, false] && 5 * entries == model.out.len()
    }),
    ("16, then 17", |model, faults| {
        tested(model) && in_order(faults, 16, 17)
    }),
    ("17, then 16", |model, faults| {
        tested(model) && in_order(faults, 17, 16)
    }),
    ("in A and in B", |model, faults| {
        let of_a = model.a.len();
        let in_a = |fault: &Refusal| fault.carried().is_some_and(|count| count < of_a);
        tested(model) && faults.iter().any(in_a) && !faults.iter().all(in_a)
    }),
    ("in the last entry alone", |model, faults| {
        let last = (model.a.len() + model.b.len()).checked_sub(1);
        tested(model) && faults.len() == 1 && faults[0].carried() == last
    }),
];

/// The number of an entry that has one.
fn number(entry: Option<Entry>) -> Option<Whole> {
    entry.map(Entry::number)
}

/// The leftover of an entry that is near a number.
fn leftover(entry: Option<Entry>) -> Option<f64> {
    match entry? {
        Entry::Whole(_) => None,
        Entry::Near { leftover, .. } => Some(leftover),
    }
}

/// Are both sizes in their ranges?
fn sized(model: &Model) -> bool {
    (1..=MOST_STATES).contains(&model.states) && (1..=MOST_INPUTS).contains(&model.inputs)
}

/// Which of A, B and the output have another length than sizes in their ranges ask for.
fn wrong(model: &Model) -> [bool; 3] {
    if !sized(model) {
        return [false; 3];
    }
    let (lent, due) = (model.lengths(), lengths(model.states, model.inputs));
    from_fn(|slice| lent[slice] != due[slice])
}

/// Do the entries come to be tested?
fn tested(model: &Model) -> bool {
    sized(model) && wrong(model) == [false; 3]
}

/// Does the first fault have one number, and a later one the other?
fn in_order(faults: &[Refusal], first: u32, later: u32) -> bool {
    let mut numbers = faults.iter().map(|fault| fault.number());
    numbers.next() == Some(first) && numbers.any(|number| number == later)
}

/// The refusals of all entries that have one, with their counts.
fn faults(model: &Model) -> Vec<Refusal> {
    let fault = |(count, entry): (usize, f64)| match import_entry(entry).err()? {
        Refusal::NotFinite { .. } => Some(Refusal::NotFinite { entry: Some(count) }),
        _ => Some(Refusal::TooLarge { entry: Some(count) }),
    };
    let entries = model.entries().into_iter();
    entries.enumerate().filter_map(fault).collect()
}

/// The answers that entries of a kind lead to.
fn answers_of(kind: EntryKind) -> Vec<String> {
    let (words, refusals): (&[&str], &[u32]) = match kind {
        EntryKind::Pattern => (&["near"], &[16, 17]),
        EntryKind::Plain | EntryKind::Whole | EntryKind::Power => (&["whole", "near"], &[17]),
        EntryKind::Half | EntryKind::End => (&["near"], &[17]),
        EntryKind::Subnormal => (&["near"], &[]),
        EntryKind::Zero => (&["whole"], &[]),
        EntryKind::Infinite | EntryKind::NotANumber => (&[], &[16]),
    };
    answers(words, refusals)
}

/// The heading of entries of a kind.
fn heading(kind: EntryKind) -> String {
    format!("import entry, {kind:?}")
}

/// The name of an entry's answer.
fn entry_name(answer: Result<Entry, Refusal>) -> String {
    match answer {
        Ok(Entry::Whole(_)) => "whole".to_string(),
        Ok(Entry::Near { .. }) => "near".to_string(),
        Err(refusal) => refused(refusal.number()),
    }
}

impl Counts {
    /// Adds the headings and names of request 2's calls.
    pub fn expect_imports(&mut self) {
        let [entry, model] = IMPORTS;
        self.expect(entry, answers(&["whole", "near"], &[16, 17]));
        for kind in EntryKind::ALL {
            self.expect(&heading(kind), answers_of(kind));
        }
        let shapes = ENTRY_SHAPES.map(|(name, _)| name.to_string());
        self.expect(RARE_ENTRIES, shapes);
        self.expect(model, answers(&["written"], &[5, 9, 16, 17]));
        let shapes = MODEL_SHAPES.map(|(name, _)| name.to_string());
        self.expect(RARE_MODELS, shapes);
        self.expect("import model, n", up_to(MOST_STATES));
        self.expect("import model, m", up_to(MOST_INPUTS));
    }

    /// Counts an answer of [`import_entry`] to a generated entry.
    pub fn add_entry(&mut self, generated: GeneratedEntry, answer: Result<Entry, Refusal>) {
        let name = entry_name(answer);
        self.add(IMPORTS[0], &name);
        // Any bits may be a whole entry, which is too rare to expect.
        let expected = name != "whole" || generated.kind != EntryKind::Pattern;
        if expected {
            self.add(&heading(generated.kind), &name);
        }
        for (name, has) in ENTRY_SHAPES {
            if has(generated.entry, answer.ok()) {
                self.add(RARE_ENTRIES, name);
            }
        }
    }

    /// Counts an answer of [`import_model`], written models by their sizes.
    pub fn add_model(&mut self, model: &Model, answer: Result<(), Refusal>) {
        self.add_answer(IMPORTS[1], answer.map(|()| "written"));
        if answer.is_ok() {
            self.add("import model, n", &model.states.to_string());
            self.add("import model, m", &model.inputs.to_string());
            return;
        }
        let faults = faults(model);
        for (name, has) in MODEL_SHAPES {
            if has(model, &faults) {
                self.add(RARE_MODELS, name);
            }
        }
    }

    /// Imports the entries and the models of a seed and counts the answers.
    pub(super) fn add_imports(&mut self, seed: u64) {
        for generated in entries(seed) {
            self.add_entry(generated, import_entry(generated.entry));
        }
        for model in models(seed) {
            let mut out = model.out.clone();
            let answer = import_model(model.states, model.inputs, &model.a, &model.b, &mut out);
            self.add_model(&model, answer);
        }
    }
}
