//! Entries and models in floats on both sides: of a seed, beside numbers, halves and powers of two,
//! of every length, and with faults at every place.

use std::fmt;

use fibergravel::calls;
use reference::generate::entries::moved;
use reference::generate::models::{faulty_entry, lengths, tape_with};
use reference::generate::{entries, models, Model, Random};
use reference::tape::{MOST_INPUTS, MOST_STATES};
use reference::{import_entry, import_model, Entry, Refusal};

use crate::calls::{narrow, refused, Call, Lending};
use crate::comparison::{Comparison, ENTRIES, FAULTY_ENTRIES, IMPORTED, MODEL_LENGTHS};
use crate::guard::{bits, marks, Beside, Guarded};
use crate::wrapper;

/// The seed of everything here that has no other.
const SEED: u64 = 8;

/// Numbers and halves go this far, beyond the largest number of an entry.
const BEYOND: i32 = 16_390;

/// An entry, written as the cases of the test programs are.
struct EntryCase(f64);

impl fmt::Display for EntryCase {
    fn fmt(&self, f: &mut fmt::Formatter) -> fmt::Result {
        write!(f, "entry {:016X}", self.0.to_bits())
    }
}

/// A model, written likewise, and what its `out` holds before the call.
struct ModelCase<'a>(&'a Model);

impl fmt::Display for ModelCase<'_> {
    fn fmt(&self, f: &mut fmt::Formatter) -> fmt::Result {
        let Model {
            states,
            inputs,
            out,
            ..
        } = self.0;
        let [of_a, of_b, bytes] = self.0.lengths();
        write!(f, "model ")?;
        for entry in self.0.entries() {
            write!(f, "{:016X}", entry.to_bits())?;
        }
        writeln!(f, " / {states} {inputs} {of_a} {of_b} {bytes}")?;
        write!(f, "out {out:?}")
    }
}

/// What the import of an entry left.
#[derive(Debug, PartialEq, Eq)]
struct EntryLeft {
    /// 0, or the refusal's number.
    answer: u64,
    /// `out`, which holds marks before the call.
    out: Vec<i64>,
    /// The bits of `leftover`, which holds marks before the call.
    leftover: Vec<u64>,
    /// Are the cells beside both as they were?
    rest_holds: bool,
}

/// What the import of a model left.
#[derive(Debug, PartialEq, Eq)]
struct ModelLeft {
    /// 0, or the refusal's number + 256 × what it carries.
    answer: u64,
    /// The lent output.
    out: Vec<u8>,
    /// Is all else as it was: A, B and the cells beside everything that was lent?
    rest_holds: bool,
}

/// The planner's side of an entry.
fn entry_by_planner(entry: f64, beside: Beside) -> EntryLeft {
    let mut out = Guarded::marked(&marks(calls::IMPORT_ENTRY_LENGTH), beside);
    let mut leftover = Guarded::marked(&marks(calls::IMPORT_LEFTOVER_LENGTH), beside);
    let answer = calls::import_entry(
        entry,
        out.lent_mut().try_into().expect("its length is lent"),
        leftover.lent_mut().try_into().expect("its length is lent"),
    );
    EntryLeft {
        answer,
        out: out.lent().to_vec(),
        leftover: bits(leftover.lent()),
        rest_holds: out.guards_hold() && leftover.guards_hold(),
    }
}

/// What the second program's answer to an entry leaves.
fn entry_left(answer: Result<Entry, Refusal>) -> EntryLeft {
    let (number, out, leftover) = match answer {
        Ok(Entry::Whole(number)) => (0, vec![1, narrow(number)], vec![0.0]),
        Ok(Entry::Near { number, leftover }) => (0, vec![2, narrow(number)], vec![leftover]),
        Err(refusal) => (
            refused(refusal),
            marks(calls::IMPORT_ENTRY_LENGTH),
            marks(calls::IMPORT_LEFTOVER_LENGTH),
        ),
    };
    EntryLeft {
        answer: number,
        out,
        leftover: bits(&leftover),
        rest_holds: true,
    }
}

/// The planner's side of a model.
fn model_by_planner(model: &Model, beside: Beside) -> ModelLeft {
    let a = Guarded::marked(&model.a, beside);
    let b = Guarded::marked(&model.b, beside);
    let mut out = Guarded::marked(&model.out, beside);
    let (states, inputs) = (model.states, model.inputs);
    let answer = calls::import_model(states, inputs, a.lent(), b.lent(), out.lent_mut());
    ModelLeft {
        answer,
        out: out.lent().to_vec(),
        rest_holds: a.all_hold() && b.all_hold() && out.guards_hold(),
    }
}

/// The second program's side of a model.
fn model_by_reference(model: &Model) -> (Result<(), Refusal>, ModelLeft) {
    let mut out = model.out.clone();
    let answer = import_model(model.states, model.inputs, &model.a, &model.b, &mut out);
    let left = ModelLeft {
        answer: answer.map_or_else(refused, |()| 0),
        out,
        rest_holds: true,
    };
    (answer, left)
}

impl Comparison {
    /// The entries of a seed.
    pub fn add_entries_of(&mut self, seed: u64) {
        for generated in entries(seed) {
            let answer = self.import_entry(generated.entry);
            self.counts.add_entry(generated, answer);
        }
    }

    /// The models of a seed.
    pub fn add_models_of(&mut self, seed: u64) {
        for model in models(seed) {
            let answer = self.import_model(&model);
            self.counts.add_model(&model, answer);
        }
    }

    /// Imports an entry on both sides.
    fn import_entry(&mut self, entry: f64) -> Result<Entry, Refusal> {
        let answer = import_entry(entry);
        let expected = entry_left(answer);
        let found = entry_by_planner(entry, self.beside);
        let of_wrapper = || wrapper::entry_difference(entry, answer);
        self.compare(
            &format_args!("ImportEntry"),
            &EntryCase(entry),
            &found,
            &expected,
            of_wrapper,
        );
        answer
    }

    /// Imports a model on both sides. What is written is then read from a tape.
    fn import_model(&mut self, model: &Model) -> Result<(), Refusal> {
        let (answer, expected) = model_by_reference(model);
        let found = model_by_planner(model, self.beside);
        let of_wrapper = || wrapper::model_difference(model, answer, &expected.out);
        self.compare(
            &format_args!("ImportModel"),
            &ModelCase(model),
            &found,
            &expected,
            of_wrapper,
        );
        if answer.is_ok() {
            self.read_imported(model, &found.out);
        }
        answer
    }

    /// Imports an entry that is counted apart from the generated ones.
    fn also_entry(&mut self, entry: f64) {
        self.add_also(ENTRIES);
        let _answer = self.import_entry(entry);
    }

    /// Imports a model that is counted apart from the generated ones.
    fn also_model(&mut self, origin: &str, model: &Model) {
        self.add_also(origin);
        let _answer = self.import_model(model);
    }

    /// Reads a tape with the commands that an import wrote, and looks for the entries' numbers at
    /// their places.
    fn read_imported(&mut self, model: &Model, written: &[u8]) {
        let tape = tape_with(model.states, model.inputs, written);
        let lending = Lending::new(IMPORTED, &tape, &[], &[]);
        let (_, left) = self.also(Call::Read, &lending);
        let (found, expected) = (left.out.get(PLACES), placed(model));
        if found != Some(&expected) {
            let call = format_args!("numbers of an imported model");
            self.differ(&call, &ModelCase(model), &found, &expected);
        }
    }
}

/// Where read's result has A by rows of 6 and then B by rows of 4.
const PLACES: std::ops::Range<usize> = 3..63;

/// The numbers of a model's entries in those places, 0 beyond its sizes. All of them have one.
fn placed(model: &Model) -> Vec<i64> {
    let number = |entry: f64| import_entry(entry).map_or(i64::MIN, |entry| narrow(entry.number()));
    let rows = |entries: &[f64], width: usize, places: usize| {
        let mut all = vec![0; MOST_STATES * places];
        for (count, entry) in entries.iter().enumerate() {
            all[count / width * places + count % width] = number(*entry);
        }
        all
    };
    let a = rows(&model.a, model.states, MOST_STATES);
    let b = rows(&model.b, model.inputs, MOST_INPUTS);
    [a, b].concat()
}

/// Entries whose 4096-folds are beside every whole number and every half up to beyond the range, and
/// beside every power of two; and those that are no neighbour of any.
pub fn add_entries(comparison: &mut Comparison) {
    let halves = (-2 * BEYOND..=2 * BEYOND).map(|halves| f64::from(halves) / 8192.0);
    let subnormal = (0..52).map(|place| f64::from_bits(1 << place));
    let normal = (1..2047).map(|exponent| f64::from_bits(exponent << 52));
    let powers = subnormal.chain(normal).flat_map(|power| [power, -power]);
    for entry in halves.chain(powers) {
        for floats in -3..=3 {
            comparison.also_entry(moved(entry, floats));
        }
        if comparison.ends() {
            return;
        }
    }
    for entry in [0.0, f64::INFINITY, f64::NAN, f64::from_bits(SIGNALLING)] {
        comparison.also_entry(entry);
        comparison.also_entry(-entry);
    }
}

/// Not a number, and signalling, with the least of digits.
const SIGNALLING: u64 = 0x7ff0_0000_0000_0001;

/// Models of all sizes, with each slice of every length while the others have theirs, of sizes
/// beside the range and far outside, and with faulty entries at every place.
pub fn add_models(comparison: &mut Comparison) {
    let mut random = Random::new(SEED);
    for states in 1..=MOST_STATES {
        for inputs in 1..=MOST_INPUTS {
            let model = Model::legal(states, inputs, &mut random);
            add_lengths(comparison, &model);
            add_faults(comparison, &model, &mut random);
            if comparison.ends() {
                return;
            }
        }
    }
    add_sizes(comparison, &mut random);
}

/// A model of which one slice has another length, each from 0 to beyond the longest.
fn add_lengths(comparison: &mut Comparison, model: &Model) {
    let [most_a, most_b, most_bytes] = lengths(MOST_STATES, MOST_INPUTS);
    let mut also = |change: &dyn Fn(&mut Model)| {
        let mut model = model.clone();
        change(&mut model);
        comparison.also_model(MODEL_LENGTHS, &model);
    };
    for length in 0..=most_a + 1 {
        also(&|model| model.a.resize(length, 1.0));
    }
    for length in 0..=most_b + 1 {
        also(&|model| model.b.resize(length, 1.0));
    }
    for length in 0..=most_bytes + 1 {
        also(&|model| model.out.resize(length, 1));
    }
}

/// A model with a faulty entry at each place, alone and with others behind it.
fn add_faults(comparison: &mut Comparison, model: &Model, random: &mut Random) {
    let entries = model.a.len() + model.b.len();
    for count in 0..entries {
        for fault in [f64::NAN, f64::NEG_INFINITY, 1e300, 16_384.5 / 4096.0] {
            let mut model = model.clone();
            model.put(count, fault);
            comparison.also_model(FAULTY_ENTRIES, &model);
            for behind in count + 1..entries {
                model.put(behind, faulty_entry(random));
            }
            comparison.also_model(FAULTY_ENTRIES, &model);
        }
    }
}

/// Models of sizes in the range and beside it, with the lengths that they ask for, and of sizes so
/// large that their products do not fit.
fn add_sizes(comparison: &mut Comparison, random: &mut Random) {
    let mut also = |model: &Model| comparison.also_model(MODEL_LENGTHS, model);
    for states in 0..=MOST_STATES + 2 {
        for inputs in 0..=MOST_INPUTS + 2 {
            also(&Model::legal(states, inputs, random));
        }
    }
    let large = [1 << 8, 1 << 16, 1 << 32, 1 << 63, usize::MAX];
    let large = large.map(|size: usize| [size, size.wrapping_add(1)]);
    let sizes = [&[1, 2, 6][..], large.as_flattened()].concat();
    for states in &sizes {
        for inputs in &sizes {
            for model in [(0, 0), (1, 1), (1, 4)] {
                let mut model = Model::legal(model.0, model.1, random);
                (model.states, model.inputs) = (*states, *inputs);
                also(&model);
            }
        }
    }
}
