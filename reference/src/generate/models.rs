//! Models to import, as the identification tool delivers them.

use super::commands;
use super::entries::{self, EntryKind};
use super::random::Random;
use crate::import::import_entry;
use crate::model::Column;
use crate::tape::{END, MOST_INPUTS, MOST_STATES};

/// What an import is lent.
#[derive(Clone, Debug, PartialEq)]
pub struct Model {
    /// n, in its range or not.
    pub states: usize,
    /// m, in its range or not.
    pub inputs: usize,
    /// A by rows.
    pub a: Vec<f64>,
    /// B by rows.
    pub b: Vec<f64>,
    /// The output, with any bytes in it.
    pub out: Vec<u8>,
}

impl Model {
    /// A model of the sizes that is accepted.
    pub fn legal(states: usize, inputs: usize, random: &mut Random) -> Model {
        let [of_a, of_b, bytes] = lengths(states, inputs);
        let mut list = |count| (0..count).map(|_| legal_entry(random)).collect();
        let (a, b) = (list(of_a), list(of_b));
        let out = (0..bytes).map(|_| random.byte()).collect();
        Model {
            states,
            inputs,
            a,
            b,
            out,
        }
    }

    /// All entries, A before B.
    pub fn entries(&self) -> Vec<f64> {
        [self.a.as_slice(), &self.b].concat()
    }

    /// The lengths of A, B and the output as they are lent.
    pub fn lengths(&self) -> [usize; 3] {
        [self.a.len(), self.b.len(), self.out.len()]
    }

    /// Puts an entry at a count, A before B.
    pub fn put(&mut self, count: usize, entry: f64) {
        let of_a = self.a.len();
        match count.checked_sub(of_a) {
            None => self.a[count] = entry,
            Some(place) => self.b[place] = entry,
        }
    }
}

/// The lengths of A, B and the output that sizes ask for. The sizes are small.
pub fn lengths(states: usize, inputs: usize) -> [usize; 3] {
    let (of_a, of_b) = (states * states, states * inputs);
    [of_a, of_b, 5 * (of_a + of_b)]
}

/// A model of any sizes, half of them damaged.
pub fn any(random: &mut Random) -> Model {
    let states = 1 + random.below(MOST_STATES);
    let inputs = 1 + random.below(MOST_INPUTS);
    let mut model = Model::legal(states, inputs, random);
    if random.one_in(2) {
        for _ in 0..random.choose(&[1, 1, 1, 2, 3]) {
            damage(&mut model, random);
        }
    }
    model
}

/// An entry that is accepted, a whole number at times.
fn legal_entry(random: &mut Random) -> f64 {
    let kinds = [
        EntryKind::Plain,
        EntryKind::Plain,
        EntryKind::Half,
        EntryKind::Whole,
        EntryKind::End,
        EntryKind::Power,
        EntryKind::Subnormal,
        EntryKind::Zero,
    ];
    loop {
        let kind = random.choose(&kinds);
        let entry = entries::of_kind(kind, random);
        if import_entry(entry).is_ok() {
            return entry;
        }
    }
}

/// One damage to a model.
fn damage(model: &mut Model, random: &mut Random) {
    match random.below(8) {
        0 => damage_sizes(model, random),
        1 | 2 => damage_lengths(model, random),
        3..=5 => put_fault(model, random),
        _ => {
            for _ in 0..random.choose(&[2, 3, 10]) {
                put_fault(model, random);
            }
        }
    }
}

/// Puts a size beside its range or far outside. At times the slices follow it.
fn damage_sizes(model: &mut Model, random: &mut Random) {
    if !random.one_in(3) {
        model.states = outside(MOST_STATES, random);
    }
    if !random.one_in(3) {
        model.inputs = outside(MOST_INPUTS, random);
    }
    if model.states.max(model.inputs) < 10 && random.one_in(2) {
        *model = Model::legal(model.states, model.inputs, random);
    }
}

/// A size outside 1 to `most`.
fn outside(most: usize, random: &mut Random) -> usize {
    let far = [255, 256, 257, 1 << 32, (1 << 32) + 1, usize::MAX];
    match random.below(3) {
        0 => 0,
        1 => most + 1,
        _ => random.choose(&far),
    }
}

/// Gives a slice another length.
fn damage_lengths(model: &mut Model, random: &mut Random) {
    let length = |length: usize, random: &mut Random| match random.below(4) {
        0 => length + 1,
        1 => length.saturating_sub(1),
        2 => 0,
        _ => random.below(2 * length + 10),
    };
    match random.below(4) {
        0 => model.a.resize(length(model.a.len(), random), 1.0),
        1 => model.b.resize(length(model.b.len(), random), 1.0),
        2 => model.out.resize(length(model.out.len(), random), 1),
        // As many in all.
        _ => model.b.extend(model.a.pop()),
    }
}

/// Puts an entry that is refused at a random place.
fn put_fault(model: &mut Model, random: &mut Random) {
    let entries = model.a.len() + model.b.len();
    if entries == 0 {
        return;
    }
    // The last place more often than others.
    let count = match random.below(3) {
        0 => entries - 1,
        _ => random.below(entries),
    };
    model.put(count, faulty_entry(random));
}

/// An entry that is refused.
pub fn faulty_entry(random: &mut Random) -> f64 {
    let kinds = [
        EntryKind::Infinite,
        EntryKind::NotANumber,
        EntryKind::NotANumber,
        EntryKind::End,
        EntryKind::Half,
        EntryKind::Power,
    ];
    loop {
        let kind = random.choose(&kinds);
        let entry = entries::of_kind(kind, random);
        if import_entry(entry).is_err() {
            return entry;
        }
    }
}

/// A tape of one step with the commands of a model behind its command 10.
pub fn tape_with(states: usize, inputs: usize, model: &[u8]) -> Vec<u8> {
    let free = Column {
        lo: -1,
        hi: 1,
        reference: 0,
        weight: 1,
    };
    let mut tape = commands::size(states, inputs, 1);
    tape.extend(model);
    for column in 0..states + inputs {
        tape.extend(commands::column(column, &free));
    }
    for i in 0..states {
        tape.extend(commands::start(i, 0));
    }
    tape.extend(commands::search(1, 1, 0));
    tape.push(END);
    tape
}
