//! Counts of tapes that give a drawn set of places.

use super::{answers, Counts};
use crate::calls::read;
use crate::generate::{given, GivenTape};
use crate::marks::{Place, Sizes};
use crate::model::{Correction, Furnace};
use crate::refusal::Refusal;
use crate::shapes;

/// The heading of the answers of [`read`] to such tapes.
pub const GIVEN: &str = "given places";

/// The heading of how many required places are missing.
const MISSING: &str = "given places, missing";

/// The heading of the one that is missing, where it is one alone.
const ALONE: &str = "given places, one missing";

/// The heading of rare shapes.
const RARE: &str = "given places, shape";

/// Counts of missing places in groups, each with its last number and its name. No tape lacks more
/// than 127: a column needs a step given to need the other 11.
const GROUPS: [(usize, &str); 9] = [
    (0, "0"),
    (1, "1"),
    (2, "2"),
    (16, "3-16"),
    (17, "17"),
    (62, "18-62"),
    (65, "63-65"),
    (126, "66-126"),
    (127, "127"),
];

/// The names of a place that is missing alone.
const PLACES: [&str; 7] = [
    "column of a state",
    "column of an input",
    "start value",
    "rounds",
    "first step",
    "step between",
    "last step",
];

/// Counted with the shapes: accepted tapes with a command 51 or with weights of 0.
const ACCEPTED: [shapes::Shape; 3] = [
    ("accepted with a 51", |furnace| {
        furnace.correction == Correction::Banded
    }),
    ("accepted, some weight 0", shapes::some_weight_0),
    ("accepted, all weights 0", shapes::all_weights_0),
];

/// A shape of tapes: its name, and whether a tape has it.
type Shape = (&'static str, fn(&GivenTape) -> bool);

/// The shapes that are counted.
const SHAPES: [Shape; 5] = [
    ("no place given", |tape| tape.marks.is_empty()),
    ("all 137 places given", |tape| {
        tape.marks.len() == Sizes::MOST.places().len()
    }),
    ("steps and nothing else", |tape| {
        let mut marks = tape.marks.iter();
        !tape.marks.is_empty() && marks.all(|place| matches!(place, Place::Step(..)))
    }),
    ("one step of each column", |tape| {
        (0..tape.sizes.columns()).all(|column| tape.steps(column) == 1)
    }),
    ("a whole curve without its 30", |tape| {
        let whole = |column: &usize| tape.steps(*column) == tape.sizes.horizon;
        let mut columns = (0..tape.sizes.columns()).filter(whole);
        columns.any(|column| !tape.marks.contains(&Place::Column(column)))
    }),
];

impl GivenTape {
    /// How many steps of a column are given.
    fn steps(&self, column: usize) -> usize {
        let of_column = |place: &&Place| matches!(place, Place::Step(c, _) if *c == column);
        self.marks.iter().filter(of_column).count()
    }
}

/// The name of a place that is missing alone.
fn name(sizes: Sizes, place: Place) -> &'static str {
    let place = match place {
        Place::Column(c) if c < sizes.states => 0,
        Place::Column(_) => 1,
        Place::Start(_) => 2,
        Place::Search => 3,
        Place::Step(_, 0) => 4,
        Place::Step(_, k) if k + 1 < sizes.horizon => 5,
        Place::Step(..) => 6,
    };
    PLACES[place]
}

impl Counts {
    /// Adds the headings and names of tapes that give a drawn set of places.
    pub fn expect_given(&mut self) {
        self.expect(GIVEN, answers(&["accepted"], &[7]));
        self.expect(MISSING, GROUPS.map(|(_, name)| name.to_string()));
        self.expect(ALONE, PLACES.map(str::to_string));
        let names = SHAPES.map(|(name, _)| name);
        let names = names.into_iter().chain(ACCEPTED.map(|(name, _)| name));
        self.expect(RARE, names.map(str::to_string));
    }

    /// Counts an answer of [`read`] to such a tape.
    pub fn add_given(&mut self, tape: &GivenTape, answer: &Result<Furnace, Refusal>) {
        let accepted = answer.as_ref().map(|_| "accepted");
        self.add_answer(GIVEN, accepted.map_err(|refusal| *refusal));
        let missing = tape.missing();
        let group = GROUPS.iter().take_while(|(last, _)| *last < missing.len());
        self.add(MISSING, GROUPS[group.count()].1);
        if let [alone] = missing[..] {
            self.add(ALONE, name(tape.sizes, alone));
        }
        for (name, has) in SHAPES {
            if has(tape) {
                self.add(RARE, name);
            }
        }
        for (name, has) in ACCEPTED {
            if answer.as_ref().is_ok_and(has) {
                self.add(RARE, name);
            }
        }
    }

    /// Reads a seed's tape of this kind and counts the answer.
    pub(super) fn add_given_of(&mut self, seed: u64) {
        let tape = given(seed);
        self.add_given(&tape, &read(&tape.bytes));
    }
}
