//! Tapes that give a drawn set of the places that can be required, in random order, and some
//! entries of A, B and w. All that can be wrong with them is that a required place is missing.

use super::commands::{self, Command};
use super::furnaces::MOST_GAP;
use super::random::Random;
use super::weights::zeros_one_in;
use crate::marks::{missing, Marks, Place, Sizes};
use crate::model::{Column, Correction, Whole};
use crate::tape::{
    DRIFT_RANGE, END, ENTRY_RANGE, MOST_INPUTS, MOST_STATES, MOST_STEPS, MOST_WEIGHT, NUMBER_RANGE,
};

/// A tape of valid commands, each place at most once, up to FF.
#[derive(Clone, Debug, PartialEq, Eq)]
pub struct GivenTape {
    /// The sizes.
    pub sizes: Sizes,
    /// The places that can be required and are given, all within the sizes.
    pub marks: Marks,
    /// The tape's bytes.
    pub bytes: Vec<u8>,
}

impl GivenTape {
    /// A tape that gives these places.
    pub fn of(sizes: Sizes, marks: Marks, random: &mut Random) -> GivenTape {
        let correction = random.choose(&[Correction::Gain, Correction::Gain, Correction::Banded]);
        // With a 51 and nothing missing a weight of 0 would be refused.
        let refuses_0 = correction == Correction::Banded && missing(sizes, &marks).is_empty();
        let zeros_one_in = zeros_one_in(random).filter(|_| !refuses_0);
        let places = marks.iter();
        let given = places.map(|place| command(*place, correction, zeros_one_in, random));
        let mut middle: Vec<Command> = given.collect();
        middle.extend(some_entries(sizes, random));
        random.shuffle(&mut middle);
        let size = commands::size(sizes.states, sizes.inputs, sizes.horizon);
        let bytes = [size, middle.concat(), vec![END]].concat();
        GivenTape {
            sizes,
            marks,
            bytes,
        }
    }

    /// The required places that it does not give.
    pub fn missing(&self) -> Vec<Place> {
        missing(self.sizes, &self.marks)
    }
}

/// A tape of any sizes. Most lack a few places at most.
pub fn any(random: &mut Random) -> GivenTape {
    let sizes = any_sizes(random);
    let marks = match random.below(4) {
        0 => thinned(sizes.places(), random),
        1 => of_steps(sizes, random),
        _ => nearly_whole(sizes, random),
    };
    GivenTape::of(sizes, marks, random)
}

/// Sizes of which a third are the largest.
fn any_sizes(random: &mut Random) -> Sizes {
    if random.one_in(3) {
        return Sizes::MOST;
    }
    Sizes {
        states: 1 + random.below(MOST_STATES),
        inputs: 1 + random.below(MOST_INPUTS),
        horizon: 1 + random.below(MOST_STEPS),
    }
}

/// A drawn share of the places, from none to all.
fn thinned<T, Kept: FromIterator<T>>(places: Vec<T>, random: &mut Random) -> Kept {
    let sixteenths = random.choose(&[0, 1, 2, 8, 14, 15, 16]);
    let kept = places.into_iter().filter(|_| random.below(16) < sixteenths);
    kept.collect()
}

/// A share of all places but steps. Of each column's steps none, one, all but one or all, the same
/// for all columns or for each its own.
fn of_steps(sizes: Sizes, random: &mut Random) -> Marks {
    let mut marks: Marks = thinned(all_but_steps(sizes), random);
    let counts = [0, 1, sizes.horizon - 1, sizes.horizon];
    let same = random.one_in(2);
    let of_all = random.choose(&counts);
    for c in 0..sizes.columns() {
        let count = if same { of_all } else { random.choose(&counts) };
        let mut steps: Vec<usize> = (0..sizes.horizon).collect();
        random.shuffle(&mut steps);
        marks.extend(steps[..count].iter().map(|k| Place::Step(c, *k)));
    }
    marks
}

/// Everything that is required with curves on none, some or all columns, but for a few places.
fn nearly_whole(sizes: Sizes, random: &mut Random) -> Marks {
    let mut marks: Marks = all_but_steps(sizes).into_iter().collect();
    let with_curve: Vec<usize> = thinned((0..sizes.columns()).collect(), random);
    for c in with_curve {
        marks.extend((0..sizes.horizon).map(|k| Place::Step(c, k)));
    }
    for _ in 0..random.choose(&[0, 1, 1, 1, 2, 3]) {
        let given: Vec<Place> = marks.iter().copied().collect();
        marks.remove(&random.choose(&given));
    }
    marks
}

/// The places of the sizes that are required with or without curves. There are four or more.
fn all_but_steps(sizes: Sizes) -> Vec<Place> {
    let mut places = sizes.places();
    places.retain(|place| !matches!(place, Place::Step(..)));
    places
}

/// The command that gives a place, with any legal numbers, and weight 0 in one column in so many, if
/// any. R is small, so that a solve is short.
fn command(
    place: Place,
    correction: Correction,
    zeros_one_in: Option<usize>,
    random: &mut Random,
) -> Command {
    match place {
        Place::Column(c) => commands::column(c, &column(zeros_one_in, random)),
        Place::Start(i) => commands::start(i, within(NUMBER_RANGE, random)),
        Place::Search => commands::search_with(
            correction,
            random.between(1, 65_535),
            random.between(1, 3),
            random.between(0, MOST_GAP),
        ),
        Place::Step(c, k) => commands::step_reference(c, k, within(NUMBER_RANGE, random)),
    }
}

/// A column with any legal numbers, its weight being 0 once in so many times, if ever.
fn column(zeros_one_in: Option<usize>, random: &mut Random) -> Column {
    let (one, other) = (within(NUMBER_RANGE, random), within(NUMBER_RANGE, random));
    let is_zero = zeros_one_in.is_some_and(|count| random.one_in(count));
    Column {
        lo: one.min(other),
        hi: one.max(other),
        reference: within(NUMBER_RANGE, random),
        weight: if is_zero {
            0
        } else {
            random.between(1, MOST_WEIGHT)
        },
    }
}

/// A share of the commands of A, B and w, none of which is required.
fn some_entries(sizes: Sizes, random: &mut Random) -> Vec<Command> {
    let mut entries = Vec::new();
    for i in 0..sizes.states {
        for j in 0..sizes.states {
            entries.push(commands::state_entry(i, j, within(ENTRY_RANGE, random)));
        }
        for j in 0..sizes.inputs {
            entries.push(commands::input_entry(i, j, within(ENTRY_RANGE, random)));
        }
        entries.push(commands::drift(i, within(DRIFT_RANGE, random)));
    }
    thinned(entries, random)
}

/// A number within plus and minus the range.
fn within(range: Whole, random: &mut Random) -> Whole {
    random.between(-range, range)
}
