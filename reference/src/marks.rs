//! Given marks (request 3): the places that can be required at FF, those that are required under
//! given marks, and how many of these have no mark.
//!
//! Places are listed and gone through one by one. The planner packs them into words, which is what
//! is compared with this; so there are no words here.

use std::collections::BTreeSet;

use crate::model::Furnace;
use crate::tape::{MOST_INPUTS, MOST_STATES, MOST_STEPS};

/// A place that can be required. They are in the order of the marks: columns, start values, the
/// rounds command, and then the references by step, column by column.
#[derive(Clone, Copy, Debug, PartialEq, Eq, PartialOrd, Ord)]
pub enum Place {
    /// Command 30 of a column.
    Column(usize),
    /// Command 40 of a state.
    Start(usize),
    /// Command 50 or 51.
    Search,
    /// Command 31 of a column and a step.
    Step(usize, usize),
}

/// The places that have a mark. One beyond the sizes is allowed and changes nothing.
pub type Marks = BTreeSet<Place>;

/// n, m and N.
#[derive(Clone, Copy, Debug, PartialEq, Eq)]
pub struct Sizes {
    /// n.
    pub states: usize,
    /// m.
    pub inputs: usize,
    /// N.
    pub horizon: usize,
}

impl Sizes {
    /// The largest.
    pub const MOST: Sizes = Sizes {
        states: MOST_STATES,
        inputs: MOST_INPUTS,
        horizon: MOST_STEPS,
    };

    /// A furnace's.
    pub fn of(furnace: &Furnace) -> Sizes {
        Sizes {
            states: furnace.states,
            inputs: furnace.inputs,
            horizon: furnace.horizon,
        }
    }

    /// Does each lie in document 01's range?
    pub fn in_range(&self) -> bool {
        (1..=MOST_STATES).contains(&self.states)
            && (1..=MOST_INPUTS).contains(&self.inputs)
            && (1..=MOST_STEPS).contains(&self.horizon)
    }

    /// n+m.
    pub fn columns(&self) -> usize {
        self.states + self.inputs
    }

    /// N(n+m), the number of plan numbers.
    pub fn plan_length(&self) -> usize {
        self.horizon * self.columns()
    }

    /// N × n, the number of multipliers.
    pub fn multipliers_length(&self) -> usize {
        self.horizon * self.states
    }

    /// The places within the sizes, in order.
    pub fn places(&self) -> Vec<Place> {
        let mut places = Vec::new();
        for c in 0..self.columns() {
            places.push(Place::Column(c));
        }
        for i in 0..self.states {
            places.push(Place::Start(i));
        }
        places.push(Place::Search);
        for c in 0..self.columns() {
            for k in 0..self.horizon {
                places.push(Place::Step(c, k));
            }
        }
        places
    }
}

/// The places that are required: all within the sizes, but steps only of columns with a curve.
pub fn required(sizes: Sizes, marks: &Marks) -> Vec<Place> {
    let mut required = sizes.places();
    required.retain(|place| match place {
        Place::Step(column, _) => has_curve(sizes, marks, *column),
        _ => true,
    });
    required
}

/// Has any step of the column a mark?
fn has_curve(sizes: Sizes, marks: &Marks, column: usize) -> bool {
    (0..sizes.horizon).any(|k| marks.contains(&Place::Step(column, k)))
}

/// The required places without a mark.
pub fn missing(sizes: Sizes, marks: &Marks) -> Vec<Place> {
    let mut missing = required(sizes, marks);
    missing.retain(|place| !marks.contains(place));
    missing
}

/// How many required places have no mark. 7 comes exactly when it is above 0.
pub fn count_missing(sizes: Sizes, marks: &Marks) -> usize {
    missing(sizes, marks).len()
}
