//! Tapes that show how the times grow with the sizes and with the rounds. All stay open with T 0,
//! so that each enters its R rounds.

use std::fmt;

use plain::Outcome;
use reference::generate::furnaces::{put_near_rest, sized, tuned_step_size};
use reference::generate::Random;
use reference::tape::{MOST_INPUTS, MOST_STATES, MOST_STEPS};

use crate::tune::tape;

/// How many tapes a row of a table has.
const TAPES: usize = 10;

/// R of the tapes that grow in size. The cost of reading a tape is lost in so many rounds.
const ROUNDS: u32 = 1_000;

/// Tapes of one kind.
#[derive(Clone, Copy, Debug, PartialEq, Eq)]
pub struct Row {
    /// n.
    pub states: usize,
    /// m.
    pub inputs: usize,
    /// N.
    pub steps: usize,
    /// R.
    pub rounds: u32,
}

/// Rows that differ in one number.
pub struct Table {
    /// What the numbers in front are.
    pub head: &'static str,
    /// What grows, of a row.
    pub label: fn(&Row) -> String,
    /// Its rows.
    pub rows: Vec<Row>,
}

/// Full size.
const FULL: Row = Row {
    states: MOST_STATES,
    inputs: MOST_INPUTS,
    steps: MOST_STEPS,
    rounds: ROUNDS,
};

/// The tables of growth with the sizes.
pub fn by_size() -> Vec<Table> {
    let states = (1..=MOST_STATES).map(|states| Row { states, ..FULL });
    let inputs = (1..=MOST_INPUTS).map(|inputs| Row { inputs, ..FULL });
    let steps = (1..=MOST_STEPS).map(|steps| Row { steps, ..FULL });
    let tiny = Row {
        states: 1,
        inputs: 1,
        steps: 1,
        ..FULL
    };
    vec![
        Table {
            head: "n, with m 4 and N 12",
            label: |row| row.states.to_string(),
            rows: states.collect(),
        },
        Table {
            head: "m, with n 6 and N 12",
            label: |row| row.inputs.to_string(),
            rows: inputs.collect(),
        },
        Table {
            head: "N, with n 6 and m 4",
            label: |row| row.steps.to_string(),
            rows: steps.collect(),
        },
        Table {
            head: "n = m = N",
            label: |row| row.steps.to_string(),
            rows: vec![tiny],
        },
    ]
}

/// The table of growth with the rounds, at full size.
pub fn by_rounds() -> Table {
    let rounds = [1, 10, 100, 1_000, 10_000];
    Table {
        head: "R",
        label: |row| row.rounds.to_string(),
        rows: rounds.map(|rounds| Row { rounds, ..FULL }).to_vec(),
    }
}

impl fmt::Display for Row {
    fn fmt(&self, f: &mut fmt::Formatter) -> fmt::Result {
        let Row {
            states,
            inputs,
            steps,
            rounds,
        } = self;
        write!(f, "n {states}, m {inputs}, N {steps}, R {rounds}")
    }
}

impl Row {
    /// The tapes of the row, the same on every machine. Rows that differ in R alone have the same
    /// furnaces where these stay open.
    pub fn tapes(&self) -> Vec<Vec<u8>> {
        (0..TAPES).map(|place| self.tape(place)).collect()
    }

    /// The tape of a place.
    fn tape(&self, place: usize) -> Vec<u8> {
        let mut random = Random::new(place as u64);
        loop {
            let blank = sized(self.states, self.inputs, self.steps);
            let mut furnace = put_near_rest(blank, &mut random);
            furnace.step_size = tuned_step_size(&furnace, 1, 1);
            furnace.rounds = self.rounds;
            let tape = tape(&furnace, &mut random);
            let read = plain::read(&tape).expect("a legal tape with command 50");
            if plain::watch(&read, |_| ()) == Outcome::Open {
                return tape;
            }
        }
    }
}

#[cfg(test)]
mod tests {
    use super::*;

    #[test]
    fn every_size_has_tapes() {
        for row in by_size().iter().flat_map(|table| &table.rows) {
            let furnace = plain::read(&row.tape(0)).expect("a legal tape");
            assert_eq!(furnace.states, row.states);
            assert_eq!((furnace.inputs, furnace.steps), (row.inputs, row.steps));
            assert_eq!((furnace.rounds, furnace.wanted_gap), (1_000, 0));
        }
    }
}
