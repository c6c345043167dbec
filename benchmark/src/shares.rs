//! What a mix is made of: how many of its tapes and of their rounds are of a kind.

use plain::{Column, Furnace, Numbers, Round};

/// Counts over the tapes of a mix, their rounds, and the numbers of these.
#[derive(Clone, Copy, Debug, Default, PartialEq, Eq)]
pub struct Shares {
    /// Tapes with a reference that changes from step to step.
    pub curves: usize,
    /// Tapes with a weight of 0.
    pub weights_of_0: usize,
    rounds: usize,
    /// Rounds whose candidate follows the tape.
    followed: usize,
    numbers: usize,
    /// Numbers of step 2 that stand at lo or hi.
    at_ends: usize,
}

impl Shares {
    /// Counts a tape, and runs its rounds.
    pub fn add(&mut self, furnace: &Furnace) {
        let columns = &furnace.columns[..furnace.states + furnace.inputs];
        let has_curve = |column: &Column| {
            let references = &column.reference[..furnace.steps];
            references.iter().any(|r| *r != references[0])
        };
        self.curves += usize::from(columns.iter().any(has_curve));
        self.weights_of_0 += usize::from(columns.iter().any(|column| column.price == 0));
        plain::watch(furnace, |round: &Round| {
            self.rounds += 1;
            self.followed += usize::from(round.gap.is_some());
            self.numbers += furnace.plan_length();
            self.at_ends += at_ends(furnace, round.numbers);
        });
    }

    /// The share of rounds whose candidate follows the tape.
    pub fn followed(&self) -> f64 {
        self.followed as f64 / self.rounds as f64
    }

    /// The share of the rounds' numbers that stand at lo or hi.
    pub fn at_ends(&self) -> f64 {
        self.at_ends as f64 / self.numbers as f64
    }
}

/// How many of a round's numbers stand at lo or hi.
fn at_ends(furnace: &Furnace, numbers: &Numbers) -> usize {
    let stands = |column: &Column, v: i64| usize::from(v == column.lo || v == column.hi);
    let mut count = 0;
    for k in 0..furnace.steps {
        for i in 0..furnace.states {
            count += stands(furnace.state(i), numbers.states[k][i]);
        }
        for j in 0..furnace.inputs {
            count += stands(furnace.input(j), numbers.inputs[k][j]);
        }
    }
    count
}
