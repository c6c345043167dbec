//! The furnace as the tape gives it: model, limits and cost.

use crate::{MOST_COLUMNS, MOST_INPUTS, MOST_STATES, MOST_STEPS};

/// A and B are in units of 1/4096.
pub(crate) const UNIT: i64 = 4096;

/// A number for each residual: y(k,i) as `y[k][i]`.
pub type Multipliers = [[i64; MOST_STATES]; MOST_STEPS];

/// A number for each place of a plan: its numbers themselves, or their slopes.
#[derive(Clone, Copy, Debug, PartialEq, Eq)]
pub struct Numbers {
    /// That of u(k,j) as `inputs[k][j]`.
    pub inputs: [[i64; MOST_INPUTS]; MOST_STEPS],
    /// That of x(k+1,i) as `states[k][i]`.
    pub states: [[i64; MOST_STATES]; MOST_STEPS],
}

impl Numbers {
    /// All 0.
    pub(crate) const ZERO: Numbers = Numbers {
        inputs: [[0; MOST_INPUTS]; MOST_STEPS],
        states: [[0; MOST_STATES]; MOST_STEPS],
    };
}

/// Limits, price and references of a state or an input.
#[derive(Clone, Copy, Debug, Default, PartialEq, Eq)]
pub struct Column {
    /// Lower limit.
    pub lo: i64,
    /// Upper limit.
    pub hi: i64,
    /// P = 4096 × h.
    pub price: i64,
    /// The reference at each step: that of the curve where the column has one, else r.
    pub reference: [i64; MOST_STEPS],
}

impl Column {
    /// Does the number lie in lo to hi?
    pub fn contains(&self, v: i64) -> bool {
        self.lo <= v && v <= self.hi
    }

    /// P × (v − r)², r being that of step k.
    pub(crate) fn cost(&self, k: usize, v: i64) -> i64 {
        let d = v - self.reference[k];
        self.price * d * d
    }
}

/// What a tape gives. Places beyond its sizes are 0.
#[derive(Clone, Debug, PartialEq, Eq)]
pub struct Furnace {
    /// n.
    pub states: usize,
    /// m.
    pub inputs: usize,
    /// N.
    pub steps: usize,
    /// A(i,j) as `a[i][j]`.
    pub a: [[i64; MOST_STATES]; MOST_STATES],
    /// B(i,j) as `b[i][j]`.
    pub b: [[i64; MOST_INPUTS]; MOST_STATES],
    /// w(i).
    pub drift: [i64; MOST_STATES],
    /// States 0 to n−1, then inputs n to n+m−1.
    pub columns: [Column; MOST_COLUMNS],
    /// x(0).
    pub start: [i64; MOST_STATES],
    /// g.
    pub gain: i64,
    /// R.
    pub rounds: i64,
    /// T.
    pub wanted_gap: i64,
}

impl Furnace {
    /// How many numbers a plan has, N(n+m).
    pub fn plan_length(&self) -> usize {
        self.steps * (self.states + self.inputs)
    }

    /// How many multipliers there are, N × n.
    pub fn multipliers_length(&self) -> usize {
        self.steps * self.states
    }

    /// The column of state i.
    pub fn state(&self, i: usize) -> &Column {
        &self.columns[i]
    }

    /// The column of input j.
    pub fn input(&self, j: usize) -> &Column {
        &self.columns[self.states + j]
    }

    /// x(k), where the states x(1), x(2) and so on are among the numbers.
    pub(crate) fn states_before<'a>(
        &'a self,
        numbers: &'a Numbers,
        k: usize,
    ) -> &'a [i64; MOST_STATES] {
        if k == 0 {
            &self.start
        } else {
            &numbers.states[k - 1]
        }
    }

    /// The model's sum S for state i.
    pub(crate) fn model_sum(
        &self,
        x: &[i64; MOST_STATES],
        u: &[i64; MOST_INPUTS],
        i: usize,
    ) -> i64 {
        let mut sum = self.drift[i];
        for j in 0..self.states {
            sum += self.a[i][j] * x[j];
        }
        for j in 0..self.inputs {
            sum += self.b[i][j] * u[j];
        }
        sum
    }

    /// The cost K of a plan.
    pub(crate) fn cost(&self, plan: &Numbers) -> i64 {
        let mut cost = 0;
        for k in 0..self.steps {
            for j in 0..self.inputs {
                cost += self.input(j).cost(k, plan.inputs[k][j]);
            }
            for i in 0..self.states {
                cost += self.state(i).cost(k, plan.states[k][i]);
            }
        }
        cost
    }
}

/// The next state for the model's sum S.
pub(crate) fn next_state(sum: i64) -> i64 {
    (sum + UNIT / 2).div_euclid(UNIT)
}

#[cfg(test)]
mod tests {
    use super::*;
    use crate::tapes::tape_f;

    #[test]
    fn figure_m1() {
        let furnace = tape_f().furnace();
        let state = |u| next_state(furnace.model_sum(&furnace.start, &[u, 0, 0, 0], 0));
        assert_eq!([state(1), state(2), state(3)], [101, 101, 102]);
    }

    #[test]
    fn figure_m2() {
        assert_eq!([next_state(-2048), next_state(-2049)], [0, -1]);
    }

    #[test]
    fn costs_of_figures_m4_and_m5() {
        let furnace = tape_f().furnace();
        let cost = |u, x| {
            let mut plan = Numbers::ZERO;
            (plan.inputs[0][0], plan.states[0][0]) = (u, x);
            furnace.cost(&plan)
        };
        assert_eq!([cost(4, 102), cost(3, 102)], [327_680, 299_008]);
    }
}
