//! The furnace as the tape gives it: model, limits and cost.

use crate::marks::Sizes;

/// A whole number. 128 bits hold every product and sum of document 01 with room to spare: the
/// largest is the square of a slope, below 3 × 10^24. Rounding its quotient up, as request 7 asks,
/// makes no larger one: the multiple of the divisor that is compared with it is not above it.
pub type Whole = i128;

/// A and B are in units of 1/4096.
pub const UNIT: Whole = 4096;

/// Half of [`UNIT`], added before the model rounds down.
pub const HALF_UNIT: Whole = 2048;

/// The quotient rounded down (towards minus infinity). Every quotient of the papers but that of the
/// third piece is formed here. All divisors of the papers are positive.
pub fn floor_div(dividend: Whole, divisor: Whole) -> Whole {
    assert!(divisor > 0);
    let towards_zero = dividend / divisor;
    if towards_zero * divisor > dividend {
        towards_zero - 1
    } else {
        towards_zero
    }
}

/// The quotient rounded up (towards plus infinity): the least number whose multiple of the divisor
/// is at or above the dividend. The third piece has it (request 7).
pub fn ceil_div(dividend: Whole, divisor: Whole) -> Whole {
    assert!(divisor > 0);
    let towards_zero = dividend / divisor;
    if towards_zero * divisor < dividend {
        towards_zero + 1
    } else {
        towards_zero
    }
}

/// What command 30 gives for one column (a state or an input), the same in all steps. Where the
/// column has a curve, [`Furnace::state_at`] and [`Furnace::input_at`] put a step's own reference
/// in the place of r.
#[derive(Clone, Copy, Debug, PartialEq, Eq)]
pub struct Column {
    /// Lower limit, itself allowed.
    pub lo: Whole,
    /// Upper limit, itself allowed.
    pub hi: Whole,
    /// The reference r.
    pub reference: Whole,
    /// The weight h. At 0 nothing that the column's numbers are costs anything.
    pub weight: Whole,
}

impl Column {
    /// P = 4096 × h.
    pub fn price(&self) -> Whole {
        UNIT * self.weight
    }

    /// Does `number` lie in lo to hi, ends included?
    pub fn contains(&self, number: Whole) -> bool {
        self.lo <= number && number <= self.hi
    }

    /// `number` limited to lo and hi.
    pub fn limit(&self, number: Whole) -> Whole {
        number.clamp(self.lo, self.hi)
    }

    /// P × (v − r)², the cost of one plan number.
    pub fn cost(&self, number: Whole) -> Whole {
        let deviation = number - self.reference;
        self.price() * deviation * deviation
    }
}

/// What step 4 of a round adds to a multiplier.
#[derive(Clone, Copy, Debug, PartialEq, Eq)]
pub enum Correction {
    /// e × g / 65,536: the tape has command 50.
    Gain,
    /// The d of W × d = e (request 9): the tape has command 51.
    Banded,
}

/// All that a tape gives.
#[derive(Clone, Debug, PartialEq, Eq)]
pub struct Furnace {
    /// n, the number of states.
    pub states: usize,
    /// m, the number of inputs.
    pub inputs: usize,
    /// N, the number of steps (the horizon).
    pub horizon: usize,
    /// A(i,j) as `a[i][j]`: the state matrix.
    pub a: Vec<Vec<Whole>>,
    /// B(i,j) as `b[i][j]`: the input matrix.
    pub b: Vec<Vec<Whole>>,
    /// w(i): the drift.
    pub drift: Vec<Whole>,
    /// States 0 to n−1, then inputs n to n+m−1.
    pub columns: Vec<Column>,
    /// The curve of each column: its references by step as command 31 gives them. A column without
    /// any 31 has none.
    pub curves: Vec<Option<Vec<Whole>>>,
    /// x(0), the start.
    pub start: Vec<Whole>,
    /// What step 4 adds: whether the tape has command 50 or 51.
    pub correction: Correction,
    /// g, the step size. A tape with command 51 falls back on it where W cannot be used.
    pub step_size: Whole,
    /// R, the number of rounds allowed.
    pub rounds: u32,
    /// T, the wanted gap.
    pub wanted_gap: Whole,
}

impl Furnace {
    /// The reference of a column at step k: the step's own where the column has a curve, else
    /// command 30's.
    pub fn reference(&self, column: usize, k: usize) -> Whole {
        match &self.curves[column] {
            Some(curve) => curve[k],
            None => self.columns[column].reference,
        }
    }

    /// A column with its reference at step k.
    pub fn column_at(&self, column: usize, k: usize) -> Column {
        Column {
            reference: self.reference(column, k),
            ..self.columns[column]
        }
    }

    /// The column of u(k,j), with the reference of step k.
    pub fn input_at(&self, k: usize, j: usize) -> Column {
        self.column_at(self.states + j, k)
    }

    /// The column of x(k,i), k from 1 to N. Step k−1 covers it.
    pub fn state_at(&self, k: usize, i: usize) -> Column {
        self.column_at(i, k - 1)
    }

    /// The column of state i.
    pub fn state_column(&self, i: usize) -> &Column {
        &self.columns[i]
    }

    /// The column of input j.
    pub fn input_column(&self, j: usize) -> &Column {
        &self.columns[self.states + j]
    }

    /// N(n+m), the number of plan numbers.
    pub fn plan_length(&self) -> usize {
        Sizes::of(self).plan_length()
    }

    /// N × n, the number of multipliers.
    pub fn multipliers_length(&self) -> usize {
        Sizes::of(self).multipliers_length()
    }
}

/// A plan, or numbers in the places of a plan.
#[derive(Clone, Debug, PartialEq, Eq)]
pub struct Plan {
    /// u(k,j) as `u[k][j]`, k from 0 to N−1.
    pub u: Vec<Vec<Whole>>,
    /// x(k,i) as `x[k][i]`, k from 0 to N. `x[0]` is the tape's start, no number of the plan.
    pub x: Vec<Vec<Whole>>,
}

/// S for state i: what the model gives for the next state, in units of 1/4096, unrounded.
pub fn model_sum(furnace: &Furnace, x: &[Whole], u: &[Whole], i: usize) -> Whole {
    let mut sum = 0;
    for j in 0..furnace.states {
        sum += furnace.a[i][j] * x[j];
    }
    for j in 0..furnace.inputs {
        sum += furnace.b[i][j] * u[j];
    }
    sum + furnace.drift[i]
}

/// The next state that goes with S: (S + 2048) / 4096, rounded down.
pub fn rounded_state(sum: Whole) -> Whole {
    floor_div(sum + HALF_UNIT, UNIT)
}

/// x(k+1,i) as the model gives it from x(k) and u(k).
pub fn next_state(furnace: &Furnace, x: &[Whole], u: &[Whole], i: usize) -> Whole {
    rounded_state(model_sum(furnace, x, u, i))
}

/// The residual e(k,i) = S − 4096 × x(k+1,i). It lies in −2048 to 2047 where the state meets
/// the model.
pub fn residual(furnace: &Furnace, plan: &Plan, k: usize, i: usize) -> Whole {
    model_sum(furnace, &plan.x[k], &plan.u[k], i) - UNIT * plan.x[k + 1][i]
}

/// K, the sum of P × (v − r)² over the plan's numbers, r being the step's. x(0) bears no cost.
pub fn cost(furnace: &Furnace, plan: &Plan) -> Whole {
    let mut sum = 0;
    for k in 0..furnace.horizon {
        for j in 0..furnace.inputs {
            sum += furnace.input_at(k, j).cost(plan.u[k][j]);
        }
    }
    for k in 1..=furnace.horizon {
        for i in 0..furnace.states {
            sum += furnace.state_at(k, i).cost(plan.x[k][i]);
        }
    }
    sum
}

/// A plan follows the tape when every state meets the model and every number lies in lo to hi.
/// x(0) is not tested against lo and hi.
pub fn follows_tape(furnace: &Furnace, plan: &Plan) -> bool {
    for k in 0..furnace.horizon {
        for j in 0..furnace.inputs {
            if !furnace.input_column(j).contains(plan.u[k][j]) {
                return false;
            }
        }
        for i in 0..furnace.states {
            let state = plan.x[k + 1][i];
            if state != next_state(furnace, &plan.x[k], &plan.u[k], i)
                || !furnace.state_column(i).contains(state)
            {
                return false;
            }
        }
    }
    true
}

#[cfg(test)]
mod tests {
    use super::*;

    #[test]
    fn quotients_are_rounded_down() {
        let quotients = [-9, -8, -7, -1, 0, 1, 7, 8, 9].map(|number| floor_div(number, 8));
        assert_eq!(quotients, [-2, -1, -1, -1, 0, 0, 0, 1, 1]);
    }

    #[test]
    fn quotients_are_rounded_up() {
        let quotients = [-9, -8, -7, -1, 0, 1, 7, 8, 9].map(|number| ceil_div(number, 8));
        assert_eq!(quotients, [-1, -1, 0, 0, 0, 1, 1, 1, 2]);
        // A square of 64 bits, and the same less one: 2^126 / 2^63, (2^126 − 1) / 2^63.
        let (square, divisor) = (1 << 126, 1 << 63);
        assert_eq!(ceil_div(square, divisor), 1 << 63);
        assert_eq!(ceil_div(square - 1, divisor), 1 << 63);
        assert_eq!(floor_div(square - 1, divisor), (1 << 63) - 1);
    }

    #[test]
    fn both_quotients_enclose_the_fraction() {
        for divisor in 1..=12 {
            for dividend in -40..=40 {
                let (down, up) = (floor_div(dividend, divisor), ceil_div(dividend, divisor));
                let whole = dividend % divisor == 0;
                assert!(down * divisor <= dividend && dividend <= up * divisor);
                assert_eq!(up - down, if whole { 0 } else { 1 });
            }
        }
    }
}
