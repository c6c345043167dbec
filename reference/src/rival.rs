//! Rivals (document 02, request 7): plans whose numbers are whole multiples of 1/D.
//!
//! A list of whole numbers stands for the plan of its numbers V as V / D, for any whole D from 1.
//! They are u(0), x(1), u(1), x(2) and so on, as in a lent plan. Everything is kept in units of 1/D,
//! and a cost in units of 1/D², so that nothing is divided: a rival costs no less than K − gap where
//! D² × (K − gap) is at most its cost here.
//!
//! Within its limits a number is at most 20,000 × D in size, and a cost at most 120 × 4096 × 255 ×
//! (40,000 × D)², which is below 2.1 × 10^17 × D². 128 bits hold that for every D up to 2^34.

use crate::calls::{input_place, state_place};
use crate::model::{Column, Furnace, Whole, HALF_UNIT, UNIT};

/// Do the numbers stand for a rival? Each lies in its limits, and each residual in −2048 to 2048,
/// ends included.
pub fn is_rival(furnace: &Furnace, d: Whole, numbers: &[Whole]) -> bool {
    if d < 1 || numbers.len() != furnace.plan_length() {
        return false;
    }
    for k in 0..furnace.horizon {
        for j in 0..furnace.inputs {
            let number = numbers[input_place(furnace, k, j)];
            if !is_within(furnace.input_column(j), d, number) {
                return false;
            }
        }
        for i in 0..furnace.states {
            let number = numbers[state_place(furnace, k + 1, i)];
            if !is_within(furnace.state_column(i), d, number) {
                return false;
            }
            let e = residual(furnace, d, numbers, k, i);
            if !(-HALF_UNIT * d..=HALF_UNIT * d).contains(&e) {
                return false;
            }
        }
    }
    true
}

/// Does V / D lie in lo to hi, ends included?
fn is_within(column: &Column, d: Whole, number: Whole) -> bool {
    d * column.lo <= number && number <= d * column.hi
}

/// The residual S − 4096 × x(k+1,i) in units of 1/D. It is formed from the tape's x(0) times D, and
/// the drift is times D as well.
pub fn residual(furnace: &Furnace, d: Whole, numbers: &[Whole], k: usize, i: usize) -> Whole {
    let mut sum = d * furnace.drift[i];
    for j in 0..furnace.states {
        let state = match k {
            0 => d * furnace.start[j],
            _ => numbers[state_place(furnace, k, j)],
        };
        sum += furnace.a[i][j] * state;
    }
    for j in 0..furnace.inputs {
        sum += furnace.b[i][j] * numbers[input_place(furnace, k, j)];
    }
    sum - UNIT * numbers[state_place(furnace, k + 1, i)]
}

/// The cost in units of 1/D²: the sum of P × (V − D × r)², r being the step's.
pub fn cost(furnace: &Furnace, d: Whole, numbers: &[Whole]) -> Whole {
    let mut sum = 0;
    let mut add = |column: Column, number: Whole| {
        let deviation = number - d * column.reference;
        sum += column.price() * deviation * deviation;
    };
    for k in 0..furnace.horizon {
        for j in 0..furnace.inputs {
            add(furnace.input_at(k, j), numbers[input_place(furnace, k, j)]);
        }
        for i in 0..furnace.states {
            let number = numbers[state_place(furnace, k + 1, i)];
            add(furnace.state_at(k + 1, i), number);
        }
    }
    sum
}
