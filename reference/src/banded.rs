//! The banded step (document 02, request 9): d with W × d = e, in 64-bit floats.
//!
//! W has a row and a column for each residual e(k,i), by step and then state. It is the residuals'
//! coefficient matrix times 1/(2P) times its transpose. All of it is kept, as a square: W(a,b) and
//! W(b,a) are both summed, and both are eliminated. A residual shares plan numbers with those of
//! its own step and of the steps next to it alone, so that entries 2n or more from the diagonal are 0
//! and stay so. Each operation is one of floats and rounds once.

use crate::calls::{input_place, state_place};
use crate::model::{Correction, Furnace, Whole, UNIT};
use crate::rounds::usable;

/// A square of floats: the entry in row a and column b as `square[a][b]`.
type Square = Vec<Vec<f64>>;

/// W with its rows eliminated. It does not depend on e, so that a tape needs one for all its rounds.
#[derive(Clone, Debug, PartialEq)]
pub struct Elimination {
    /// 2n − 1: so many rows and columns after a pivot are touched, where they exist.
    reach: usize,
    /// The entries at and behind the pivot of each row when it is taken. Those before it count no more.
    rows: Square,
    /// f of row a and pivot p as `factors[a][p]`.
    factors: Square,
}

impl Elimination {
    /// The elimination that step 4 works with: none where the tape has command 50, and none where it
    /// has 51 and falls back on g since a pivot cannot be used.
    pub fn of_tape(furnace: &Furnace) -> Option<Elimination> {
        if furnace.correction == Correction::Gain {
            return None;
        }
        let elimination = Elimination::of_matrix(matrix(furnace), furnace.states);
        let all_usable = elimination.pivots().into_iter().all(usable);
        all_usable.then_some(elimination)
    }

    /// Eliminates the rows of W, in order. Whether its pivots can be used is not asked.
    pub fn of_matrix(matrix: Vec<Vec<f64>>, states: usize) -> Elimination {
        let size = matrix.len();
        let mut elimination = Elimination {
            reach: 2 * states - 1,
            rows: matrix,
            factors: vec![vec![0.0; size]; size],
        };
        for p in 0..size {
            elimination.take(p);
        }
        elimination
    }

    /// Takes row p: each row a after it gets f = W(a,p) / W(p,p), and each of its entries in the
    /// columns after p loses f times row p's.
    fn take(&mut self, p: usize) {
        for a in self.after(p) {
            let f = self.rows[a][p] / self.rows[p][p];
            for b in self.after(p) {
                let product = f * self.rows[p][b];
                self.rows[a][b] -= product;
            }
            self.factors[a][p] = f;
        }
    }

    /// p+1 to p+2n−1, as far as they exist.
    fn after(&self, p: usize) -> std::ops::Range<usize> {
        p + 1..self.rows.len().min(p + 1 + self.reach)
    }

    /// W(p,p) of each row p when it was taken.
    pub fn pivots(&self) -> Vec<f64> {
        (0..self.rows.len()).map(|p| self.rows[p][p]).collect()
    }

    /// d for these residuals, one for each row.
    pub fn correction(&self, residuals: &[Whole]) -> Vec<f64> {
        self.substituted(self.right_sides(residuals))
    }

    /// The right sides, at first e: each row a after a pivot p loses f times row p's.
    fn right_sides(&self, residuals: &[Whole]) -> Vec<f64> {
        // Residuals are below 2^53 in size: none is rounded.
        let mut right: Vec<f64> = residuals.iter().map(|e| *e as f64).collect();
        for p in 0..right.len() {
            for a in self.after(p) {
                let product = self.factors[a][p] * right[p];
                right[a] -= product;
            }
        }
        right
    }

    /// From the last row up: d is the right side minus the sum of entry times d over the columns after
    /// the pivot, divided by the pivot.
    fn substituted(&self, right: Vec<f64>) -> Vec<f64> {
        let mut d = vec![0.0; right.len()];
        for p in (0..right.len()).rev() {
            let mut sum = 0.0;
            for b in self.after(p) {
                let product = self.rows[p][b] * d[b];
                sum += product;
            }
            let difference = right[p] - sum;
            d[p] = difference / self.rows[p][p];
        }
        d
    }
}

/// W(a,b): the sum, from 0.0 and over plan numbers in plan order, of the product of both coefficients
/// divided by 2P.
pub fn matrix(furnace: &Furnace) -> Vec<Vec<f64>> {
    let rows = coefficients(furnace);
    let twice_prices = twice_prices(furnace);
    let mut matrix = vec![vec![0.0; rows.len()]; rows.len()];
    for a in 0..rows.len() {
        for b in 0..rows.len() {
            let mut sum = 0.0;
            for number in 0..twice_prices.len() {
                // Below 2^29 in size: the product is not rounded.
                let product = rows[a][number] * rows[b][number];
                let quotient = product / twice_prices[number];
                sum += quotient;
            }
            matrix[a][b] = sum;
        }
    }
    matrix
}

/// The coefficients of each residual e(k,i) = S − 4096 × x(k+1,i), a row for each, over the plan numbers
/// in plan order: B(i,j) of u(k,j), −4096 of x(k+1,i), and A(i,j) of x(k,j) from k = 1 on. x(0) is no
/// plan number.
fn coefficients(furnace: &Furnace) -> Vec<Vec<f64>> {
    let mut rows = Vec::new();
    for k in 0..furnace.horizon {
        for i in 0..furnace.states {
            let mut row = vec![0.0; furnace.plan_length()];
            for j in 0..furnace.inputs {
                row[input_place(furnace, k, j)] = furnace.b[i][j] as f64;
            }
            row[state_place(furnace, k + 1, i)] = -UNIT as f64;
            if k >= 1 {
                for j in 0..furnace.states {
                    row[state_place(furnace, k, j)] = furnace.a[i][j] as f64;
                }
            }
            rows.push(row);
        }
    }
    rows
}

/// 2P of each plan number, in plan order.
fn twice_prices(furnace: &Furnace) -> Vec<f64> {
    let mut prices = vec![0.0; furnace.plan_length()];
    for k in 0..furnace.horizon {
        for j in 0..furnace.inputs {
            let price = furnace.input_column(j).price();
            prices[input_place(furnace, k, j)] = (2 * price) as f64;
        }
        for i in 0..furnace.states {
            let price = furnace.state_column(i).price();
            prices[state_place(furnace, k + 1, i)] = (2 * price) as f64;
        }
    }
    prices
}

#[cfg(test)]
mod tests {
    use super::*;

    #[test]
    fn one_row() {
        let elimination = Elimination::of_matrix(vec![vec![2560.0]], 1);
        assert_eq!(elimination.pivots(), [2560.0]);
        assert_eq!(elimination.correction(&[2560]), [1.0]);
        assert_eq!(elimination.correction(&[-640]), [-0.25]);
    }

    #[test]
    fn two_rows_without_symmetry() {
        // f = 4 / 2; the pivots are 2 and 5 − 2 × 1. With e = 6, 18 the second right side is 18 − 12,
        // d(1) = 6 / 3 and d(0) = (6 − 2) / 2. By f = 1 / 2 the second pivot would be 4.5.
        let elimination = Elimination::of_matrix(vec![vec![2.0, 1.0], vec![4.0, 5.0]], 1);
        assert_eq!(elimination.pivots(), [2.0, 3.0]);
        assert_eq!(elimination.correction(&[6, 18]), [2.0, 2.0]);
    }

    #[test]
    fn the_right_side_is_eliminated_with_the_rows() {
        // 3 × 3 with n = 2. Row 1: f = 1/2, row 2: f = 2, then f = (1 − 2 × 1) / (4 − 1/2) = −2/7.
        let rows = vec![
            vec![2.0, 1.0, 0.0],
            vec![1.0, 4.0, 7.0],
            vec![4.0, 1.0, 3.0],
        ];
        let elimination = Elimination::of_matrix(rows, 2);
        let f = -1.0 / 3.5;
        assert_eq!(elimination.pivots(), [2.0, 3.5, 3.0 - f * 7.0]);
        // Right sides of 8, 10, 0: 10 − 4, and 0 − 16 and then minus f × 6.
        assert_eq!(
            elimination.right_sides(&[8, 10, 0]),
            [8.0, 6.0, -16.0 - f * 6.0]
        );
    }

    #[test]
    fn sums_ascend_from_0() {
        // d = 10, 1, 1, 1 but for the couplings of row 0, which give 1 + 2^53 − 2^53. From 0.0 and in
        // ascending order that is 0; descending it is 1, and taken off 10 one by one it leaves 9.
        let large = 9_007_199_254_740_992.0;
        let mut rows = vec![vec![0.0; 4]; 4];
        for p in 0..4 {
            rows[p][p] = 1.0;
        }
        rows[0][1..].copy_from_slice(&[1.0, large, -large]);
        let elimination = Elimination::of_matrix(rows, 2);
        assert_eq!(
            elimination.correction(&[10, 1, 1, 1]),
            [10.0, 1.0, 1.0, 1.0]
        );
    }

    #[test]
    fn rows_and_columns_out_of_reach_stay() {
        // With n = 1 only the next row and column are touched.
        let rows = vec![
            vec![2.0, 1.0, 9.0],
            vec![1.0, 2.0, 1.0],
            vec![9.0, 1.0, 2.0],
        ];
        let elimination = Elimination::of_matrix(rows, 1);
        assert_eq!(elimination.pivots(), [2.0, 1.5, 2.0 - 1.0 / 1.5]);
        assert_eq!(elimination.correction(&[2, 1, 0]), [1.0, 0.0, 0.0]);
    }

    #[test]
    fn a_pivot_of_0_is_shown() {
        let rows = vec![vec![1.0, 1.0], vec![1.0, 1.0]];
        assert_eq!(Elimination::of_matrix(rows, 1).pivots(), [1.0, 0.0]);
        let rows = vec![vec![0.0, 1.0], vec![1.0, 1.0]];
        let pivots = Elimination::of_matrix(rows, 1).pivots();
        assert_eq!((pivots[0], pivots[1]), (0.0, f64::NEG_INFINITY));
    }
}
