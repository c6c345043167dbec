//! Slopes, pieces, and the floor that multipliers put under all plans.

use crate::furnace::{Column, Furnace, Multipliers, Numbers, UNIT};

/// The slope of each plan number.
pub(crate) fn slopes(furnace: &Furnace, y: &Multipliers) -> Numbers {
    let mut slopes = Numbers::ZERO;
    for k in 0..furnace.steps {
        for j in 0..furnace.inputs {
            for i in 0..furnace.states {
                slopes.inputs[k][j] += y[k][i] * furnace.b[i][j];
            }
        }
        for i in 0..furnace.states {
            slopes.states[k][i] = -UNIT * y[k][i];
            if k + 1 < furnace.steps {
                for q in 0..furnace.states {
                    slopes.states[k][i] += y[k + 1][q] * furnace.a[q][i];
                }
            }
        }
    }
    slopes
}

/// The piece of a column's number at step k with slope s: the least that its cost and s times
/// itself come to within the limits.
fn piece(column: &Column, k: usize, s: i64) -> i64 {
    let Column { lo, hi, price, .. } = *column;
    let r = column.reference[k];
    if price == 0 {
        // Such a number has no cost, and the slope alone says at which end the least is.
        return if s >= 0 { s * lo } else { s * hi };
    }
    if 2 * price * (lo - r) + s >= 0 {
        column.cost(k, lo) + s * lo
    } else if 2 * price * (hi - r) + s <= 0 {
        column.cost(k, hi) + s * hi
    } else {
        s * r - square_over(s, 4 * price)
    }
}

/// s² / divisor, rounded up. The square may pass 64 bits.
fn square_over(s: i64, divisor: i64) -> i64 {
    let square = i128::from(s) * i128::from(s);
    -(-square).div_euclid(i128::from(divisor)) as i64
}

/// The sum of all pieces.
fn pieces(furnace: &Furnace, slopes: &Numbers) -> i64 {
    let mut sum = 0;
    for k in 0..furnace.steps {
        for j in 0..furnace.inputs {
            sum += piece(furnace.input(j), k, slopes.inputs[k][j]);
        }
        for i in 0..furnace.states {
            sum += piece(furnace.state(i), k, slopes.states[k][i]);
        }
    }
    sum
}

/// What does not depend on the plan: the part of the drift and of the start.
fn constant(furnace: &Furnace, y: &Multipliers) -> i64 {
    let mut sum = 0;
    for k in 0..furnace.steps {
        for i in 0..furnace.states {
            sum += y[k][i] * furnace.drift[i];
        }
    }
    for i in 0..furnace.states {
        for j in 0..furnace.states {
            sum += y[0][i] * furnace.a[i][j] * furnace.start[j];
        }
    }
    sum
}

/// The sum of |y|.
fn sizes(furnace: &Furnace, y: &Multipliers) -> i64 {
    let mut sum = 0;
    for k in 0..furnace.steps {
        for i in 0..furnace.states {
            sum += y[k][i].abs();
        }
    }
    sum
}

/// The floor under the cost of all plans. The slopes are those of y.
pub(crate) fn floor(furnace: &Furnace, y: &Multipliers, slopes: &Numbers) -> i64 {
    pieces(furnace, slopes) + constant(furnace, y) - UNIT / 2 * sizes(furnace, y)
}

/// The most that numbers within their limits can cost.
pub(crate) fn ceiling(furnace: &Furnace) -> i64 {
    let mut sum = 0;
    for k in 0..furnace.steps {
        for column in &furnace.columns[..furnace.states + furnace.inputs] {
            sum += column.cost(k, column.lo).max(column.cost(k, column.hi));
        }
    }
    sum
}

#[cfg(test)]
mod tests {
    use super::*;
    use crate::tapes::{tape_f, tape_m9};
    use crate::{MOST_STATES, MOST_STEPS};

    /// The floor of a furnace of one step and one state.
    fn floor_of(furnace: &Furnace, multiplier: i64) -> i64 {
        let mut y = [[0; MOST_STATES]; MOST_STEPS];
        y[0][0] = multiplier;
        floor(furnace, &y, &slopes(furnace, &y))
    }

    #[test]
    fn figures_m3_and_m6() {
        let furnace = tape_f().furnace();
        assert_eq!(floor_of(&furnace, -16), 294_912);
        assert_eq!(floor_of(&furnace, 0), 0);
    }

    #[test]
    fn figure_m9() {
        let furnace = tape_m9().furnace();
        assert_eq!(floor_of(&furnace, -100), 48_435_200);
        assert_eq!(ceiling(&furnace), 16_793_600);
    }

    #[test]
    fn figure_m10_with_request_7() {
        let furnace = tape_m9().furnace();
        assert_eq!(piece(furnace.state(0), 0, 409_600), 92_160_000);
        assert_eq!(piece(furnace.state(0), 0, 409_599), 92_159_799);
    }

    #[test]
    fn weight_0_takes_an_end_by_the_slope() {
        let mut column = *tape_f().furnace().state(0);
        column.price = 0;
        let ends = [1, 0, -1].map(|s| piece(&column, 0, s));
        assert_eq!(ends, [-1000, 0, -1000]);
    }

    #[test]
    fn a_square_beyond_64_bits() {
        // (2^36)² / 2^14 is whole; (2^36 − 1)² / 2^14 is 2^58 − 2^23 and a 2^14th.
        assert_eq!(square_over(1 << 36, 1 << 14), 1 << 58);
        let below = (1 << 58) - (1 << 23) + 1;
        assert_eq!(square_over((1 << 36) - 1, 1 << 14), below);
        assert_eq!(square_over(1 - (1 << 36), 1 << 14), below);
    }
}
