//! Multipliers and the floor under all plans.

use crate::model::{ceil_div, cost, Column, Furnace, Plan, Whole, HALF_UNIT, UNIT};

/// Multipliers lie in −16,777,216 to 16,777,216.
pub const MULTIPLIER_RANGE: Whole = 16_777_216;

/// One whole number for each residual (dual variables): y(k,i) as `y[k][i]`, k from 0 to N−1.
pub type Multipliers = Vec<Vec<Whole>>;

/// The slope s of u(k,j): the sum over i of y(k,i) × B(i,j).
pub fn input_slope(furnace: &Furnace, y: &Multipliers, k: usize, j: usize) -> Whole {
    let mut slope = 0;
    for i in 0..furnace.states {
        slope += y[k][i] * furnace.b[i][j];
    }
    slope
}

/// The slope s of x(k,i), k from 1 to N: −4096 × y(k−1,i), and where k < N also the sum over q
/// of y(k,q) × A(q,i).
pub fn state_slope(furnace: &Furnace, y: &Multipliers, k: usize, i: usize) -> Whole {
    let mut slope = -UNIT * y[k - 1][i];
    if k < furnace.horizon {
        for q in 0..furnace.states {
            slope += y[k][q] * furnace.a[q][i];
        }
    }
    slope
}

/// The end that a column of weight 0 takes at slope s: lo where s ≥ 0, hi otherwise. P is 0 there,
/// so that s × v is all of its term, and nothing can be divided by P.
pub fn end_by_slope(column: &Column, s: Whole) -> Whole {
    if s >= 0 {
        column.lo
    } else {
        column.hi
    }
}

/// Which of the three pieces applies to a plan number.
#[derive(Clone, Copy, Debug, PartialEq, Eq)]
pub enum Piece {
    /// None of them: the weight is 0, and request 4's rule is in their place.
    Unweighted,
    /// The first: P × (v − r)² + s × v is least at lo.
    First,
    /// The second: it is least at hi.
    Second,
    /// The third: it is least between lo and hi.
    Third,
}

impl Piece {
    /// The one that applies at slope s. Where lo = hi the first two both could; the first one does.
    pub fn of(column: &Column, s: Whole) -> Piece {
        let Column {
            lo,
            hi,
            reference: r,
            weight,
        } = *column;
        let p = column.price();
        if weight == 0 {
            Piece::Unweighted
        } else if 2 * p * (lo - r) + s >= 0 {
            Piece::First
        } else if 2 * p * (hi - r) + s <= 0 {
            Piece::Second
        } else {
            Piece::Third
        }
    }
}

/// The piece of a plan number with slope s: a lower bound of P × (v − r)² + s × v over lo to hi,
/// fractions of a unit included. At weight 0 it is s × lo where s ≥ 0 and s × hi otherwise.
///
/// Where neither end is the least, v = r − s / 2P is, with s × r − s² / 4P. That v may be any
/// fraction, so the quotient is rounded up (request 7): the piece is not above it.
pub fn piece(column: &Column, s: Whole) -> Whole {
    let Column { lo, hi, .. } = *column;
    match Piece::of(column, s) {
        Piece::Unweighted => s * end_by_slope(column, s),
        Piece::First => column.cost(lo) + s * lo,
        Piece::Second => column.cost(hi) + s * hi,
        Piece::Third => s * column.reference - ceil_div(s * s, 4 * column.price()),
    }
}

/// The constant: y(k,i) × w(i) over all k and i, plus y(0,i) × A(i,j) × x(0,j) over i and j.
pub fn constant(furnace: &Furnace, y: &Multipliers) -> Whole {
    let mut sum = 0;
    for k in 0..furnace.horizon {
        for i in 0..furnace.states {
            sum += y[k][i] * furnace.drift[i];
        }
    }
    for i in 0..furnace.states {
        for j in 0..furnace.states {
            sum += y[0][i] * furnace.a[i][j] * furnace.start[j];
        }
    }
    sum
}

/// The sum over plan numbers of what `term` gives for the column, with the step's reference, and the
/// slope.
pub fn sum_over_numbers(
    furnace: &Furnace,
    y: &Multipliers,
    term: impl Fn(&Column, Whole) -> Whole,
) -> Whole {
    let mut sum = 0;
    for k in 0..furnace.horizon {
        for j in 0..furnace.inputs {
            sum += term(&furnace.input_at(k, j), input_slope(furnace, y, k, j));
        }
    }
    for k in 1..=furnace.horizon {
        for i in 0..furnace.states {
            sum += term(&furnace.state_at(k, i), state_slope(furnace, y, k, i));
        }
    }
    sum
}

/// The sum of all pieces.
pub fn pieces(furnace: &Furnace, y: &Multipliers) -> Whole {
    sum_over_numbers(furnace, y, piece)
}

/// The floor (dual bound): all pieces + constant − 2048 × the sum of |y|. The last term is there
/// because the model rounds: a residual may be up to 2048 from 0.
pub fn floor(furnace: &Furnace, y: &Multipliers) -> Whole {
    let mut size = 0;
    for k in 0..furnace.horizon {
        for i in 0..furnace.states {
            size += y[k][i].abs();
        }
    }
    pieces(furnace, y) + constant(furnace, y) - HALF_UNIT * size
}

/// The gap (duality gap) = K − floor.
pub fn gap(furnace: &Furnace, plan: &Plan, y: &Multipliers) -> Whole {
    cost(furnace, plan) - floor(furnace, y)
}

/// The ceiling: the sum over plan numbers of P × the larger of (lo − r)² and (hi − r)². No plan
/// within its limits costs more.
pub fn ceiling(furnace: &Furnace) -> Whole {
    let mut sum = 0;
    for k in 0..furnace.horizon {
        for c in 0..furnace.columns.len() {
            let column = furnace.column_at(c, k);
            sum += column.cost(column.lo).max(column.cost(column.hi));
        }
    }
    sum
}

/// Multipliers show impossibility when the floor exceeds the ceiling.
pub fn shows_impossibility(furnace: &Furnace, y: &Multipliers) -> bool {
    floor(furnace, y) > ceiling(furnace)
}

#[cfg(test)]
mod tests {
    use super::*;

    /// A column of weight 0.
    fn unweighted(lo: Whole, hi: Whole, reference: Whole) -> Column {
        Column {
            lo,
            hi,
            reference,
            weight: 0,
        }
    }

    #[test]
    fn weight_0_takes_an_end() {
        let column = unweighted(-3, 9, 5);
        assert_eq!(end_by_slope(&column, 1), -3);
        assert_eq!(end_by_slope(&column, 0), -3);
        assert_eq!(end_by_slope(&column, -1), 9);
    }

    #[test]
    fn pieces_of_weight_0() {
        // 7 × −3, 0 × −3, −7 × 9.
        let column = unweighted(-3, 9, 5);
        assert_eq!(piece(&column, 7), -21);
        assert_eq!(piece(&column, 0), 0);
        assert_eq!(piece(&column, -7), -63);
        // Limits of one sign: 100 × 200, −100 × 300; −100 × −200, 100 × −300.
        assert_eq!(piece(&unweighted(200, 300, 250), 100), 20_000);
        assert_eq!(piece(&unweighted(200, 300, 250), -100), -30_000);
        assert_eq!(piece(&unweighted(-300, -200, 0), -100), 20_000);
        assert_eq!(piece(&unweighted(-300, -200, 0), 100), -30_000);
    }

    #[test]
    fn pieces_of_weight_0_with_one_number() {
        // 7 s, whatever the sign.
        let column = unweighted(7, 7, 5);
        assert_eq!(piece(&column, 10), 70);
        assert_eq!(piece(&column, 0), 0);
        assert_eq!(piece(&column, -10), -70);
    }

    #[test]
    fn the_reference_of_weight_0_does_not_count() {
        for reference in [-20_000, -4, -3, 0, 9, 10, 20_000] {
            let column = unweighted(-3, 9, reference);
            assert_eq!(piece(&column, 7), -21);
            assert_eq!(piece(&column, 0), 0);
            assert_eq!(piece(&column, -7), -63);
        }
    }
}
