//! The ends of ranges (request 8) of generated duties, against roots and quotients, and against fractions
//! beside them.

use reference::floor::Piece;
use reference::generate::{duties, Duty};
use reference::model::Column;
use reference::Whole;

/// The least number from 0 whose square is at or above this one, by the root rounded down.
fn root_up(number: Whole) -> Whole {
    let root = number.isqrt();
    root + Whole::from(root * root < number)
}

/// 2P times the number at which P × (v − r)² + s × v is least, were there no limits.
fn centre(duty: &Duty) -> Whole {
    2 * 4096 * duty.column.weight * duty.column.reference - duty.slope
}

/// The two ends by roots and quotients, before they are limited to lo and hi.
fn unlimited(duty: &Duty) -> [Whole; 2] {
    let Column { lo, hi, weight, .. } = duty.column;
    if weight == 0 {
        return [lo, hi];
    }
    let p = 4096 * weight;
    let centre = centre(duty);
    let down = |dividend: Whole, divisor: Whole| dividend.div_euclid(divisor);
    let up = |dividend: Whole, divisor: Whole| -(-dividend).div_euclid(divisor);
    let off = root_up(up(duty.gap, p));
    if centre <= 2 * p * lo {
        return [lo - off, lo + off];
    }
    if centre >= 2 * p * hi {
        return [hi - off, hi + off];
    }
    let off = root_up(4 * p * duty.gap);
    [down(centre - off, 2 * p), up(centre + off, 2 * p)]
}

/// Where a piece is counted.
fn place(piece: Piece) -> usize {
    match piece {
        Piece::Unweighted => 0,
        Piece::First => 1,
        Piece::Second => 2,
        Piece::Third => 3,
    }
}

#[test]
fn ends_agree_with_roots_and_quotients() {
    // By the piece: no end limited, one, both.
    let mut found = [[0; 3]; 4];
    for duty in (0..8_000).flat_map(duties) {
        let ends = unlimited(&duty);
        let limited = ends.map(|end| duty.column.limit(end));
        let range = duty.range();
        assert_eq!([range.low, range.high], limited, "{duty:?}");
        let moved = ends.iter().zip(&limited).filter(|(end, at)| end != at);
        found[place(duty.piece())][moved.count()] += 1;
    }
    // At weight 0 no end is beyond the limits.
    assert!(found[0][0] > 1_000, "{found:?}");
    let mut weighted = found[1..].iter().flatten();
    assert!(weighted.all(|count| *count > 1_000), "{found:?}");
}

/// The D of an allowed fraction below a whole number, for a `side` of −1, or above it, for 1: 2P where
/// the centre is one, else the least of 2^0 to 2^27 with which the next one is.
fn allowed_beyond(duty: &Duty, number: Whole, side: Whole) -> Option<Whole> {
    let d = 2 * 4096 * duty.column.weight;
    let centre = centre(duty).clamp(d * duty.column.lo, d * duty.column.hi);
    assert!(duty.allows(d, centre), "{duty:?}");
    if (centre - d * number) * side > 0 {
        return Some(d);
    }
    let mut all = (0..=27).map(|power| 1 << power);
    all.find(|d| duty.allows(*d, d * number + side))
}

#[test]
fn ends_are_as_near_as_they_can_be() {
    // Ends that are allowed, ends that are not, and the largest D that was needed.
    let (mut on, mut between, mut most) = (0, 0, 0);
    let duties = (8_000..12_000).flat_map(duties);
    for duty in duties.filter(|duty| duty.column.weight > 0) {
        let (column, range) = (duty.column, duty.range());
        for (end, limit, outward) in [(range.low, column.lo, -1), (range.high, column.hi, 1)] {
            if end == limit {
                continue;
            }
            // No fraction beyond the end is allowed. With an end one unit further in, one would be.
            let beyond = |number| allowed_beyond(&duty, number, outward);
            assert_eq!(beyond(end), None, "{duty:?}");
            let needed = beyond(end - outward);
            most = most.max(needed.unwrap_or_else(|| panic!("{duty:?}")));
            match duty.allows(1, end) {
                true => on += 1,
                false => between += 1,
            }
        }
    }
    let counts = [on, between, most];
    assert!(counts.iter().all(|count| *count > 1_000), "{counts:?}");
}
