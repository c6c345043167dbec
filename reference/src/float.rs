//! The bits of a 64-bit float taken apart and put together as whole numbers, so that nothing is rounded.

use crate::model::{floor_div, Whole};

/// The low bits of a float, which hold all its digits but the first.
const DIGIT_BITS: u32 = 52;

/// The first digit, which is not written.
const FIRST_DIGIT: Whole = 1 << DIGIT_BITS;

/// The exponent has 11 bits. All ones is that of infinities and of what is no number.
const EXPONENTS: u64 = 2048;

/// The power of two of the last digit where the exponent is 0 or 1; one more for each further.
const LEAST_POWER: i32 = -1074;

/// Digits at a power below this one are worth less than 1/2 in all.
pub(crate) const SMALL_POWER: i32 = -60;

/// A finite float: `digits` × 2^`power`, with `digits` below 2^53 in size. Both zeros have digits 0.
pub(crate) struct Parts {
    /// The digits as a whole number, with the float's sign.
    pub digits: Whole,
    /// The power of two that the last digit counts.
    pub power: i32,
}

/// The parts of a float; none where it is infinite or not a number.
pub(crate) fn parts(float: f64) -> Option<Parts> {
    let bits = float.to_bits();
    let written = Whole::from(bits % (1 << DIGIT_BITS));
    let exponent = (bits >> DIGIT_BITS) % EXPONENTS;
    let negative = bits >> 63 == 1;
    let (size, power) = match exponent {
        // Zeros and subnormals have no digit that is not written.
        0 => (written, LEAST_POWER),
        _ if exponent < EXPONENTS - 1 => (written + FIRST_DIGIT, LEAST_POWER + exponent as i32 - 1),
        _ => return None,
    };
    let digits = if negative { -size } else { size };
    Some(Parts { digits, power })
}

/// The float of these parts, whose digits are not 0. It is exact: digits move to the front only.
pub(crate) fn float(parts: Parts) -> f64 {
    let Parts { digits, mut power } = parts;
    let mut size = digits.abs();
    while size < FIRST_DIGIT && power > LEAST_POWER {
        size *= 2;
        power -= 1;
    }
    let exponent = match size {
        ..FIRST_DIGIT => 0,
        _ => (power - LEAST_POWER + 1) as u64,
    };
    let written = (size % FIRST_DIGIT) as u64;
    let sign = u64::from(digits < 0);
    f64::from_bits(sign << 63 | exponent << DIGIT_BITS | written)
}

/// The whole number nearest to `digits` / `unit`, halves upward, and how many times 1 / `unit` is
/// left over.
pub(crate) fn rounded(digits: Whole, unit: Whole) -> (Whole, Whole) {
    let number = floor_div(2 * digits + unit, 2 * unit);
    (number, digits - number * unit)
}

/// From this power on a float is 2^112 or more in size, and [`nearest`] gives a smaller number that is
/// still 2^112 or more.
const FAR_POWER: i32 = 60;

/// The whole number nearest to a float, halves upward; none where it is infinite or not a number. One
/// that is far beyond every multiplier need not be exact.
pub fn nearest(number: f64) -> Option<Whole> {
    let Parts { digits, power } = parts(number)?;
    Some(match power {
        // No digit stands behind the point.
        0.. => digits << power.min(FAR_POWER),
        SMALL_POWER..=-1 => rounded(digits, 1 << -power).0,
        // Below 2^53 × 2^−61.
        _ => 0,
    })
}

#[cfg(test)]
mod tests {
    use super::*;

    #[test]
    fn halves_go_upward() {
        let cases = [
            (0.5, 1),
            (-0.5, 0),
            (1.5, 2),
            (-1.5, -1),
            (2.5, 3),
            (-2.5, -2),
            (4_194_303.5, 4_194_304),
            (-4_194_303.5, -4_194_303),
        ];
        for (number, whole) in cases {
            assert_eq!(nearest(number), Some(whole), "{number}");
        }
    }

    #[test]
    fn beside_halves() {
        // Adding 1/2 in floats to the first gives 1.
        assert_eq!(nearest(0.499_999_999_999_999_94), Some(0));
        assert_eq!(nearest(0.5_f64.next_up()), Some(1));
        assert_eq!(nearest((-0.5_f64).next_up()), Some(0));
        assert_eq!(nearest((-0.5_f64).next_down()), Some(-1));
        assert_eq!(nearest(1.5_f64.next_down()), Some(1));
        assert_eq!(nearest((-1.5_f64).next_down()), Some(-2));
    }

    #[test]
    fn zeros_and_small_sizes() {
        let smallest = f64::from_bits(1);
        for number in [0.0, -0.0, smallest, -smallest, 1e-300, -1e-20, 0.25, -0.25] {
            assert_eq!(nearest(number), Some(0), "{number}");
        }
    }

    #[test]
    fn large_sizes_are_whole() {
        // 2^51 has halves, 2^52 + 1 has none, and to 2^53 − 1 adding 1/2 in floats gives 2^53.
        let two_51 = f64::from(1 << 30) * f64::from(1 << 21);
        assert_eq!(nearest(two_51 + 0.5), Some((1 << 51) + 1));
        assert_eq!(nearest(-two_51 - 0.5), Some(-(1 << 51)));
        assert_eq!(nearest(2.0 * two_51 + 1.0), Some((1 << 52) + 1));
        assert_eq!(nearest(4.0 * two_51 - 1.0), Some((1 << 53) - 1));
        assert_eq!(nearest(-(4.0 * two_51 - 1.0)), Some(1 - (1 << 53)));
        assert_eq!(nearest(1e26), Some(100_000_000_000_000_004_764_729_344));
        assert_eq!(nearest(-1e26), Some(-100_000_000_000_000_004_764_729_344));
        assert!(nearest(f64::MAX) >= Some(1 << 112));
        assert!(nearest(f64::MIN) <= Some(-(1 << 112)));
    }

    #[test]
    fn none_is_near_what_is_not_finite() {
        for number in [f64::INFINITY, f64::NEG_INFINITY, f64::NAN, -f64::NAN] {
            assert_eq!(nearest(number), None);
        }
    }

    #[test]
    fn nearest_lies_within_half_a_unit() {
        // In quarters, which are exact.
        for quarters in -4_000..=4_000 {
            let number = f64::from(quarters) / 4.0;
            let whole = nearest(number).expect("a finite float");
            let left = Whole::from(quarters) - 4 * whole;
            assert!((-2..2).contains(&left), "{number}");
        }
    }
}
