//! How near a good duty must be (document 02, request 8): what a rival's numbers can be where it costs
//! no more than the accepted plan.
//!
//! Each plan number has the slope s that the accepted plan's multipliers give it. The piece that applies
//! says from where its number is measured, and the gap how far off it may be. A number is V / D, as
//! in [`crate::rival`], so that no fraction is formed.
//!
//! The ends of a range are found by trying the whole numbers from lo to hi one by one: no root is taken
//! and nothing is divided.

use crate::calls::{judge_plan, lent_multipliers, read};
use crate::floor::{input_slope, state_slope, Multipliers, Piece};
use crate::model::{Column, Furnace, Whole};
use crate::refusal::Refusal;
use crate::tape::MOST_INPUTS;

/// The two ends of what is allowed, in whole units rounded outward and limited to lo and hi.
#[derive(Clone, Copy, Debug, PartialEq, Eq)]
pub struct Range {
    /// The lower end.
    pub low: Whole,
    /// The upper end.
    pub high: Whole,
}

/// The inequality of a piece at one number: factor × distance² is at most `most`. The distance grows
/// with the number, and it is 0 where the range has its centre.
struct Inequality {
    factor: Whole,
    distance: Whole,
    most: Whole,
}

impl Inequality {
    /// That of the piece that applies, at V / D and in units of 1/D²; none at weight 0.
    fn at(column: &Column, s: Whole, gap: Whole, d: Whole, number: Whole) -> Option<Inequality> {
        let p = column.price();
        let most = gap * d * d;
        let from = |end: Whole| Inequality {
            factor: p,
            distance: number - d * end,
            most,
        };
        match Piece::of(column, s) {
            Piece::Unweighted => None,
            Piece::First => Some(from(column.lo)),
            Piece::Second => Some(from(column.hi)),
            Piece::Third => Some(Inequality {
                factor: 1,
                distance: 2 * p * (number - d * column.reference) + d * s,
                most: 4 * p * most,
            }),
        }
    }

    /// The left side.
    fn left(&self) -> Whole {
        self.factor * self.distance * self.distance
    }

    /// Does it hold?
    fn holds(&self) -> bool {
        self.left() <= self.most
    }

    /// Does it hold for no real number below this one? On the lower side the left side grows without
    /// end as the number falls, so this one must be there or at the centre, and at the edge or beyond.
    fn shuts_out_all_below(&self) -> bool {
        self.distance <= 0 && self.left() >= self.most
    }

    /// Does it hold for no real number above this one?
    fn shuts_out_all_above(&self) -> bool {
        self.distance >= 0 && self.left() >= self.most
    }
}

/// Is V / D allowed? With r and s of the plan number: where the third piece applies, (2P × (v − r) +
/// s)² is at most 4P × gap; where the first or second applies, P × (v − lo)² or P × (v − hi)² is at
/// most the gap. Everything is allowed at weight 0, also beyond lo and hi.
///
/// Within lo to hi the third piece's 2P × (v − r) + s passes 0 and changes by 2P × (hi − lo), so that
/// its square is below 7.1 × 10^21. 128 bits hold that times D² for every D up to 2^27.
pub fn allows(column: &Column, s: Whole, gap: Whole, d: Whole, number: Whole) -> bool {
    let inequality = Inequality::at(column, s, gap, d, number);
    inequality.is_none_or(|inequality| inequality.holds())
}

/// The two ends of what is allowed, at most 40,001 numbers being tried for each.
///
/// The lower end, rounded outward, is the largest whole number below which no real number is allowed:
/// an end that is whole is this number itself. Where there is none from lo on, lo is the limit. The
/// upper end is the same from above.
///
/// The gap is that of an accepted plan, so it is not below 0: that plan is a rival itself, and no rival
/// costs less than the floor. The centre is allowed then, and the low end is not above the high one.
pub fn range(column: &Column, s: Whole, gap: Whole) -> Range {
    assert!(gap >= 0);
    let at = |number: &Whole| Inequality::at(column, s, gap, 1, *number);
    let mut numbers = column.lo..=column.hi;
    let below = |number: &Whole| at(number).is_some_and(|here| here.shuts_out_all_below());
    let low = numbers.clone().rev().find(below);
    let above = |number: &Whole| at(number).is_some_and(|here| here.shuts_out_all_above());
    let high = numbers.find(above);
    Range {
        low: low.unwrap_or(column.lo),
        high: high.unwrap_or(column.hi),
    }
}

/// The column of each plan number, with the step's reference, and its slope, in the order of a lent
/// plan: u(0), x(1), u(1), x(2) and so on.
pub fn columns_and_slopes(furnace: &Furnace, y: &Multipliers) -> Vec<(Column, Whole)> {
    let mut all = Vec::new();
    for k in 0..furnace.horizon {
        for j in 0..furnace.inputs {
            all.push((furnace.input_at(k, j), input_slope(furnace, y, k, j)));
        }
        for i in 0..furnace.states {
            let s = state_slope(furnace, y, k + 1, i);
            all.push((furnace.state_at(k + 1, i), s));
        }
    }
    all
}

/// The ranges of all plan numbers, in the order of a lent plan.
pub fn all_ranges(furnace: &Furnace, y: &Multipliers, gap: Whole) -> Vec<Range> {
    each_range(&columns_and_slopes(furnace, y), gap)
}

/// The ranges of the first duties, u(0,0) to u(0,m−1), with which a lent plan begins.
pub fn first_ranges(furnace: &Furnace, y: &Multipliers, gap: Whole) -> Vec<Range> {
    each_range(&columns_and_slopes(furnace, y)[..furnace.inputs], gap)
}

/// The range of each plan number.
fn each_range(numbers: &[(Column, Whole)], gap: Whole) -> Vec<Range> {
    let one = |(column, s): &(Column, Whole)| range(column, *s, gap);
    numbers.iter().map(one).collect()
}

/// How many numbers [`ranges`] has.
pub const RANGES_LENGTH: usize = 2 * MOST_INPUTS;

/// Judges a plan with multipliers, as [`judge_plan`] does and with its refusals, and gives the ranges of
/// its first duties: the ends of u(0,j) at 2j and 2j+1. Places beyond m are 0.
pub fn ranges(
    tape: &[u8],
    plan: &[i32],
    multipliers: &[i32],
) -> Result<[Whole; RANGES_LENGTH], Refusal> {
    let gap = judge_plan(tape, plan, multipliers)?;
    let furnace = read(tape)?;
    let y = lent_multipliers(&furnace, multipliers);
    let mut ends = [0; RANGES_LENGTH];
    for (j, range) in first_ranges(&furnace, &y, gap).iter().enumerate() {
        ends[2 * j] = range.low;
        ends[2 * j + 1] = range.high;
    }
    Ok(ends)
}

#[cfg(test)]
mod tests {
    use super::*;

    /// What a column says of a whole number: is it allowed, is nothing below it, is nothing above it?
    fn said(column: &Column, s: Whole, gap: Whole, number: Whole) -> [bool; 3] {
        let here = Inequality::at(column, s, gap, 1, number).expect("a weight above 0");
        let shuts_out = [here.shuts_out_all_below(), here.shuts_out_all_above()];
        [here.holds(), shuts_out[0], shuts_out[1]]
    }

    /// A column of weight 1 from −10 to 10.
    fn column(reference: Whole) -> Column {
        Column {
            lo: -10,
            hi: 10,
            reference,
            weight: 1,
        }
    }

    #[test]
    fn around_both_ends_of_the_third_piece() {
        // The centre is 3 and the gap 4096 × 4: from 1 to 5.
        let at = |number| said(&column(3), 0, 16_384, number);
        assert_eq!(at(0), [false, true, false]);
        assert_eq!(at(1), [true, true, false]);
        assert_eq!(at(2), [true, false, false]);
        assert_eq!(at(3), [true, false, false]);
        assert_eq!(at(5), [true, false, true]);
        assert_eq!(at(6), [false, false, true]);
        // With gap 0 the centre is both ends.
        let at = |number| said(&column(3), 0, 0, number);
        assert_eq!(at(2), [false, true, false]);
        assert_eq!(at(3), [true, true, true]);
        assert_eq!(at(4), [false, false, true]);
    }

    #[test]
    fn around_the_ends_of_the_first_and_second_piece() {
        // From lo or hi 2 units either way, of which one way is beyond the limits.
        let at = |number| said(&column(-11), 0, 16_384, number);
        let numbers = [-13, -12, -10, -8, -7].map(at);
        let [beyond, low, inside, high, above] = numbers;
        assert_eq!([beyond, low], [[false, true, false], [true, true, false]]);
        assert_eq!(inside, [true, false, false]);
        assert_eq!([high, above], [[true, false, true], [false, false, true]]);
        let mirrored = |number: Whole| said(&column(11), 0, 16_384, -number);
        let swap = |[holds, below, above]: [bool; 3]| [holds, above, below];
        assert_eq!([-13, -12, -10, -8, -7].map(mirrored), numbers.map(swap));
    }

    #[test]
    fn the_largest_d() {
        // Both ends of the widest limits, 2P × 40,000 apart, with the centre at a unit of 1/2P beside
        // one of them: D = 2^27.
        let mut column = column(0);
        (column.lo, column.hi, column.weight) = (-20_000, 20_000, 255);
        let (d, s): (Whole, Whole) = (1 << 27, 2 * 1_044_480 * 20_000 - 1);
        assert_eq!(Piece::of(&column, s), Piece::Third);
        assert!(allows(&column, s, 1, d, -20_000 * d));
        assert!(!allows(&column, s, 0, d, -20_000 * d));
        assert!(!allows(&column, s, 0xffff_ffff, d, 20_000 * d));
    }
}
