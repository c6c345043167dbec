//! Plan numbers of which the range is asked alone (request 8), without a tape: a column, a slope and a
//! gap.

use super::furnaces::MOST_GAP;
use super::random::Random;
use crate::floor::Piece;
use crate::model::{Column, Whole};
use crate::range::{allows, range, Range};
use crate::tape::{MOST_WEIGHT, NUMBER_RANGE};

/// A column, a slope and a gap.
#[derive(Clone, Copy, Debug, PartialEq, Eq)]
pub struct Duty {
    /// The column, with the step's reference.
    pub column: Column,
    /// The slope s.
    pub slope: Whole,
    /// The gap, from 0.
    pub gap: Whole,
}

impl Duty {
    /// The piece that applies.
    pub fn piece(&self) -> Piece {
        Piece::of(&self.column, self.slope)
    }

    /// The range.
    pub fn range(&self) -> Range {
        range(&self.column, self.slope, self.gap)
    }

    /// Is V / D allowed?
    pub fn allows(&self, d: Whole, number: Whole) -> bool {
        allows(&self.column, self.slope, self.gap, d, number)
    }
}

/// The size that no slope of a tape passes: 4096 + 6 × 16,384 times the largest multiplier.
const MOST_SLOPE: Whole = 102_400 * 16_777_216;

/// A duty of any kind. Its slope and its gap are mostly such that an end is a whole number, or beside
/// one.
pub fn any(random: &mut Random) -> Duty {
    let column = column(random);
    Duty {
        column,
        slope: slope(&column, random),
        gap: gap(&column, random),
    }
}

/// A column of which most are narrow, with a reference between the limits, beside them or anywhere.
/// One in 40 has the widest limits: there all numbers are tried.
fn column(random: &mut Random) -> Column {
    let width = random.choose(&[0, 1, 2, 12, 12, 60, 60, 400]);
    let lo = random.between(-NUMBER_RANGE, NUMBER_RANGE - width);
    let (lo, hi) = if random.one_in(40) {
        (-NUMBER_RANGE, NUMBER_RANGE)
    } else {
        (lo, lo + width)
    };
    let near = random.between(lo - 3, hi + 3);
    let near = near.clamp(-NUMBER_RANGE, NUMBER_RANGE);
    let any = random.between(-NUMBER_RANGE, NUMBER_RANGE);
    let weight = random.between(1, MOST_WEIGHT);
    Column {
        lo,
        hi,
        reference: random.choose(&[near, near, any, -NUMBER_RANGE, NUMBER_RANGE]),
        weight: random.choose(&[0, 1, 1, 2, 3, 4, weight, MOST_WEIGHT]),
    }
}

/// A slope that puts 2P times the centre between the limits or just outside, at one of them or a unit
/// beside it, at a whole or half number or a unit beside it, or anywhere.
fn slope(column: &Column, random: &mut Random) -> Whole {
    let p = column.price();
    let v = random.between(column.lo - 1, column.hi + 1);
    let halves = random.between(2 * column.lo, 2 * column.hi);
    let centre = match random.below(5) {
        0 => 2 * p * v + random.between(-2 * p, 2 * p),
        1 => 2 * p * random.choose(&[column.lo, column.hi]) + random.between(-1, 1),
        2 => p * halves + random.between(-1, 1),
        3 => p * halves,
        _ => random.between(-MOST_SLOPE, MOST_SLOPE),
    };
    2 * p * column.reference - centre
}

/// A gap of a whole or half number of units or one beside it, any of several sizes, or at the ends of
/// its range.
fn gap(column: &Column, random: &mut Random) -> Whole {
    let halves = random.between(0, 40);
    let of_halves = column.price() / 4 * halves * halves;
    let most = random.choose(&[10, 100_000, 10_000_000, MOST_GAP]);
    let gap = match random.below(4) {
        0 => of_halves,
        1 => of_halves + random.between(-1, 1),
        2 => random.between(0, most),
        _ => random.choose(&[0, 1, MOST_GAP - 1, MOST_GAP]),
    };
    gap.clamp(0, MOST_GAP)
}
