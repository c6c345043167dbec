//! Lent numbers with guard cells on both sides, so that a write beside them shows, or with nothing
//! beside them, so that valgrind sees it. Cells are compared by their bits: a float may differ from
//! itself.

use std::hint::black_box;
use std::ops::Range;

/// Guard cells on each side. The number is odd, so that a lent tape is not aligned.
pub const GUARD: usize = 13;

/// Numbers that can be lent.
pub trait Cell: Copy {
    /// A number for each place that no call writes; a byte, which may be anything, that is not the
    /// same in all places.
    fn mark(place: usize) -> Self;

    /// The number as memory holds it.
    fn bits(self) -> u64;
}

impl Cell for u8 {
    fn mark(place: usize) -> u8 {
        0x5a ^ place as u8
    }

    fn bits(self) -> u64 {
        u64::from(self)
    }
}

impl Cell for i32 {
    fn mark(place: usize) -> i32 {
        // Beyond the multiplier range.
        0x5a5a_0000 + place as i32
    }

    fn bits(self) -> u64 {
        u64::from(self as u32)
    }
}

impl Cell for i64 {
    fn mark(place: usize) -> i64 {
        // Beyond 5 × 10^18, which no gap passes.
        0x5a5a_5a5a_0000_0000 + place as i64
    }

    fn bits(self) -> u64 {
        self as u64
    }
}

impl Cell for f64 {
    fn mark(place: usize) -> f64 {
        // Beyond 10^127, which no leftover, no pivot and no d is.
        f64::from_bits(0x5a5a_5a5a_0000_0000 + place as u64)
    }

    fn bits(self) -> u64 {
        self.to_bits()
    }
}

/// `count` marks.
pub fn marks<T: Cell>(count: usize) -> Vec<T> {
    (0..count).map(T::mark).collect()
}

/// The bits of all cells.
pub fn bits<T: Cell>(cells: &[T]) -> Vec<u64> {
    cells.iter().map(|cell| cell.bits()).collect()
}

/// The bits of all floats, with the same ones for every NaN: which of them an operation gives is not
/// settled.
pub fn float_bits(floats: &[f64]) -> Vec<u64> {
    let settled = |float: &f64| if float.is_nan() { f64::NAN } else { *float };
    floats.iter().map(|float| settled(float).bits()).collect()
}

/// Do the cells have the same bits?
fn same<T: Cell>(cells: &[T], before: &[T]) -> bool {
    let (cells, before) = (cells.iter(), before.iter());
    cells
        .map(|cell| cell.bits())
        .eq(before.map(|cell| cell.bits()))
}

/// What lies beside lent numbers.
#[derive(Clone, Copy, Debug, PartialEq, Eq)]
pub enum Beside {
    /// Guard cells, in which a write shows.
    Guards,
    /// Nothing: they are a block of their own, so that valgrind sees any read or write beside
    /// them.
    Nothing,
}

/// Cells of which the middle ones are lent.
pub struct Guarded<T> {
    cells: Vec<T>,
    before: Vec<T>,
    lent: Range<usize>,
}

impl<T: Cell> Guarded<T> {
    /// Lends a copy of `lent` with `front` before it and `behind` after it.
    pub fn between(front: &[T], lent: &[T], behind: &[T]) -> Guarded<T> {
        let cells = [front, lent, behind].concat();
        Guarded {
            before: cells.clone(),
            cells,
            lent: front.len()..front.len() + lent.len(),
        }
    }

    /// The lent cells.
    pub fn lent(&self) -> &[T] {
        &self.cells[self.lent.clone()]
    }

    /// The lent cells, to be written.
    pub fn lent_mut(&mut self) -> &mut [T] {
        &mut self.cells[self.lent.clone()]
    }

    /// Is every cell that was not lent as it was? The cells are read as memory holds them, though
    /// Rust's rules would let the compiler take cells that were lent for reading as unchanged.
    pub fn guards_hold(&self) -> bool {
        let cells = black_box(&self.cells);
        let Range { start, end } = self.lent;
        same(&cells[..start], &self.before[..start]) && same(&cells[end..], &self.before[end..])
    }

    /// Is every cell as it was, the lent ones included?
    pub fn all_hold(&self) -> bool {
        same(black_box(&self.cells), &self.before)
    }

    /// Lends a copy of `lent`, with marks beside it or nothing.
    pub fn marked(lent: &[T], beside: Beside) -> Guarded<T> {
        match beside {
            Beside::Guards => Guarded::between(&marks(GUARD), lent, &marks(GUARD)),
            Beside::Nothing => Guarded::between(&[], lent, &[]),
        }
    }
}

#[cfg(test)]
mod tests {
    use super::*;

    #[test]
    fn a_write_beside_the_lent_cells_shows() {
        for place in 0..2 * GUARD + 3 {
            let mut guarded = Guarded::marked(&[1i32, 2, 3], Beside::Guards);
            assert_eq!(guarded.lent(), [1, 2, 3]);
            guarded.cells[place] ^= 1;
            let lent = (GUARD..GUARD + 3).contains(&place);
            assert_eq!(guarded.guards_hold(), lent, "place {place}");
            assert!(!guarded.all_hold());
        }
    }

    #[test]
    fn floats_are_compared_by_bits() {
        let mut guarded = Guarded::marked(&[f64::NAN, 0.0], Beside::Guards);
        assert!(guarded.all_hold());
        guarded.lent_mut()[1] = -0.0;
        assert!(guarded.guards_hold() && !guarded.all_hold());
    }

    #[test]
    fn one_nan_is_like_another() {
        let signed = [f64::NAN, -f64::NAN, f64::from_bits(0x7ff0_0000_0000_0001)];
        assert_eq!(float_bits(&signed), [f64::NAN.to_bits(); 3]);
        assert_ne!(float_bits(&[0.0]), float_bits(&[-0.0]));
        let marks: Vec<f64> = marks(100);
        assert_eq!(float_bits(&marks), bits(&marks));
    }
}
