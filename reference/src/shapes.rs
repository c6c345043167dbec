//! Shapes of furnaces that random numbers hardly have.

use std::ops::Range;

use crate::model::{Column, Furnace, Whole};
use crate::tape::{ENTRY_RANGE, MOST_INPUTS, MOST_STATES, MOST_STEPS};

/// 1,000 °C in tenths of a degree.
pub const HOT: Whole = 10_000;

/// Entries of A and B from here on count as large.
pub const LARGE: Whole = ENTRY_RANGE / 2;

/// A shape of furnaces: its name, and whether a furnace has it.
pub type Shape = (&'static str, fn(&Furnace) -> bool);

/// The shapes. Answers to furnaces of each are counted. A reference that counts for nothing, since
/// its weight is 0, has a shape of its own.
pub const SHAPES: [Shape; 19] = [
    ("state r below lo", |f| states(f).any(is_below)),
    ("state r above hi", |f| states(f).any(is_above)),
    ("input r below lo", |f| inputs(f).any(is_below)),
    ("input r above hi", |f| inputs(f).any(is_above)),
    ("state lo = hi", |f| states(f).any(|c| c.lo == c.hi)),
    ("input lo = hi", |f| inputs(f).any(|c| c.lo == c.hi)),
    ("A and B large, both signs", |f| {
        large_both_signs(&f.a) && large_both_signs(&f.b)
    }),
    ("all above 1000 °C", |f| states(f).all(|c| c.lo > HOT)),
    ("full size", |f| {
        (f.states, f.inputs, f.horizon) == (MOST_STATES, MOST_INPUTS, MOST_STEPS)
    }),
    ("curves on all columns", |f| curves(f) == f.columns.len()),
    ("curves on some columns", |f| {
        (1..f.columns.len()).contains(&curves(f))
    }),
    ("a curve of 1 step", |f| curves(f) > 0 && f.horizon == 1),
    ("a curve of 12 steps", |f| {
        curves(f) > 0 && f.horizon == MOST_STEPS
    }),
    ("a state of weight 0", |f| states(f).any(|c| c.weight == 0)),
    ("an input of weight 0", |f| inputs(f).any(|c| c.weight == 0)),
    ("all weights 0", all_weights_0),
    ("weight 0, lo = hi", |f| {
        f.columns.iter().any(|c| c.weight == 0 && c.lo == c.hi)
    }),
    ("weight 0, r outside", |f| {
        in_every_step(f, 0..f.columns.len()).any(|c| c.weight == 0 && !c.contains(c.reference))
    }),
    ("weight 0 with a curve", |f| {
        let mut columns = f.columns.iter().zip(&f.curves);
        columns.any(|(column, curve)| column.weight == 0 && curve.is_some())
    }),
];

/// How many columns have a curve.
pub fn curves(furnace: &Furnace) -> usize {
    furnace.curves.iter().flatten().count()
}

/// Has any column weight 0?
pub fn some_weight_0(furnace: &Furnace) -> bool {
    furnace.columns.iter().any(|column| column.weight == 0)
}

/// Have all columns weight 0?
pub fn all_weights_0(furnace: &Furnace) -> bool {
    furnace.columns.iter().all(|column| column.weight == 0)
}

/// Does the reference lie below lo, and count?
fn is_below(column: Column) -> bool {
    column.weight > 0 && column.reference < column.lo
}

/// Does the reference lie above hi, and count?
fn is_above(column: Column) -> bool {
    column.weight > 0 && column.reference > column.hi
}

/// The columns of states, with the references of every step.
fn states(furnace: &Furnace) -> impl Iterator<Item = Column> + '_ {
    in_every_step(furnace, 0..furnace.states)
}

/// The columns of inputs, with the references of every step.
fn inputs(furnace: &Furnace) -> impl Iterator<Item = Column> + '_ {
    in_every_step(furnace, furnace.states..furnace.columns.len())
}

/// The columns of a range, with the references of every step.
fn in_every_step(furnace: &Furnace, columns: Range<usize>) -> impl Iterator<Item = Column> + '_ {
    columns.flat_map(move |c| (0..furnace.horizon).map(move |k| furnace.column_at(c, k)))
}

/// Are there large entries of both signs?
fn large_both_signs(rows: &[Vec<Whole>]) -> bool {
    let entries = rows.concat();
    entries.iter().any(|entry| *entry >= LARGE) && entries.iter().any(|entry| *entry <= -LARGE)
}
