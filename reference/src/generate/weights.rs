//! Weight 0: columns whose numbers cost nothing, on a third of the accepted furnaces.

use std::ops::Range;

use super::curves::{in_range, make_room, path};
use super::random::Random;
use crate::model::{Column, Furnace, Whole};
use crate::rounds::minimiser;
use crate::tape::NUMBER_RANGE;

/// Which columns of a furnace get weight 0.
#[derive(Clone, Copy)]
pub enum Zeros {
    /// None.
    None,
    /// One state, some or all.
    States,
    /// One input, some or all.
    Inputs,
    /// All columns: every cost is 0, and the ceiling too.
    All,
    /// A column with lo = hi.
    Fixed,
    /// A column with its references outside lo to hi.
    Outside,
    /// A column with a curve.
    Curved,
}

impl Zeros {
    /// None for two furnaces in three.
    pub fn any(random: &mut Random) -> Zeros {
        if !random.one_in(3) {
            return Zeros::None;
        }
        random.choose(&[
            Zeros::States,
            Zeros::Inputs,
            Zeros::All,
            Zeros::Fixed,
            Zeros::Outside,
            Zeros::Curved,
        ])
    }

    /// Puts the weights of these columns at 0.
    pub fn put(self, furnace: &mut Furnace, random: &mut Random) {
        let (states, columns) = (furnace.states, furnace.columns.len());
        let chosen = match self {
            Zeros::None => Vec::new(),
            Zeros::States => some(0..states, random),
            Zeros::Inputs => some(states..columns, random),
            Zeros::All => (0..columns).collect(),
            Zeros::Fixed => vec![fixed(furnace, random)],
            Zeros::Outside => vec![outside(furnace, random)],
            Zeros::Curved => vec![curved(furnace, random)],
        };
        for c in chosen {
            furnace.columns[c].weight = 0;
        }
    }
}

/// One of the columns, some or all.
fn some(columns: Range<usize>, random: &mut Random) -> Vec<usize> {
    let first = columns.start + random.below(columns.len());
    let others_one_in = random.choose(&[1, 2, 1000]);
    let chosen = columns.filter(|c| *c == first || random.one_in(others_one_in));
    chosen.collect()
}

/// A column with lo = hi. Where there is none, an input becomes one.
fn fixed(furnace: &mut Furnace, random: &mut Random) -> usize {
    let is_fixed = |c: &usize| furnace.columns[*c].lo == furnace.columns[*c].hi;
    let found: Vec<usize> = (0..furnace.columns.len()).filter(is_fixed).collect();
    if !found.is_empty() {
        return random.choose(&found);
    }
    let c = furnace.states + random.below(furnace.inputs);
    let column = &mut furnace.columns[c];
    column.lo = column.limit(column.reference);
    column.hi = column.lo;
    c
}

/// A column whose references are put above hi or, where hi is the largest number, below lo if there
/// is room. At weight 0 no answer depends on them.
fn outside(furnace: &mut Furnace, random: &mut Random) -> usize {
    let c = random.below(furnace.columns.len());
    let column = &mut furnace.columns[c];
    let mut reference = || {
        if column.hi < NUMBER_RANGE {
            random.between(column.hi + 1, NUMBER_RANGE)
        } else {
            in_range(column.lo - random.between(1, NUMBER_RANGE))
        }
    };
    for step in furnace.curves[c].iter_mut().flatten() {
        *step = reference();
    }
    column.reference = reference();
    c
}

/// A column with a curve. Where there is none, any column gets one: at weight 0 no answer depends
/// on it.
fn curved(furnace: &mut Furnace, random: &mut Random) -> usize {
    let has_curve = |c: &usize| furnace.curves[*c].is_some();
    let found: Vec<usize> = (0..furnace.columns.len()).filter(has_curve).collect();
    if !found.is_empty() {
        return random.choose(&found);
    }
    let c = random.below(furnace.columns.len());
    let curve = (0..furnace.horizon).map(|_| random.between(-NUMBER_RANGE, NUMBER_RANGE));
    furnace.curves[c] = Some(curve.collect());
    c
}

/// Moves the limits of the states of weight 0 so that round 0's candidate passes one of them and
/// the plan of other duties keeps to them. Otherwise that candidate is mostly a plan, and where no
/// state has another weight it is proved at once, with gap 0.
pub(super) fn bind_states(furnace: &mut Furnace, random: &mut Random) {
    let states = &furnace.columns[..furnace.states];
    if states.iter().all(|column| column.weight > 0) {
        return;
    }
    let first = path(furnace, |k, j| minimiser(&furnace.input_at(k, j), 0));
    let inputs = furnace.columns[furnace.states..].iter();
    let duties: Vec<Whole> = inputs.map(|column| other_duty(column, random)).collect();
    let other = path(furnace, |_, j| duties[j]);
    for i in 0..furnace.states {
        let column = &mut furnace.columns[i];
        if column.weight > 0 {
            let temperatures: Vec<Whole> = other.iter().map(|x| x[i]).collect();
            make_room(furnace, random, i, &temperatures);
        } else if column.lo < column.hi {
            bind(column, ends(&first, i), ends(&other, i), random);
        }
    }
}

/// A duty that the rounds can come to. At weight 0 these are lo, which round 0 has, and hi.
fn other_duty(column: &Column, random: &mut Random) -> Whole {
    if column.weight == 0 {
        random.choose(&[column.lo, column.hi, column.hi])
    } else {
        random.between(column.lo, column.hi)
    }
}

/// The lowest and the highest temperature of state i.
fn ends(path: &[Vec<Whole>], i: usize) -> (Whole, Whole) {
    path.iter().fold((NUMBER_RANGE, -NUMBER_RANGE), |ends, x| {
        (ends.0.min(x[i]), ends.1.max(x[i]))
    })
}

/// Puts the limits around the other temperatures with some room, and then one of them between these
/// and the first ones where they differ. Both are given by their ends.
fn bind(column: &mut Column, first: (Whole, Whole), other: (Whole, Whole), random: &mut Random) {
    let room = random.choose(&[5, 50, 500, 2_000]);
    column.lo = in_range(other.0 - room);
    column.hi = in_range(other.1 + room);
    if first.0 < other.0 {
        column.lo = random.between(first.0 + 1, other.0);
    } else if first.1 > other.1 {
        column.hi = random.between(other.1, first.1 - 1);
    }
}

/// For tapes whose columns are drawn one by one: one column in so many has weight 0. That is all or
/// some of them for a third of the tapes, and none for the others.
pub(super) fn zeros_one_in(random: &mut Random) -> Option<usize> {
    random.one_in(3).then(|| random.choose(&[1, 2, 4]))
}

#[cfg(test)]
mod tests {
    use super::*;
    use crate::generate::furnaces::{plain, sized};
    use crate::model::UNIT;

    /// A plain furnace with what a kind puts, and its columns of weight 0.
    fn put(zeros: Zeros, seed: u64) -> (Furnace, Vec<usize>) {
        let mut random = Random::new(seed);
        let mut furnace = plain(&mut random);
        zeros.put(&mut furnace, &mut random);
        let columns = 0..furnace.columns.len();
        let chosen: Vec<usize> = columns
            .filter(|c| furnace.columns[*c].weight == 0)
            .collect();
        (furnace, chosen)
    }

    #[test]
    fn each_kind_is_what_it_says() {
        for seed in 0..200 {
            assert!(put(Zeros::None, seed).1.is_empty());
            let (furnace, chosen) = put(Zeros::States, seed);
            assert!(!chosen.is_empty() && chosen.iter().all(|c| *c < furnace.states));
            let (furnace, chosen) = put(Zeros::Inputs, seed);
            assert!(!chosen.is_empty() && chosen.iter().all(|c| *c >= furnace.states));
            let (furnace, chosen) = put(Zeros::All, seed);
            assert_eq!(chosen.len(), furnace.columns.len());
            let (furnace, chosen) = put(Zeros::Fixed, seed);
            let column = furnace.columns[chosen[0]];
            assert_eq!((chosen.len(), column.lo), (1, column.hi));
            let (furnace, chosen) = put(Zeros::Outside, seed);
            let column = furnace.columns[chosen[0]];
            assert!(chosen.len() == 1 && !column.contains(column.reference));
            let (furnace, chosen) = put(Zeros::Curved, seed);
            assert!(chosen.len() == 1 && furnace.curves[chosen[0]].is_some());
        }
    }

    #[test]
    fn limits_bind() {
        // The input's duties are 0 and 40, and the state is the duty. Round 0 has duty 0.
        let mut furnace = sized(1, 1, 1);
        furnace.b[0][0] = UNIT;
        furnace.columns[0].hi = 7;
        furnace.columns[1].hi = 40;
        (furnace.columns[0].weight, furnace.columns[1].weight) = (0, 0);
        let mut bound = 0;
        for seed in 0..100 {
            let mut furnace = furnace.clone();
            bind_states(&mut furnace, &mut Random::new(seed));
            let column = furnace.columns[0];
            // Where duty 0 was drawn again, nothing can bind.
            if !column.contains(0) {
                assert!(column.contains(40));
                bound += 1;
            }
        }
        assert!((50..90).contains(&bound), "{bound}");
    }
}
