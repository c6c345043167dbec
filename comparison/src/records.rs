//! Records on both sides: of a tape whose solve is known, with slices of the right lengths and of
//! wrong ones, of all sizes, and with numbers that are FF throughout, as absent fields are.

use reference::count::refused;
use reference::generate::commands::of_furnace;
use reference::generate::records::{impossible, open, proved, widest_gap, wrong_lengths};
use reference::generate::Random;
use reference::marks::Sizes;
use reference::model::Furnace;
use reference::record::{service_length, Kind, Record, LABORATORY_LENGTH};
use reference::solve;
use reference::tape::{MOST_INPUTS, MOST_STATES, MOST_STEPS};

use crate::calls::{Answer, Call, Lending};
use crate::comparison::{Comparison, RECORD_NUMBERS, RECORD_SIZES};
use crate::edges::of_all_sizes;

/// The seed of the tapes of all sizes.
const SEED: u64 = 8;

/// The heading of records that are counted apart from the generated ones.
pub const AT_THE_EDGES: &str = "record, at the edges";

/// Of [`AT_THE_EDGES`]: the widest gap that T allows.
const WIDEST_GAP: &str = "gap 4294967295";

/// The refusal of a wrong length.
const LENGTH: u32 = 9;

/// The names under [`AT_THE_EDGES`]: each kind with each m, each m with duties of −1 alone, the
/// widest gap and the refusal of lengths.
pub fn names() -> Vec<String> {
    let mut names = Vec::new();
    for inputs in 1..=MOST_INPUTS {
        names.extend(Kind::ALL.map(|kind| kind_name(kind, inputs)));
        names.push(minus_1_name(inputs));
    }
    names.extend([WIDEST_GAP.to_string(), refused(LENGTH)]);
    names
}

/// The name of a kind and a number of inputs.
fn kind_name(kind: Kind, inputs: usize) -> String {
    format!("{} {inputs}", kind.word())
}

/// The name of that many duties, all of them −1.
fn minus_1_name(inputs: usize) -> String {
    format!("{inputs} duties, all -1")
}

/// Lengths of the two slices that a refused tape is lent with: its refusal comes before that of any
/// length, be they those of the largest sizes, of the smallest with one off, or 0.
const WITH_REFUSED: [[usize; 2]; 3] = [[16, 787], [17, 31], [0, 0]];

/// The right lengths of the two slices, and then the wrong ones that are tried.
fn lengths(sizes: Sizes) -> Vec<[usize; 2]> {
    let mut all = wrong_lengths(sizes);
    all.insert(0, right_lengths(sizes));
    all
}

/// The right lengths of the laboratory's and the service's slice.
fn right_lengths(sizes: Sizes) -> [usize; 2] {
    [LABORATORY_LENGTH, service_length(sizes)]
}

impl Comparison {
    /// The record of a generated tape, which its solve has led to, with slices of the right lengths
    /// and of wrong ones. Without a record the tape is refused.
    pub fn record(&mut self, tape: &[u8], record: Option<&Record>) {
        let lending = Lending {
            record,
            ..Lending::new("a generated tape", tape, &[], &[])
        };
        let Some(record) = record else {
            for readers in WITH_REFUSED {
                self.record_with(&Lending { readers, ..lending });
            }
            return;
        };
        self.counts.add_record(record);
        let sizes = record.sizes;
        for readers in lengths(sizes) {
            self.record_with(&Lending { readers, ..lending });
            if readers != right_lengths(sizes) {
                self.counts.add_wrong_length(sizes, readers);
            }
        }
    }

    /// Makes the call on both sides and counts the answer.
    fn record_with(&mut self, lending: &Lending) {
        if let (Answer::Recorded(answer), _) = self.call(Call::Record, lending) {
            self.counts.add_record_answer(answer);
        }
    }
}

/// Records of all sizes and with numbers that are FF throughout.
pub fn add_records(comparison: &mut Comparison) {
    let mut random = Random::new(SEED);
    let drawn = of_all_sizes(&mut random).into_iter();
    let drawn = drawn.map(|furnace| (RECORD_SIZES, furnace));
    let by_hand = with_numbers().into_iter();
    let by_hand = by_hand.map(|furnace| (RECORD_NUMBERS, furnace));
    for (origin, furnace) in drawn.chain(by_hand) {
        add_furnace(comparison, origin, &furnace, &mut random);
        if comparison.ends() {
            return;
        }
    }
}

/// Furnaces of all sizes with plans of −1, with multipliers of −1, and open ones whose records are
/// all but the same; and furnaces with the widest gap.
fn with_numbers() -> Vec<Furnace> {
    let mut all: Vec<Furnace> = (1..=MOST_INPUTS).map(widest_gap).collect();
    for states in 1..=MOST_STATES {
        for inputs in 1..=MOST_INPUTS {
            for horizon in 1..=MOST_STEPS {
                let sizes = Sizes {
                    states,
                    inputs,
                    horizon,
                };
                all.extend([proved(sizes), impossible(sizes), open(sizes)]);
            }
        }
    }
    all
}

/// Calls on a furnace's tape with the right lengths and with wrong ones. Rounds are few here, and
/// the second program runs them in the call, as the planner does.
fn add_furnace(comparison: &mut Comparison, origin: &str, furnace: &Furnace, random: &mut Random) {
    let tape = of_furnace(furnace, random).concat();
    for readers in lengths(Sizes::of(furnace)) {
        let lending = Lending {
            readers,
            ..Lending::new(origin, &tape, &[], &[])
        };
        if let (Answer::Recorded(Err(refusal)), _) = comparison.also(Call::Record, &lending) {
            let name = refused(refusal.number());
            comparison.counts.add(AT_THE_EDGES, &name);
        }
    }
    for name in names_of(&solved(furnace, &tape)) {
        comparison.counts.add(AT_THE_EDGES, &name);
    }
}

/// The record of a furnace's tape.
fn solved(furnace: &Furnace, tape: &[u8]) -> Record {
    let mut plan = vec![0; furnace.plan_length()];
    let mut multipliers = vec![0; furnace.multipliers_length()];
    let answer = solve(tape, &mut plan, &mut multipliers);
    let record = Record::of_solve(Sizes::of(furnace), answer, &plan, &multipliers);
    record.expect("an accepted tape has a record")
}

/// The names under [`AT_THE_EDGES`] that a record counts for.
fn names_of(record: &Record) -> Vec<String> {
    let inputs = record.sizes.inputs;
    let mut names = vec![kind_name(record.kind(), inputs)];
    if record.duties() == vec![-1; inputs] {
        names.push(minus_1_name(inputs));
    }
    if record.gap() == Some(u32::MAX) {
        names.push(WIDEST_GAP.to_string());
    }
    names
}

#[cfg(test)]
mod tests {
    use std::collections::BTreeSet;

    use super::*;

    #[test]
    fn the_edges_meet_every_name() {
        let mut random = Random::new(SEED);
        let mut met = BTreeSet::from([refused(LENGTH)]);
        for furnace in with_numbers() {
            let tape = of_furnace(&furnace, &mut random).concat();
            met.extend(names_of(&solved(&furnace, &tape)));
        }
        assert_eq!(met, BTreeSet::from_iter(names()));
    }

    #[test]
    fn one_pair_of_lengths_is_right() {
        for furnace in with_numbers() {
            let sizes = Sizes::of(&furnace);
            let all = BTreeSet::from_iter(lengths(sizes));
            assert_eq!((all.len(), lengths(sizes).len()), (25, 25));
            assert_eq!(lengths(sizes)[0], right_lengths(sizes));
        }
        // Those lent with refused tapes: of 6, 4 and 12, and one off of 1, 1 and 1.
        assert_eq!(WITH_REFUSED[0], right_lengths(Sizes::MOST));
        let least = right_lengths(Sizes::of(&widest_gap(1)));
        assert_eq!(WITH_REFUSED[1], [least[0] + 1, least[1]]);
    }
}
