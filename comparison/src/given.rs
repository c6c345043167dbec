//! Tapes that lack required places, and tapes that just do not: of a seed, and of the largest sizes
//! with neighbouring places left out.

use reference::generate::{given, lent, GivenTape, Lent, Random};
use reference::marks::{Place, Sizes};

use crate::calls::{Answer, Call, Lending};
use crate::comparison::{Comparison, MISSING};

/// The seed of what has no other.
const SEED: u64 = 8;

impl Comparison {
    /// All calls on the tape of a seed that gives a drawn set of places.
    pub fn add_given_of(&mut self, seed: u64) {
        let tape = given(seed);
        // The tape's draws are the generator's, these are the comparison's.
        let lent = any_lent(tape.sizes, &mut Random::new(!seed));
        for call in Call::ALL {
            let (answer, _) = self.call(call, &Lending::of(&lent, &tape.bytes));
            if let Answer::Read(furnace) = answer {
                self.counts.add_given(&tape, &furnace);
            }
        }
    }
}

/// A plan and multipliers of the lengths that the sizes ask for.
fn any_lent(sizes: Sizes, random: &mut Random) -> Lent {
    let (plan, multipliers) = (sizes.columns(), sizes.states);
    lent::any_values(sizes.horizon * plan, sizes.horizon * multipliers, random)
}

/// All calls on tapes of the largest sizes with all ten curves that lack a stretch of the required
/// places: each place alone, each two neighbours, and so on up to all of them.
pub fn add_missing(comparison: &mut Comparison) {
    let mut random = Random::new(SEED);
    let places = Sizes::MOST.places();
    let lent = any_lent(Sizes::MOST, &mut random);
    for left_out in stretches(&places) {
        let tape = without(&places, left_out, &mut random);
        for call in Call::ALL {
            let lending = Lending::new(MISSING, &tape, &lent.plan, &lent.multipliers);
            comparison.also(call, &lending);
        }
        if comparison.ends() {
            return;
        }
    }
}

/// Every stretch of neighbours, the shortest first.
fn stretches(places: &[Place]) -> impl Iterator<Item = &[Place]> {
    (1..=places.len()).flat_map(|length| places.windows(length))
}

/// A tape of the largest sizes that gives the places but for those left out.
fn without(places: &[Place], left_out: &[Place], random: &mut Random) -> Vec<u8> {
    let kept = places.iter().filter(|place| !left_out.contains(place));
    GivenTape::of(Sizes::MOST, kept.copied().collect(), random).bytes
}

#[cfg(test)]
mod tests {
    use reference::{read, Refusal};

    use super::*;

    #[test]
    fn each_place_and_each_pair_is_left_out() {
        let places = Sizes::MOST.places();
        let all: Vec<&[Place]> = stretches(&places).collect();
        let of_length = |length| {
            all.iter()
                .filter(|left_out| left_out.len() == length)
                .count()
        };
        assert_eq!((of_length(1), of_length(2), of_length(137)), (137, 136, 1));
        let mut random = Random::new(SEED);
        for left_out in &all[..137 + 136] {
            let tape = without(&places, left_out, &mut random);
            let offset = tape.len() - 1;
            assert_eq!(read(&tape), Err(Refusal::Absent { offset }));
        }
    }

    #[test]
    fn a_curve_may_be_left_out_as_a_whole() {
        let places = Sizes::MOST.places();
        let mut random = Random::new(SEED);
        let curve = &places[53..65];
        assert!(read(&without(&places, &[], &mut random)).is_ok());
        assert!(read(&without(&places, curve, &mut random)).is_ok());
        assert!(read(&without(&places, &curve[1..], &mut random)).is_err());
    }
}
