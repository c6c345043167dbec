//! The parts of a comparison, each of which the command `replay` repeats alone.

use std::fmt;
use std::str::FromStr;

/// A part of a comparison.
#[derive(Clone, Copy, Debug, PartialEq, Eq)]
pub enum Part {
    /// Inputs of the slip program around its buffer's end.
    Slips,
    /// Tapes of every length.
    Tapes,
    /// The longest tape with one of its commands left out, given again or alone.
    Places,
    /// Tapes of the largest sizes with neighbouring places left out.
    Missing,
    /// Plans and multipliers of every length.
    Slices,
    /// Multipliers whose floor is the ceiling.
    Equal,
    /// Squares of large slopes at every weight.
    Squares,
    /// Plans that fail at every step and column, and gaps of T and one above.
    Faults,
    /// Weights of 0 at the edges.
    Weights,
    /// First duties at the edges of their ranges.
    Ranges,
    /// Records of all sizes, and with numbers that look absent.
    Records,
    /// Banded steps of all sizes, with residuals of every size and slices of every length, and
    /// weights of 0 with command 51.
    Banded,
    /// Entries beside numbers, halves and powers of two.
    Entries,
    /// Models of every length, and with a faulty entry at every place.
    Models,
    /// The case of a seed.
    Case(u64),
    /// The tape of a seed that gives a drawn set of places.
    GivenOf(u64),
    /// The ranges of a seed's duties.
    RangesOf(u64),
    /// The tapes and residuals of a seed for the banded step.
    BandedOf(u64),
    /// The entries of a seed.
    EntriesOf(u64),
    /// The models of a seed.
    ModelsOf(u64),
}

impl Part {
    /// All that have no seed.
    pub const EDGES: [Part; 14] = [
        Part::Slips,
        Part::Tapes,
        Part::Places,
        Part::Missing,
        Part::Slices,
        Part::Equal,
        Part::Squares,
        Part::Faults,
        Part::Weights,
        Part::Ranges,
        Part::Records,
        Part::Banded,
        Part::Entries,
        Part::Models,
    ];

    /// The parts of a seed.
    pub fn of_seed(seed: u64) -> [Part; 6] {
        [
            Part::Case(seed),
            Part::GivenOf(seed),
            Part::RangesOf(seed),
            Part::BandedOf(seed),
            Part::EntriesOf(seed),
            Part::ModelsOf(seed),
        ]
    }

    /// The part, with the command that repeats it.
    pub fn origin(&self) -> String {
        let kind = match self {
            Part::Case(_) => "seed",
            _ => "part",
        };
        format!("{kind} {self}; to repeat it: comparison replay {self}")
    }
}

impl fmt::Display for Part {
    fn fmt(&self, f: &mut fmt::Formatter) -> fmt::Result {
        match self {
            Part::Slips => f.write_str("slips"),
            Part::Tapes => f.write_str("tapes"),
            Part::Places => f.write_str("places"),
            Part::Missing => f.write_str("missing"),
            Part::Slices => f.write_str("slices"),
            Part::Equal => f.write_str("equal"),
            Part::Squares => f.write_str("squares"),
            Part::Faults => f.write_str("faults"),
            Part::Weights => f.write_str("weights"),
            Part::Ranges => f.write_str("ranges"),
            Part::Records => f.write_str("records"),
            Part::Banded => f.write_str("banded"),
            Part::Entries => f.write_str("entries"),
            Part::Models => f.write_str("models"),
            Part::Case(seed) => write!(f, "{seed}"),
            Part::GivenOf(seed) => write!(f, "given-{seed}"),
            Part::RangesOf(seed) => write!(f, "ranges-{seed}"),
            Part::BandedOf(seed) => write!(f, "banded-{seed}"),
            Part::EntriesOf(seed) => write!(f, "entries-{seed}"),
            Part::ModelsOf(seed) => write!(f, "models-{seed}"),
        }
    }
}

impl FromStr for Part {
    type Err = String;

    fn from_str(word: &str) -> Result<Part, String> {
        // The seed is the number behind the last hyphen, or the whole word.
        let number = word.rsplit('-').next().and_then(|last| last.parse().ok());
        let of_seed = number.into_iter().flat_map(Part::of_seed);
        Part::EDGES
            .into_iter()
            .chain(of_seed)
            .find(|part| part.to_string() == word)
            .ok_or_else(|| format!("`{word}` is neither a seed nor a part"))
    }
}

#[cfg(test)]
mod tests {
    use super::*;

    #[test]
    fn each_part_is_read_as_it_is_written() {
        let of_seeds = [0, 4711, u64::MAX].map(Part::of_seed);
        for part in Part::EDGES.into_iter().chain(of_seeds.concat()) {
            assert_eq!(part.to_string().parse(), Ok(part));
        }
        for word in [
            "case",
            "-1",
            "",
            "given",
            "entries-",
            "slips-4",
            "banded-",
            "models-4-5",
            "007",
        ] {
            assert!(word.parse::<Part>().is_err(), "{word}");
        }
    }
}
