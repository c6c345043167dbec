//! The firing record (document 02, request 5): what a solve that ends with 'proved', 'impossible'
//! or 'open' leaves, and the bytes that its two readers see.
//!
//! A [`Record`] holds what its kind has and nothing else, so that what is absent has no number. The
//! bytes are put together field by field; one that is absent gives its width in FF.

use crate::calls::{read, solve, Solved};
use crate::marks::Sizes;
use crate::refusal::Refusal;
use crate::slip::refused;
use crate::tape::MOST_INPUTS;

/// How many bytes the laboratory sees: kind, number of duties, rounds, gap, four duties.
pub const LABORATORY_LENGTH: usize = 1 + 1 + 2 + 4 + MOST_INPUTS * 2;

/// How a solve ends.
#[derive(Clone, Copy, Debug, PartialEq, Eq, PartialOrd, Ord)]
pub enum Kind {
    /// 'proved'.
    Proved,
    /// 'impossible'.
    Impossible,
    /// 'open', which is no refusal here.
    Open,
}

impl Kind {
    /// All kinds.
    pub const ALL: [Kind; 3] = [Kind::Proved, Kind::Impossible, Kind::Open];

    /// The kind's byte.
    pub fn number(self) -> u8 {
        match self {
            Kind::Proved => 1,
            Kind::Impossible => 2,
            Kind::Open => 3,
        }
    }

    /// The kind's word.
    pub fn word(self) -> &'static str {
        match self {
            Kind::Proved => "proved",
            Kind::Impossible => "impossible",
            Kind::Open => "open",
        }
    }
}

/// The record of a solve. Sizes and rounds are always present.
#[derive(Clone, Debug, PartialEq, Eq)]
pub struct Record {
    /// n, m and N.
    pub sizes: Sizes,
    /// Rounds entered, the answering one included; for 'open' the tape's R.
    pub rounds: u16,
    /// What else the record's kind has.
    pub outcome: Outcome,
}

/// What a solve comes to, with the plan and the multipliers as lent.
#[derive(Clone, Debug, PartialEq, Eq)]
pub enum Outcome {
    /// 'proved'.
    Proved {
        /// At most T, and so of 4 bytes.
        gap: u32,
        /// N(n+m) numbers, the first m of which are the first duties u(0).
        plan: Vec<i32>,
        /// N × n numbers.
        multipliers: Vec<i32>,
    },
    /// 'impossible'.
    Impossible {
        /// N × n numbers.
        multipliers: Vec<i32>,
    },
    /// 'open'.
    Open,
}

impl Record {
    /// The record of a solve of a tape of these sizes, from its answer and from what it left in the
    /// slices it was lent. Where it was refused, but for 15, there is no record.
    pub fn of_solve(
        sizes: Sizes,
        answer: Result<Solved, Refusal>,
        plan: &[i32],
        multipliers: &[i32],
    ) -> Result<Record, Refusal> {
        let multipliers = multipliers.to_vec();
        let (rounds, outcome) = match answer {
            Ok(Solved::Proved { rounds, gap, .. }) => {
                let gap = u32::try_from(gap).expect("a gap is from 0 to T");
                let plan = plan.to_vec();
                let proved = Outcome::Proved {
                    gap,
                    plan,
                    multipliers,
                };
                (rounds, proved)
            }
            Ok(Solved::Impossible { rounds }) => (rounds, Outcome::Impossible { multipliers }),
            Err(Refusal::Open { rounds }) => (rounds, Outcome::Open),
            Err(refusal) => return Err(refusal),
        };
        let rounds = u16::try_from(rounds).expect("rounds are at most R");
        Ok(Record {
            sizes,
            rounds,
            outcome,
        })
    }

    /// The kind.
    pub fn kind(&self) -> Kind {
        match self.outcome {
            Outcome::Proved { .. } => Kind::Proved,
            Outcome::Impossible { .. } => Kind::Impossible,
            Outcome::Open => Kind::Open,
        }
    }

    /// The gap.
    pub fn gap(&self) -> Option<u32> {
        match self.outcome {
            Outcome::Proved { gap, .. } => Some(gap),
            Outcome::Impossible { .. } | Outcome::Open => None,
        }
    }

    /// The whole plan.
    pub fn plan(&self) -> Option<&[i32]> {
        match &self.outcome {
            Outcome::Proved { plan, .. } => Some(plan),
            Outcome::Impossible { .. } | Outcome::Open => None,
        }
    }

    /// The multipliers.
    pub fn multipliers(&self) -> Option<&[i32]> {
        match &self.outcome {
            Outcome::Proved { multipliers, .. } | Outcome::Impossible { multipliers } => {
                Some(multipliers)
            }
            Outcome::Open => None,
        }
    }

    /// The first duties u(0), of which there are m or none. A column's limits fit 2 bytes.
    pub fn duties(&self) -> Vec<i16> {
        let first = self.plan().unwrap_or(&[]).iter().take(self.sizes.inputs);
        let narrow = |duty: &i32| i16::try_from(*duty).expect("a duty is within its limits");
        first.map(narrow).collect()
    }

    /// What the laboratory sees: the first four fields.
    pub fn laboratory_bytes(&self) -> Vec<u8> {
        let duties = self.duties();
        let mut bytes = vec![self.kind().number(), duties.len() as u8];
        bytes.extend(self.rounds.to_le_bytes());
        bytes.extend(field(self.gap().map(u32::to_le_bytes)));
        for j in 0..MOST_INPUTS {
            bytes.extend(field(duties.get(j).map(|duty| duty.to_le_bytes())));
        }
        bytes
    }

    /// What our service sees: everything.
    pub fn service_bytes(&self) -> Vec<u8> {
        let Sizes {
            states,
            inputs,
            horizon,
        } = self.sizes;
        let mut bytes = self.laboratory_bytes();
        bytes.extend([states, inputs, horizon].map(|size| size as u8));
        bytes.extend(numbers(self.plan(), self.sizes.plan_length()));
        bytes.extend(numbers(self.multipliers(), self.sizes.multipliers_length()));
        bytes
    }

    /// Writes both forms and answers the kind; 9 where a slice has another length.
    pub fn write(&self, laboratory: &mut [u8], service: &mut [u8]) -> Result<Kind, Refusal> {
        require_lengths(self.sizes, laboratory, service)?;
        laboratory.copy_from_slice(&self.laboratory_bytes());
        service.copy_from_slice(&self.service_bytes());
        Ok(self.kind())
    }
}

/// A field, or FF throughout where it is absent.
fn field<const WIDTH: usize>(bytes: Option<[u8; WIDTH]>) -> [u8; WIDTH] {
    bytes.unwrap_or([0xff; WIDTH])
}

/// Numbers of 4 bytes each. Absent ones keep their `count` places.
fn numbers(present: Option<&[i32]>, count: usize) -> Vec<u8> {
    let places = 0..count;
    let one = |place: usize| field(present.map(|numbers| numbers[place].to_le_bytes()));
    places.flat_map(one).collect()
}

/// How many bytes our service sees of a record of these sizes: the laboratory's, n, m and N, and 4
/// for each number of the plan and of the multipliers.
pub fn service_length(sizes: Sizes) -> usize {
    LABORATORY_LENGTH + 3 + 4 * (sizes.plan_length() + sizes.multipliers_length())
}

/// Refusal 9 for both slices.
fn require_lengths(sizes: Sizes, laboratory: &[u8], service: &[u8]) -> Result<(), Refusal> {
    if laboratory.len() != LABORATORY_LENGTH || service.len() != service_length(sizes) {
        return Err(Refusal::Length);
    }
    Ok(())
}

/// Solves a tape, writes both forms of the record and answers its kind. A refusal, the tape's or 9,
/// leaves both slices as they were.
pub fn record(tape: &[u8], laboratory: &mut [u8], service: &mut [u8]) -> Result<Kind, Refusal> {
    let sizes = Sizes::of(&read(tape)?);
    require_lengths(sizes, laboratory, service)?;
    let mut plan = vec![0; sizes.plan_length()];
    let mut multipliers = vec![0; sizes.multipliers_length()];
    let answer = solve(tape, &mut plan, &mut multipliers);
    Record::of_solve(sizes, answer, &plan, &multipliers)?.write(laboratory, service)
}

/// The record of a tape as text: a line of bytes in hexadecimal for each reader. A refusal has the
/// text it has on the slip.
pub fn text(tape: &[u8]) -> String {
    forms(tape).map_or_else(refused, |(laboratory, service)| {
        line("laboratory", &laboratory) + &line("service", &service)
    })
}

/// Both forms of a tape's record.
fn forms(tape: &[u8]) -> Result<(Vec<u8>, Vec<u8>), Refusal> {
    let mut laboratory = vec![0; LABORATORY_LENGTH];
    let mut service = vec![0; service_length(Sizes::of(&read(tape)?))];
    record(tape, &mut laboratory, &mut service)?;
    Ok((laboratory, service))
}

/// A line of bytes.
fn line(reader: &str, bytes: &[u8]) -> String {
    let digits: String = bytes.iter().map(|byte| format!(" {byte:02X}")).collect();
    format!("{reader}{digits}\n")
}
