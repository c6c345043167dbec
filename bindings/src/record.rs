//! The firing record: what a solve leaves, as each of its two readers has it.

use core::fmt;
use core::ops::Deref;

use crate::{
    service_length, LABORATORY_LENGTH, MOST_INPUTS, MOST_MULTIPLIERS, MOST_PLAN, MOST_STATES,
    MOST_STEPS,
};

/// The most rounds of a solve.
const MOST_ROUNDS: u16 = 10_000;
/// What a field that is absent has in each of its bytes.
const ABSENT: u8 = 0xFF;

/// How a solve ended. `kind as u8` is the number that records and [`crate::calls::record`] have
/// for it: 1, 2 or 3.
#[derive(Clone, Copy, Debug, PartialEq, Eq, Hash)]
pub enum Kind {
    /// 'proved': with a plan and its gap.
    Proved = 1,
    /// 'impossible': there is no rival, and so no plan follows the tape.
    Impossible = 2,
    /// 'open': R rounds without either. There may be a plan all the same.
    Open = 3,
}

impl Kind {
    /// The kind of a number.
    fn from_number(number: u8) -> Option<Kind> {
        let kinds = [Kind::Proved, Kind::Impossible, Kind::Open];
        kinds.into_iter().find(|kind| *kind as u8 == number)
    }
}

impl fmt::Display for Kind {
    fn fmt(&self, f: &mut fmt::Formatter<'_>) -> fmt::Result {
        f.write_str(match self {
            Kind::Proved => "proved",
            Kind::Impossible => "impossible",
            Kind::Open => "open",
        })
    }
}

/// Up to `MOST` numbers, floats or [ranges](crate::Range), a slice that needs no allocator. Equal
/// where the slices are equal.
#[derive(Clone, Copy)]
pub struct Numbers<T, const MOST: usize> {
    places: [T; MOST],
    count: usize,
}

/// u(0), the duties of the first step, m numbers.
pub type Duties = Numbers<i16, MOST_INPUTS>;
/// A plan: u(0), x(1), u(1), x(2) and so on, N(n+m) numbers.
pub type Plan = Numbers<i32, MOST_PLAN>;
/// Multipliers step by step, N × n numbers.
pub type Multipliers = Numbers<i32, MOST_MULTIPLIERS>;

impl<T, const MOST: usize> Numbers<T, MOST> {
    /// The first `count` of the places.
    pub(crate) fn front(places: [T; MOST], count: usize) -> Self {
        let count = count.min(MOST);
        Numbers { places, count }
    }
}

impl<T: Copy + Default, const MOST: usize> Numbers<T, MOST> {
    /// The first `MOST` of the numbers.
    fn collect(numbers: impl Iterator<Item = T>) -> Self {
        let mut list = Numbers {
            places: [T::default(); MOST],
            count: 0,
        };
        for (place, number) in list.places.iter_mut().zip(numbers) {
            *place = number;
            list.count += 1;
        }
        list
    }
}

impl<const MOST: usize> Numbers<i32, MOST> {
    /// The numbers of 4 bytes each.
    fn from_bytes(bytes: &[u8]) -> Self {
        let chunks = bytes.chunks_exact(4);
        Numbers::collect(chunks.map(|b| i32::from_le_bytes([b[0], b[1], b[2], b[3]])))
    }
}

impl Duties {
    /// The first `count` duties of those in a record, where the others are absent.
    fn from_bytes(count: usize, bytes: &[u8]) -> Option<Duties> {
        let (present, others) = bytes.split_at_checked(count.checked_mul(2)?)?;
        let chunks = present.chunks_exact(2);
        let duties = Numbers::collect(chunks.map(|b| i16::from_le_bytes([b[0], b[1]])));
        (count > 0 && absent(others)).then_some(duties)
    }

    /// The first numbers of a plan.
    fn of_plan(plan: &Plan, inputs: usize) -> Duties {
        // Not cut: a record has a plan only where these numbers are its duties.
        Numbers::collect(plan.iter().take(inputs).map(|number| *number as i16))
    }

    /// Whether these are the first numbers of a plan with so many inputs.
    fn begin(&self, plan: &Plan, inputs: usize) -> bool {
        let duties = self.iter().map(|duty| i32::from(*duty));
        duties.eq(plan.iter().copied().take(inputs))
    }
}

impl<T, const MOST: usize> Deref for Numbers<T, MOST> {
    type Target = [T];

    fn deref(&self) -> &[T] {
        &self.places[..self.count]
    }
}

impl<T: PartialEq, const MOST: usize> PartialEq for Numbers<T, MOST> {
    fn eq(&self, other: &Self) -> bool {
        **self == **other
    }
}

impl<T: Eq, const MOST: usize> Eq for Numbers<T, MOST> {}

impl<T: fmt::Debug, const MOST: usize> fmt::Debug for Numbers<T, MOST> {
    fn fmt(&self, f: &mut fmt::Formatter<'_>) -> fmt::Result {
        (**self).fmt(f)
    }
}

/// A record as the laboratory sees it. Equal ones have the same bytes, others have others.
///
/// ```
/// use fibergravel::Seen;
///
/// // Of document 01's tape F.
/// let bytes = [1, 1, 2, 0, 0x00, 0x80, 0, 0, 4, 0, 0xFF, 0xFF, 0xFF, 0xFF, 0xFF, 0xFF];
/// let Some(Seen::Proved { rounds, gap, duties }) = Seen::from_bytes(&bytes) else {
///     panic!("these are the bytes of a record")
/// };
/// assert_eq!((rounds, gap, &*duties), (2, 32768, &[4][..]));
/// // A record of one duty has no second one.
/// assert_eq!(Seen::from_bytes(&[&bytes[..10], &[0; 6]].concat()), None);
/// ```
#[derive(Clone, Copy, Debug, PartialEq, Eq)]
pub enum Seen {
    /// 'proved'.
    Proved {
        /// Rounds entered, the answering one included.
        rounds: u16,
        /// No rival costs less than the plan's cost minus the gap.
        gap: u32,
        /// u(0), 1 to 4 numbers.
        duties: Duties,
    },
    /// 'impossible'.
    Impossible {
        /// Rounds entered, the answering one included.
        rounds: u16,
    },
    /// 'open'.
    Open {
        /// The tape's R.
        rounds: u16,
    },
}

impl Seen {
    /// What the laboratory's bytes say; none for every byte string that no record has the form of.
    pub fn from_bytes(bytes: &[u8]) -> Option<Seen> {
        let mut rest = bytes;
        let [kind, count] = take(&mut rest)?;
        let rounds = u16::from_le_bytes(take(&mut rest)?);
        let gap: [u8; 4] = take(&mut rest)?;
        let duties: [u8; 2 * MOST_INPUTS] = take(&mut rest)?;
        if !rest.is_empty() || !(1..=MOST_ROUNDS).contains(&rounds) {
            return None;
        }
        let neither = count == 0 && absent(&gap) && absent(&duties);
        match Kind::from_number(kind)? {
            Kind::Proved => Some(Seen::Proved {
                rounds,
                gap: u32::from_le_bytes(gap),
                duties: Duties::from_bytes(usize::from(count), &duties)?,
            }),
            Kind::Impossible => neither.then_some(Seen::Impossible { rounds }),
            Kind::Open => neither.then_some(Seen::Open { rounds }),
        }
    }

    /// How the solve ended.
    pub fn kind(&self) -> Kind {
        match self {
            Seen::Proved { .. } => Kind::Proved,
            Seen::Impossible { .. } => Kind::Impossible,
            Seen::Open { .. } => Kind::Open,
        }
    }

    /// The rounds, which each kind has.
    pub fn rounds(&self) -> u16 {
        match *self {
            Seen::Proved { rounds, .. } | Seen::Impossible { rounds } | Seen::Open { rounds } => {
                rounds
            }
        }
    }
}

impl fmt::Display for Seen {
    fn fmt(&self, f: &mut fmt::Formatter<'_>) -> fmt::Result {
        write!(f, "{}: rounds {}", self.kind(), self.rounds())?;
        if let Seen::Proved { gap, duties, .. } = self {
            write!(f, ", gap {gap}, duties")?;
            for duty in duties.iter() {
                write!(f, " {duty}")?;
            }
        }
        Ok(())
    }
}

/// A record as the service sees it, which is all of it. Equal ones have the same bytes, others have
/// others.
#[derive(Clone, Copy, Debug, PartialEq, Eq)]
pub struct Record {
    /// n, 1 to 6.
    pub states: usize,
    /// m, 1 to 4.
    pub inputs: usize,
    /// N, 1 to 12.
    pub steps: usize,
    /// Rounds entered, the answering one included; of 'open', the tape's R.
    pub rounds: u16,
    /// What only some kinds have.
    pub outcome: Outcome,
}

/// What a record has by its kind. There is no gap but with 'proved'.
#[derive(Clone, Copy, Debug, PartialEq, Eq)]
// Without an allocator the largest kind's room is needed whatever the kind.
#[allow(clippy::large_enum_variant)]
pub enum Outcome {
    /// 'proved'.
    Proved {
        /// No rival costs less than the plan's cost minus the gap.
        gap: u32,
        /// The plan, with u(0) in front.
        plan: Plan,
        /// The multipliers that the gap is of.
        multipliers: Multipliers,
    },
    /// 'impossible'.
    Impossible {
        /// The multipliers that show it.
        multipliers: Multipliers,
    },
    /// 'open'.
    Open,
}

impl Record {
    /// What the service's bytes say; none for every byte string that no record has the form of.
    pub fn from_bytes(bytes: &[u8]) -> Option<Record> {
        let (seen, mut rest) = bytes.split_at_checked(LABORATORY_LENGTH)?;
        let seen = Seen::from_bytes(seen)?;
        let [states, inputs, steps] = sizes(take(&mut rest)?)?;
        if bytes.len() != service_length(states, inputs, steps) {
            return None;
        }
        let (plan, multipliers) = rest.split_at_checked(4 * steps * (states + inputs))?;
        Some(Record {
            states,
            inputs,
            steps,
            rounds: seen.rounds(),
            outcome: Outcome::from_bytes(&seen, inputs, plan, multipliers)?,
        })
    }

    /// What the laboratory sees of the record.
    pub fn seen(&self) -> Seen {
        let rounds = self.rounds;
        match &self.outcome {
            Outcome::Proved { gap, plan, .. } => Seen::Proved {
                rounds,
                gap: *gap,
                duties: Duties::of_plan(plan, self.inputs),
            },
            Outcome::Impossible { .. } => Seen::Impossible { rounds },
            Outcome::Open => Seen::Open { rounds },
        }
    }

    /// How the solve ended.
    pub fn kind(&self) -> Kind {
        self.seen().kind()
    }
}

impl Outcome {
    /// What stands behind the sizes, of a record whose front is `seen`.
    fn from_bytes(seen: &Seen, inputs: usize, plan: &[u8], multipliers: &[u8]) -> Option<Outcome> {
        let listed = Multipliers::from_bytes(multipliers);
        match *seen {
            Seen::Proved { gap, duties, .. } => {
                let plan = Plan::from_bytes(plan);
                duties.begin(&plan, inputs).then_some(Outcome::Proved {
                    gap,
                    plan,
                    multipliers: listed,
                })
            }
            Seen::Impossible { .. } => absent(plan).then_some(Outcome::Impossible {
                multipliers: listed,
            }),
            Seen::Open { .. } => (absent(plan) && absent(multipliers)).then_some(Outcome::Open),
        }
    }
}

/// The next bytes, taken off the front.
fn take<const COUNT: usize>(rest: &mut &[u8]) -> Option<[u8; COUNT]> {
    let (front, behind) = rest.split_first_chunk()?;
    *rest = behind;
    Some(*front)
}

/// Whether a field is absent.
fn absent(field: &[u8]) -> bool {
    field.iter().all(|byte| *byte == ABSENT)
}

/// n, m and N where they are in range.
fn sizes(bytes: [u8; 3]) -> Option<[usize; 3]> {
    let sizes = bytes.map(usize::from);
    let mosts = [MOST_STATES, MOST_INPUTS, MOST_STEPS];
    let in_range = |(size, most): (&usize, usize)| (1..=most).contains(size);
    sizes.iter().zip(mosts).all(in_range).then_some(sizes)
}

#[cfg(test)]
mod tests {
    use std::string::ToString;
    use std::vec;
    use std::vec::Vec;

    use super::*;

    /// Of document 01's tape F.
    const TAPE_F: [u8; 31] = [
        1, 1, 2, 0, 0x00, 0x80, 0, 0, 4, 0, 0xFF, 0xFF, 0xFF, 0xFF, 0xFF, 0xFF, // as seen
        1, 1, 1, 4, 0, 0, 0, 102, 0, 0, 0, 0xF0, 0xFF, 0xFF, 0xFF,
    ];

    /// Bytes that are the ends of ranges, or near them.
    const EDGES: [u8; 13] = [0, 1, 2, 3, 4, 5, 6, 7, 12, 13, 0x7F, 0x80, 0xFF];

    /// A record of each size and kind, with numbers of both signs; -1 has the bytes of an absent
    /// one.
    fn records() -> impl Iterator<Item = Record> {
        let sizes =
            (1..=6).flat_map(|n| (1..=4).flat_map(move |m| (1..=12).map(move |k| (n, m, k))));
        sizes.flat_map(|(states, inputs, steps)| {
            let plan = (-1..).take(steps * (states + inputs));
            let multipliers = (-1..).take(steps * states);
            let (plan, multipliers) = (Plan::collect(plan), Multipliers::collect(multipliers));
            let gap = u32::MAX;
            let outcomes = [
                Outcome::Proved {
                    gap,
                    plan,
                    multipliers,
                },
                Outcome::Impossible { multipliers },
                Outcome::Open,
            ];
            outcomes.map(|outcome| Record {
                states,
                inputs,
                steps,
                rounds: 10_000,
                outcome,
            })
        })
    }

    /// The laboratory's bytes, from nothing but what it sees.
    fn laboratory(seen: &Seen) -> Vec<u8> {
        let mut bytes = vec![0xFF; 16];
        (bytes[0], bytes[1]) = (seen.kind() as u8, 0);
        bytes[2..4].copy_from_slice(&seen.rounds().to_le_bytes());
        if let Seen::Proved { gap, duties, .. } = seen {
            bytes[1] = duties.len() as u8;
            bytes[4..8].copy_from_slice(&gap.to_le_bytes());
            for (place, duty) in bytes[8..].chunks_exact_mut(2).zip(duties.iter()) {
                place.copy_from_slice(&duty.to_le_bytes());
            }
        }
        bytes
    }

    /// The service's bytes, from nothing but the record.
    fn service(record: &Record) -> Vec<u8> {
        let mut bytes = laboratory(&record.seen());
        bytes.extend([record.states, record.inputs, record.steps].map(|size| size as u8));
        let plan_length = record.steps * (record.states + record.inputs);
        let mut numbers = vec![-1; plan_length + record.steps * record.states];
        if let Outcome::Proved { plan, .. } = &record.outcome {
            numbers[..plan_length].copy_from_slice(plan);
        }
        if let Outcome::Proved { multipliers, .. } | Outcome::Impossible { multipliers } =
            &record.outcome
        {
            numbers[plan_length..].copy_from_slice(multipliers);
        }
        bytes.extend(numbers.into_iter().flat_map(i32::to_le_bytes));
        bytes
    }

    /// The bytes with each two of them put to each two edges.
    fn edited(bytes: &[u8]) -> impl Iterator<Item = Vec<u8>> + '_ {
        let pairs = (0..bytes.len()).flat_map(|i| (0..=i).map(move |j| (i, j)));
        let edges = || EDGES.into_iter().flat_map(|a| EDGES.map(|b| (a, b)));
        pairs.flat_map(move |(i, j)| {
            edges().map(move |(a, b)| {
                let mut edited = bytes.to_vec();
                (edited[i], edited[j]) = (a, b);
                edited
            })
        })
    }

    #[test]
    fn every_field_has_its_place() {
        let (plan, multipliers) = ([4, 102], [-16]);
        let record = Record {
            states: 1,
            inputs: 1,
            steps: 1,
            rounds: 2,
            outcome: Outcome::Proved {
                gap: 32768,
                plan: Plan::collect(plan.into_iter()),
                multipliers: Multipliers::collect(multipliers.into_iter()),
            },
        };
        assert_eq!(Record::from_bytes(&TAPE_F), Some(record));
        assert_eq!(Seen::from_bytes(&TAPE_F[..16]), Some(record.seen()));
        assert_eq!(service(&record), TAPE_F);
    }

    #[test]
    fn every_record_is_read() {
        for record in records() {
            let bytes = service(&record);
            assert_eq!(Record::from_bytes(&bytes), Some(record));
            assert_eq!(Seen::from_bytes(&bytes[..16]), Some(record.seen()));
            assert_eq!(record.kind() as u8, bytes[0]);
        }
    }

    /// Bytes that are found again from what was read are the only ones that read so.
    #[test]
    fn equal_records_have_equal_bytes() {
        let small = |record: &Record| record.states + record.inputs + record.steps <= 4;
        for record in records().filter(small) {
            let bytes = service(&record);
            for edited in edited(&bytes) {
                let Some(other) = Record::from_bytes(&edited) else {
                    continue;
                };
                assert_eq!(service(&other), edited);
                assert_eq!(other == record, edited == bytes);
            }
            for edited in edited(&bytes[..16]) {
                let Some(other) = Seen::from_bytes(&edited) else {
                    continue;
                };
                assert_eq!(laboratory(&other), edited);
                assert_eq!(other == record.seen(), edited == bytes[..16]);
            }
        }
    }

    #[test]
    fn no_other_length_is_read() {
        for record in records() {
            let mut bytes = service(&record);
            bytes.push(0xFF);
            let whole = bytes.len() - 1;
            for length in (0..=bytes.len()).filter(|length| *length != whole) {
                assert_eq!(Record::from_bytes(&bytes[..length]), None);
            }
            for length in (0..whole).filter(|length| *length != 16) {
                assert_eq!(Seen::from_bytes(&bytes[..length]), None);
            }
        }
    }

    /// Whether the bytes with one of them edited are no record's.
    fn is_none(bytes: &[u8], place: usize, byte: u8) -> bool {
        let mut edited = bytes.to_vec();
        edited[place] = byte;
        assert!(edited != bytes);
        Record::from_bytes(&edited).is_none()
    }

    #[test]
    fn what_no_record_has_is_not_read() {
        // Kind, number of duties, rounds, a second duty, n, m, N, then duty and plan that differ.
        let of_f = [
            (0, 0),
            (0, 2),
            (0, 4),
            (1, 0),
            (1, 2),
            (1, 5),
            (2, 0),
            (3, 0x28),
            (10, 0),
        ];
        let sizes = [(16, 0), (16, 7), (17, 0), (17, 5), (18, 0), (18, 13)];
        let differ = [(8, 5), (19, 5), (21, 1), (22, 0x80)];
        for (place, byte) in of_f.into_iter().chain(sizes).chain(differ) {
            assert!(is_none(&TAPE_F, place, byte), "{place}");
        }
        for record in records().filter(|record| record.kind() != Kind::Proved) {
            let bytes = service(&record);
            let multipliers = bytes.len() - 4 * record.steps * record.states;
            let end = if record.kind() == Kind::Open {
                bytes.len()
            } else {
                multipliers
            };
            for place in (4..16).chain(19..end) {
                assert!(is_none(&bytes, place, 0xFE), "{place}");
            }
            assert!(is_none(&bytes, 0, 1));
            assert!(is_none(&bytes, 1, record.inputs as u8));
        }
    }

    /// With the length that the sizes would have.
    #[test]
    fn sizes_out_of_range_are_not_read() {
        let open = |sizes: [u8; 3]| {
            let [states, inputs, steps] = sizes.map(usize::from);
            let mut bytes = vec![0xFF; service_length(states, inputs, steps)];
            bytes[..4].copy_from_slice(&[3, 0, 5, 0]);
            bytes[16..19].copy_from_slice(&sizes);
            Record::from_bytes(&bytes)
        };
        assert!(open([1, 1, 1]).is_some() && open([6, 4, 12]).is_some());
        for sizes in [
            [0, 1, 1],
            [7, 1, 1],
            [1, 0, 1],
            [1, 5, 1],
            [1, 1, 0],
            [1, 1, 13],
        ] {
            assert_eq!(open(sizes), None);
        }
    }

    #[test]
    fn proved_has_one_to_four_duties() {
        let mut bytes = TAPE_F[..16].to_vec();
        for count in 0..=255 {
            bytes[1] = count;
            bytes[8..16].fill(0xFF);
            let found = Seen::from_bytes(&bytes);
            assert_eq!(found.is_some(), (1..=4).contains(&count));
        }
    }

    #[test]
    fn records_as_text() {
        let text = |bytes: &[u8]| Seen::from_bytes(bytes).expect("a record").to_string();
        let mut bytes = TAPE_F[..16].to_vec();
        (bytes[1], bytes[2]) = (2, 1);
        assert_eq!(text(&bytes), "proved: rounds 1, gap 32768, duties 4 -1");
        bytes = vec![0xFF; 16];
        bytes[..4].copy_from_slice(&[2, 0, 0x10, 0x27]);
        assert_eq!(text(&bytes), "impossible: rounds 10000");
        bytes[0] = 3;
        assert_eq!(text(&bytes), "open: rounds 10000");
    }
}
