//! Reads a tape.

use crate::furnace::{Column, Furnace, UNIT};
use crate::{MOST_COLUMNS, MOST_INPUTS, MOST_STATES, MOST_STEPS};

const SIZE: u8 = 0x10;
const STATE_ENTRY: u8 = 0x20;
const INPUT_ENTRY: u8 = 0x21;
const DRIFT: u8 = 0x22;
const COLUMN: u8 = 0x30;
const STEP_REFERENCE: u8 = 0x31;
const START: u8 = 0x40;
const SEARCH: u8 = 0x50;
const END: u8 = 0xff;

/// Entries of A and B are from −16,384 to 16,384.
const ENTRY_RANGE: i64 = 16_384;
/// The drift is from −16,777,216 to 16,777,216.
const DRIFT_RANGE: i64 = 16_777_216;
/// Limits, references and the start are from −20,000 to 20,000.
const NUMBER_RANGE: i64 = 20_000;
/// R is from 1 to 10,000.
const MOST_ROUNDS: i64 = 10_000;

/// The furnace of a legal tape with command 50; none for any other bytes.
pub fn read(tape: &[u8]) -> Option<Furnace> {
    let mut bytes = Bytes(tape);
    if bytes.byte()? != SIZE {
        return None;
    }
    let mut given = Given {
        states: bytes.size(MOST_STATES)?,
        inputs: bytes.size(MOST_INPUTS)?,
        steps: bytes.size(MOST_STEPS)?,
        ..Given::default()
    };
    loop {
        match bytes.byte()? {
            END if bytes.0.is_empty() => return given.furnace(),
            command => given.take(command, &mut bytes)?,
        }
    }
}

/// The bytes of a tape that are still to be read.
struct Bytes<'a>(&'a [u8]);

impl Bytes<'_> {
    /// The next bytes.
    fn next<const WIDTH: usize>(&mut self) -> Option<[u8; WIDTH]> {
        let (next, rest) = self.0.split_first_chunk()?;
        self.0 = rest;
        Some(*next)
    }

    /// The next byte.
    fn byte(&mut self) -> Option<u8> {
        let [byte] = self.next()?;
        Some(byte)
    }

    /// A size from 1 to the most.
    fn size(&mut self, most: usize) -> Option<usize> {
        let size = usize::from(self.byte()?);
        (1..=most).contains(&size).then_some(size)
    }

    /// An index below the size.
    fn index(&mut self, size: usize) -> Option<usize> {
        let index = usize::from(self.byte()?);
        (index < size).then_some(index)
    }

    /// A signed number of 2 bytes within plus and minus the range.
    fn number(&mut self, range: i64) -> Option<i64> {
        let number = i64::from(i16::from_le_bytes(self.next()?));
        (-range..=range).contains(&number).then_some(number)
    }

    /// A signed number of 4 bytes within plus and minus the range.
    fn long_number(&mut self, range: i64) -> Option<i64> {
        let number = i64::from(i32::from_le_bytes(self.next()?));
        (-range..=range).contains(&number).then_some(number)
    }

    /// An unsigned number of 2 bytes from 1 to the most.
    fn count(&mut self, most: i64) -> Option<i64> {
        let count = i64::from(u16::from_le_bytes(self.next()?));
        (1..=most).contains(&count).then_some(count)
    }
}

/// What command 30 gives.
#[derive(Clone, Copy)]
struct Limits {
    lo: i64,
    hi: i64,
    r: i64,
    h: i64,
}

/// What command 50 gives.
#[derive(Clone, Copy)]
struct Search {
    gain: i64,
    rounds: i64,
    wanted_gap: i64,
}

/// What the commands so far gave.
#[derive(Default)]
struct Given {
    states: usize,
    inputs: usize,
    steps: usize,
    a: [[Option<i64>; MOST_STATES]; MOST_STATES],
    b: [[Option<i64>; MOST_INPUTS]; MOST_STATES],
    drift: [Option<i64>; MOST_STATES],
    limits: [Option<Limits>; MOST_COLUMNS],
    curves: [[Option<i64>; MOST_STEPS]; MOST_COLUMNS],
    start: [Option<i64>; MOST_STATES],
    search: Option<Search>,
}

impl Given {
    /// Takes a command's operands; none where the tape is not legal, or not one of command 50.
    fn take(&mut self, command: u8, bytes: &mut Bytes) -> Option<()> {
        let (states, inputs) = (self.states, self.inputs);
        match command {
            STATE_ENTRY => {
                let (i, j) = (bytes.index(states)?, bytes.index(states)?);
                put(&mut self.a[i][j], bytes.number(ENTRY_RANGE)?)
            }
            INPUT_ENTRY => {
                let (i, j) = (bytes.index(states)?, bytes.index(inputs)?);
                put(&mut self.b[i][j], bytes.number(ENTRY_RANGE)?)
            }
            DRIFT => {
                let i = bytes.index(states)?;
                put(&mut self.drift[i], bytes.long_number(DRIFT_RANGE)?)
            }
            COLUMN => {
                let c = bytes.index(states + inputs)?;
                put(&mut self.limits[c], limits(bytes)?)
            }
            STEP_REFERENCE => {
                let (c, k) = (bytes.index(states + inputs)?, bytes.index(self.steps)?);
                put(&mut self.curves[c][k], bytes.number(NUMBER_RANGE)?)
            }
            START => {
                let i = bytes.index(states)?;
                put(&mut self.start[i], bytes.number(NUMBER_RANGE)?)
            }
            SEARCH => put(&mut self.search, search(bytes)?),
            _ => None,
        }
    }

    /// The furnace; none where something required was not given.
    fn furnace(&self) -> Option<Furnace> {
        let search = self.search?;
        let mut furnace = Furnace {
            states: self.states,
            inputs: self.inputs,
            steps: self.steps,
            a: self.a.map(|row| row.map(Option::unwrap_or_default)),
            b: self.b.map(|row| row.map(Option::unwrap_or_default)),
            drift: self.drift.map(Option::unwrap_or_default),
            columns: [Column::default(); MOST_COLUMNS],
            start: [0; MOST_STATES],
            gain: search.gain,
            rounds: search.rounds,
            wanted_gap: search.wanted_gap,
        };
        for i in 0..self.states {
            furnace.start[i] = self.start[i]?;
        }
        for c in 0..self.states + self.inputs {
            furnace.columns[c] = self.column(c)?;
        }
        Some(furnace)
    }

    /// A column, with its curve or with r at all steps.
    fn column(&self, c: usize) -> Option<Column> {
        let limits = self.limits[c]?;
        let curve = &self.curves[c][..self.steps];
        let mut reference = [0; MOST_STEPS];
        for k in 0..self.steps {
            reference[k] = if curve.iter().any(Option::is_some) {
                curve[k]?
            } else {
                limits.r
            };
        }
        Some(Column {
            lo: limits.lo,
            hi: limits.hi,
            price: UNIT * limits.h,
            reference,
        })
    }
}

/// Puts what is given in its place; none where that was given before.
fn put<T>(place: &mut Option<T>, value: T) -> Option<()> {
    match place.replace(value) {
        Some(_) => None,
        None => Some(()),
    }
}

/// The operands of command 30 after its column.
fn limits(bytes: &mut Bytes) -> Option<Limits> {
    let limits = Limits {
        lo: bytes.number(NUMBER_RANGE)?,
        hi: bytes.number(NUMBER_RANGE)?,
        r: bytes.number(NUMBER_RANGE)?,
        h: i64::from(bytes.byte()?),
    };
    (limits.lo <= limits.hi).then_some(limits)
}

/// The operands of command 50.
fn search(bytes: &mut Bytes) -> Option<Search> {
    Some(Search {
        gain: bytes.count(i64::from(u16::MAX))?,
        rounds: bytes.count(MOST_ROUNDS)?,
        wanted_gap: i64::from(u32::from_le_bytes(bytes.next()?)),
    })
}

#[cfg(test)]
mod tests {
    use super::*;
    use crate::tapes::tape_f;

    #[test]
    fn tape_f_is_read() {
        let furnace = tape_f().furnace();
        let sizes = (furnace.states, furnace.inputs, furnace.steps);
        assert_eq!(sizes, (1, 1, 1));
        assert_eq!((furnace.a[0][0], furnace.b[0][0]), (4096, 2048));
        let (state, input) = (furnace.state(0), furnace.input(0));
        let of = |column: &Column| (column.lo, column.hi, column.reference[0], column.price);
        assert_eq!(of(state), (-1000, 1000, 110, 4096));
        assert_eq!(of(input), (0, 40, 0, 4096));
        let search = (furnace.gain, furnace.rounds, furnace.wanted_gap);
        assert_eq!((furnace.start[0], search), (100, (25, 5, 40_000)));
    }

    #[test]
    fn a_curve_needs_every_step() {
        let mut tape = tape_f();
        tape.steps = 2;
        assert_eq!(tape.furnace().state(0).reference[..2], [110, 110]);
        tape.more = vec![0x31, 0, 1, 130, 0];
        assert_eq!(read(&tape.bytes()), None);
        tape.more.extend([0x31, 0, 0, 90, 0]);
        let furnace = tape.furnace();
        assert_eq!(furnace.state(0).reference[..2], [90, 130]);
        assert_eq!(furnace.input(0).reference[..2], [0, 0]);
    }

    #[test]
    fn other_bytes_are_not_taken() {
        let bytes = tape_f().bytes();
        for length in 0..bytes.len() {
            assert_eq!(read(&bytes[..length]), None);
        }
        assert_eq!(read(&[&bytes[..], &[0]].concat()), None);
        let with = |more: &[u8]| {
            let mut tape = tape_f();
            tape.more = more.to_vec();
            read(&tape.bytes())
        };
        assert!(with(&[0x22, 0, 0, 0, 0, 1]).is_some());
        // A drift beyond its range; an index beyond the sizes; the start again; 50 and 51 again.
        assert_eq!(with(&[0x22, 0, 1, 0, 0, 1]), None);
        assert_eq!(with(&[0x22, 1, 0, 0, 0, 0]), None);
        assert_eq!(with(&[0x40, 0, 0x64, 0]), None);
        assert_eq!(with(&[0x50, 1, 0, 1, 0, 0, 0, 0, 0]), None);
        assert_eq!(with(&[0x51, 1, 0, 1, 0, 0, 0, 0, 0]), None);
    }
}
