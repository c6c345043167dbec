//! The tape's commands, and refusals 1 to 8 and 18.

use crate::model::{Column, Correction, Furnace, Whole};
use crate::refusal::Refusal;

/// Command 10: n, m, N.
pub const SIZE: u8 = 0x10;
/// Command 20: an entry of A.
pub const STATE_ENTRY: u8 = 0x20;
/// Command 21: an entry of B.
pub const INPUT_ENTRY: u8 = 0x21;
/// Command 22: an entry of w.
pub const DRIFT: u8 = 0x22;
/// Command 30: limits, reference and weight of a column.
pub const COLUMN: u8 = 0x30;
/// Command 31: the reference of a column at one step.
pub const STEP_REFERENCE: u8 = 0x31;
/// Command 40: a start value.
pub const START: u8 = 0x40;
/// Command 50: g, R and T.
pub const SEARCH: u8 = 0x50;
/// Command 51: g, R and T of rounds with the banded step.
pub const BANDED_SEARCH: u8 = 0x51;
/// Command FF: the end.
pub const END: u8 = 0xff;

/// The most states, n.
pub const MOST_STATES: usize = 6;
/// The most inputs, m.
pub const MOST_INPUTS: usize = 4;
/// The most steps, N.
pub const MOST_STEPS: usize = 12;
/// The most columns, n+m.
pub const MOST_COLUMNS: usize = MOST_STATES + MOST_INPUTS;
/// Entries of A and B lie in −16,384 to 16,384.
pub const ENTRY_RANGE: Whole = 16_384;
/// Entries of w lie in −16,777,216 to 16,777,216.
pub const DRIFT_RANGE: Whole = 16_777_216;
/// lo, hi, r, the references of steps and start values lie in −20,000 to 20,000.
pub const NUMBER_RANGE: Whole = 20_000;
/// The largest weight h. The smallest is 0.
pub const MOST_WEIGHT: Whole = 255;
/// The largest R.
pub const MOST_ROUNDS: Whole = 10_000;

/// How many bytes of operands follow the command byte; none for a byte that is not in the table.
pub fn operand_bytes(command: u8) -> Option<usize> {
    match command {
        SIZE => Some(1 + 1 + 1),
        STATE_ENTRY => Some(1 + 1 + 2),
        INPUT_ENTRY => Some(1 + 1 + 2),
        DRIFT => Some(1 + 4),
        COLUMN => Some(1 + 2 + 2 + 2 + 1),
        STEP_REFERENCE => Some(1 + 1 + 2),
        START => Some(1 + 2),
        SEARCH | BANDED_SEARCH => Some(2 + 2 + 4),
        END => Some(0),
        _ => None,
    }
}

/// An unsigned number of any width, low byte first.
pub fn unsigned(bytes: &[u8]) -> Whole {
    let mut value = 0;
    let mut place = 1;
    for byte in bytes {
        value += place * Whole::from(*byte);
        place *= 256;
    }
    value
}

/// A two's complement number of any width, low byte first.
pub fn signed(bytes: &[u8]) -> Whole {
    let values = (256 as Whole).pow(bytes.len() as u32);
    let value = unsigned(bytes);
    if value >= values / 2 {
        value - values
    } else {
        value
    }
}

/// What the commands so far have given. `None` is a place that was not given; it is kept for
/// A, B and w too, since a 0 that was given counts for refusal 6. A step's reference of 0 that was
/// given counts for refusal 7 as well.
struct Given {
    states: usize,
    inputs: usize,
    horizon: usize,
    a: Vec<Vec<Option<Whole>>>,
    b: Vec<Vec<Option<Whole>>>,
    drift: Vec<Option<Whole>>,
    columns: Vec<Option<Column>>,
    curves: Vec<Vec<Option<Whole>>>,
    start: Vec<Option<Whole>>,
    search: Option<Search>,
}

/// Which of the commands 50 and 51 was given, and its operands.
#[derive(Clone, Copy)]
struct Search {
    correction: Correction,
    step_size: Whole,
    rounds: u32,
    wanted_gap: Whole,
}

/// Reads a tape, or gives its refusal.
pub fn read(tape: &[u8]) -> Result<Furnace, Refusal> {
    let mut given = None;
    let mut offset = 0;
    loop {
        if offset == tape.len() {
            return Err(Refusal::Cut { offset });
        }
        let command = tape[offset];
        let Some(width) = operand_bytes(command) else {
            return Err(Refusal::Unknown { offset });
        };
        let after = offset + 1 + width;
        if after > tape.len() {
            return Err(Refusal::Cut { offset });
        }
        let operands = &tape[offset + 1..after];
        given = match (command, given) {
            (SIZE, None) => Some(size(operands, offset)?),
            (SIZE, Some(_)) | (_, None) => return Err(Refusal::Misplaced { offset }),
            (END, Some(given)) => return finish(given, tape, offset),
            (_, Some(mut given)) => {
                given.take(command, operands, offset)?;
                Some(given)
            }
        };
        offset = after;
    }
}

/// Command 10.
fn size(operands: &[u8], offset: usize) -> Result<Given, Refusal> {
    let states = usize::from(operands[0]);
    let inputs = usize::from(operands[1]);
    let horizon = usize::from(operands[2]);
    if !(1..=MOST_STATES).contains(&states)
        || !(1..=MOST_INPUTS).contains(&inputs)
        || !(1..=MOST_STEPS).contains(&horizon)
    {
        return Err(Refusal::OutOfRange { offset });
    }
    Ok(Given {
        states,
        inputs,
        horizon,
        a: vec![vec![None; states]; states],
        b: vec![vec![None; inputs]; states],
        drift: vec![None; states],
        columns: vec![None; states + inputs],
        curves: vec![vec![None; horizon]; states + inputs],
        start: vec![None; states],
        search: None,
    })
}

/// Refusal 4 unless `index` is below `size`.
fn place(index: u8, size: usize, offset: usize) -> Result<usize, Refusal> {
    if usize::from(index) < size {
        Ok(usize::from(index))
    } else {
        Err(Refusal::NoSuchPlace { offset })
    }
}

/// Refusal 5 unless `value` lies in `lowest` to `highest`.
fn in_range(value: Whole, lowest: Whole, highest: Whole, offset: usize) -> Result<Whole, Refusal> {
    if lowest <= value && value <= highest {
        Ok(value)
    } else {
        Err(Refusal::OutOfRange { offset })
    }
}

/// Refusal 6 if the place was given before.
fn put<T>(place: &mut Option<T>, value: T, offset: usize) -> Result<(), Refusal> {
    if place.is_some() {
        return Err(Refusal::Twice { offset });
    }
    *place = Some(value);
    Ok(())
}

impl Given {
    /// Takes one of the commands 20 to 51. Each tests 4, then 5, then 6.
    fn take(&mut self, command: u8, operands: &[u8], offset: usize) -> Result<(), Refusal> {
        match command {
            STATE_ENTRY => {
                let i = place(operands[0], self.states, offset)?;
                let j = place(operands[1], self.states, offset)?;
                let value = entry(&operands[2..4], offset)?;
                put(&mut self.a[i][j], value, offset)
            }
            INPUT_ENTRY => {
                let i = place(operands[0], self.states, offset)?;
                let j = place(operands[1], self.inputs, offset)?;
                let value = entry(&operands[2..4], offset)?;
                put(&mut self.b[i][j], value, offset)
            }
            DRIFT => {
                let i = place(operands[0], self.states, offset)?;
                let value = signed(&operands[1..5]);
                let value = in_range(value, -DRIFT_RANGE, DRIFT_RANGE, offset)?;
                put(&mut self.drift[i], value, offset)
            }
            COLUMN => {
                let c = place(operands[0], self.states + self.inputs, offset)?;
                let value = column(&operands[1..8], offset)?;
                put(&mut self.columns[c], value, offset)
            }
            STEP_REFERENCE => {
                let c = place(operands[0], self.states + self.inputs, offset)?;
                let k = place(operands[1], self.horizon, offset)?;
                let value = number(&operands[2..4], offset)?;
                put(&mut self.curves[c][k], value, offset)
            }
            START => {
                let i = place(operands[0], self.states, offset)?;
                let value = number(&operands[1..3], offset)?;
                put(&mut self.start[i], value, offset)
            }
            SEARCH => {
                let value = search(Correction::Gain, operands, offset)?;
                put(&mut self.search, value, offset)
            }
            BANDED_SEARCH => {
                let value = search(Correction::Banded, operands, offset)?;
                put(&mut self.search, value, offset)
            }
            _ => unreachable!("10, FF and unknown bytes are dealt with before"),
        }
    }
}

/// The value of an entry of A or B.
fn entry(bytes: &[u8], offset: usize) -> Result<Whole, Refusal> {
    in_range(signed(bytes), -ENTRY_RANGE, ENTRY_RANGE, offset)
}

/// One of lo, hi, r, a step's reference and the start values.
fn number(bytes: &[u8], offset: usize) -> Result<Whole, Refusal> {
    in_range(signed(bytes), -NUMBER_RANGE, NUMBER_RANGE, offset)
}

/// lo, hi, r and h of command 30. h may be any unsigned number of one byte.
fn column(bytes: &[u8], offset: usize) -> Result<Column, Refusal> {
    let lo = number(&bytes[0..2], offset)?;
    let hi = number(&bytes[2..4], offset)?;
    let reference = number(&bytes[4..6], offset)?;
    let weight = unsigned(&bytes[6..7]);
    if lo > hi {
        return Err(Refusal::OutOfRange { offset });
    }
    Ok(Column {
        lo,
        hi,
        reference,
        weight,
    })
}

/// g, R and T of command 50 or 51. T may be any unsigned number of 4 bytes.
fn search(correction: Correction, bytes: &[u8], offset: usize) -> Result<Search, Refusal> {
    let step_size = in_range(unsigned(&bytes[0..2]), 1, 65_535, offset)?;
    let rounds = in_range(unsigned(&bytes[2..4]), 1, MOST_ROUNDS, offset)?;
    let wanted_gap = unsigned(&bytes[4..8]);
    Ok(Search {
        correction,
        step_size,
        rounds: rounds as u32,
        wanted_gap,
    })
}

/// Command FF at `offset`: refusal 7, then 18, then 8, then the furnace with 0 for absent entries.
fn finish(given: Given, tape: &[u8], offset: usize) -> Result<Furnace, Refusal> {
    let columns: Option<Vec<Column>> = given.columns.into_iter().collect();
    let start: Option<Vec<Whole>> = given.start.into_iter().collect();
    let curves: Option<Vec<_>> = given.curves.into_iter().map(curve).collect();
    let (Some(columns), Some(curves), Some(start), Some(search)) =
        (columns, curves, start, given.search)
    else {
        return Err(Refusal::Absent { offset });
    };
    let some_weight_0 = columns.iter().any(|column| column.weight == 0);
    if search.correction == Correction::Banded && some_weight_0 {
        return Err(Refusal::Weightless { offset });
    }
    if tape.len() > offset + 1 {
        return Err(Refusal::Overrun { offset: offset + 1 });
    }
    Ok(Furnace {
        states: given.states,
        inputs: given.inputs,
        horizon: given.horizon,
        a: given.a.into_iter().map(absent_as_zero).collect(),
        b: given.b.into_iter().map(absent_as_zero).collect(),
        drift: absent_as_zero(given.drift),
        columns,
        curves,
        start,
        correction: search.correction,
        step_size: search.step_size,
        rounds: search.rounds,
        wanted_gap: search.wanted_gap,
    })
}

/// What the steps of a column come to: no curve where none was given, the curve where all were, and
/// nothing, which is refusal 7, where only some were.
fn curve(steps: Vec<Option<Whole>>) -> Option<Option<Vec<Whole>>> {
    if steps.iter().all(Option::is_none) {
        return Some(None);
    }
    let curve: Option<Vec<Whole>> = steps.into_iter().collect();
    curve.map(Some)
}

/// The entries of a row, absent ones as 0.
fn absent_as_zero(row: Vec<Option<Whole>>) -> Vec<Whole> {
    row.into_iter().map(|entry| entry.unwrap_or(0)).collect()
}

#[cfg(test)]
mod tests {
    use super::*;

    #[test]
    fn low_byte_first() {
        assert_eq!(unsigned(&[0x34, 0x12]), 0x1234);
        assert_eq!(unsigned(&[0xff, 0xff, 0xff, 0xff]), 4_294_967_295);
        assert_eq!(signed(&[0xff, 0x7f]), 32_767);
        assert_eq!(signed(&[0x00, 0x80]), -32_768);
        assert_eq!(signed(&[0xff, 0xff]), -1);
        assert_eq!(signed(&[0x00, 0x00, 0x00, 0xff]), -16_777_216);
        assert_eq!(signed(&[0xff, 0xff, 0xff, 0x7f]), 2_147_483_647);
    }
}
