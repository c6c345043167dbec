//! Models straight from the identification tool, which delivers A and B as 64-bit floats
//! (document 02, request 2).
//!
//! Floats are neither computed with nor compared here. A float's bits are taken apart into a whole
//! number and a power of two, the fraction that they make is rounded in whole numbers, and the
//! leftover is put together bit by bit.

use crate::float::{float, parts, rounded, Parts, SMALL_POWER};
use crate::model::Whole;
use crate::refusal::Refusal;
use crate::tape::{ENTRY_RANGE, INPUT_ENTRY, MOST_INPUTS, MOST_STATES, STATE_ENTRY};

/// Bytes of a command 20 or 21.
const COMMAND_BYTES: usize = 5;

/// 4096 is 2^12.
const SCALE_POWER: i32 = 12;

/// An imported entry a.
#[derive(Clone, Copy, Debug, PartialEq)]
pub enum Entry {
    /// 4096 × a is this whole number.
    Whole(Whole),
    /// 4096 × a is no whole number.
    Near {
        /// The whole number nearest to 4096 × a, halves upward.
        number: Whole,
        /// 4096 × a minus that number, from −1/2 up to but not including 1/2. It is exact.
        leftover: f64,
    },
}

impl Entry {
    /// The whole number that stands for the entry on a tape.
    pub fn number(self) -> Whole {
        match self {
            Entry::Whole(number) | Entry::Near { number, .. } => number,
        }
    }
}

/// Imports one entry alone. Its refusals, 16 and 17, carry nothing.
pub fn import_entry(a: f64) -> Result<Entry, Refusal> {
    let too_large = Err(Refusal::TooLarge { entry: None });
    let Some(Parts { digits, power }) = parts(a) else {
        return Err(Refusal::NotFinite { entry: None });
    };
    // 4096 × a is digits × 2^power.
    let power = power + SCALE_POWER;
    let (number, left_digits) = match power {
        // No digit stands behind the point, and the first of the 53 makes it 2^52 or more.
        0.. => return too_large,
        SMALL_POWER..=-1 => rounded(digits, 1 << -power),
        // Below 2^53 × 2^−61.
        _ => (0, digits),
    };
    if number.abs() > ENTRY_RANGE {
        return too_large;
    }
    if left_digits == 0 {
        return Ok(Entry::Whole(number));
    }
    let leftover = float(Parts {
        digits: left_digits,
        power,
    });
    Ok(Entry::Near { number, leftover })
}

/// Imports a model of n states and m inputs: A by rows, then B by rows, each entry as a command 20
/// or 21 in `out`. A refusal leaves `out` as it was.
pub fn import_model(
    states: usize,
    inputs: usize,
    a: &[f64],
    b: &[f64],
    out: &mut [u8],
) -> Result<(), Refusal> {
    if !(1..=MOST_STATES).contains(&states) || !(1..=MOST_INPUTS).contains(&inputs) {
        return Err(Refusal::ArgumentOutOfRange);
    }
    let (of_a, of_b) = (states * states, states * inputs);
    if a.len() != of_a || b.len() != of_b || out.len() != COMMAND_BYTES * (of_a + of_b) {
        return Err(Refusal::Length);
    }
    let mut commands = Vec::new();
    for i in 0..states {
        for j in 0..states {
            let count = i * states + j;
            commands.push(command(STATE_ENTRY, i, j, counted(a[count], count)?));
        }
    }
    for i in 0..states {
        for j in 0..inputs {
            let count = i * inputs + j;
            commands.push(command(INPUT_ENTRY, i, j, counted(b[count], of_a + count)?));
        }
    }
    out.copy_from_slice(&commands.concat());
    Ok(())
}

/// The number of a model's entry, whose refusal carries the entry's count.
fn counted(entry: f64, count: usize) -> Result<Whole, Refusal> {
    let imported = import_entry(entry);
    let entry = Some(count);
    match imported {
        Ok(imported) => Ok(imported.number()),
        Err(Refusal::NotFinite { .. }) => Err(Refusal::NotFinite { entry }),
        Err(Refusal::TooLarge { .. }) => Err(Refusal::TooLarge { entry }),
        Err(_) => unreachable!("an entry has no other refusal"),
    }
}

/// A command of two indexes and a number of 2 bytes in two's complement, low byte first.
fn command(byte: u8, i: usize, j: usize, number: Whole) -> [u8; COMMAND_BYTES] {
    let value = number.rem_euclid(0x1_0000);
    let (low, high) = (value % 0x100, value / 0x100);
    [byte, i as u8, j as u8, low as u8, high as u8]
}
