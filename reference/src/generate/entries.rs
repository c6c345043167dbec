//! Entries of a model, as 64-bit floats.

use super::random::Random;

/// What a generated entry a is meant to be.
#[derive(Clone, Copy, Debug, PartialEq, Eq, PartialOrd, Ord)]
pub enum EntryKind {
    /// Any 64 bits.
    Pattern,
    /// Of a size from far below 1 up to beyond the range, with few digits or many.
    Plain,
    /// 4096 × a within a few floats of a half.
    Half,
    /// 4096 × a within a few floats of a whole number.
    Whole,
    /// 4096 × a within a few floats of 16,384.5 or −16,384.5.
    End,
    /// A power of two, of any exponent that floats have.
    Power,
    /// A subnormal.
    Subnormal,
    /// 0 or −0.
    Zero,
    /// An infinity.
    Infinite,
    /// Not a number, quiet or signalling.
    NotANumber,
}

impl EntryKind {
    /// All kinds.
    pub const ALL: [EntryKind; 10] = [
        EntryKind::Pattern,
        EntryKind::Plain,
        EntryKind::Half,
        EntryKind::Whole,
        EntryKind::End,
        EntryKind::Power,
        EntryKind::Subnormal,
        EntryKind::Zero,
        EntryKind::Infinite,
        EntryKind::NotANumber,
    ];
}

/// A generated entry.
#[derive(Clone, Copy, Debug, PartialEq)]
pub struct GeneratedEntry {
    /// What it is meant to be.
    pub kind: EntryKind,
    /// The entry.
    pub entry: f64,
}

/// Bits of a float below its exponent.
const DIGIT_BITS: u32 = 52;

/// The exponent of 1.
const EXPONENT_OF_1: u64 = 1023;

/// The exponent of infinities and of what is not a number.
const LAST_EXPONENT: u64 = 2047;

/// The sign bit.
const SIGN: u64 = 1 << 63;

/// An entry of any kind.
pub fn any(random: &mut Random) -> GeneratedEntry {
    // Those with the most edges come most often.
    let kind = match random.below(20) {
        0..=2 => EntryKind::Pattern,
        3..=6 => EntryKind::Plain,
        7..=10 => EntryKind::Half,
        11..=13 => EntryKind::Whole,
        14 => EntryKind::End,
        15 => EntryKind::Power,
        16 => EntryKind::Subnormal,
        17 => EntryKind::Zero,
        18 => EntryKind::Infinite,
        _ => EntryKind::NotANumber,
    };
    let entry = of_kind(kind, random);
    GeneratedEntry { kind, entry }
}

/// An entry of the kind.
pub fn of_kind(kind: EntryKind, random: &mut Random) -> f64 {
    let sign = random.next_bits() & SIGN;
    match kind {
        EntryKind::Pattern => f64::from_bits(random.next_bits()),
        EntryKind::Plain => f64::from_bits(sign | plain(random)),
        EntryKind::Half => beside(number(random) + 0.5, random),
        EntryKind::Whole => beside(number(random), random),
        EntryKind::End => beside(random.choose(&[16_384.5, -16_384.5]), random),
        EntryKind::Power => f64::from_bits(sign | power(random)),
        EntryKind::Subnormal => f64::from_bits(sign | digits(random).max(1)),
        EntryKind::Zero => f64::from_bits(sign),
        EntryKind::Infinite => f64::from_bits(sign | LAST_EXPONENT << DIGIT_BITS),
        EntryKind::NotANumber => {
            let any = digits(random).max(1);
            let digits = random.choose(&[1, 1 << (DIGIT_BITS - 1), any, any]);
            f64::from_bits(sign | LAST_EXPONENT << DIGIT_BITS | digits)
        }
    }
}

/// The float so many floats above a finite one, or below it where there are fewer than 0. Both
/// zeros count as one.
pub fn moved(float: f64, floats: i64) -> f64 {
    let size = (float.to_bits() & !SIGN) as i64;
    let place = if float.is_sign_negative() {
        -size
    } else {
        size
    } + floats;
    let sign = if place < 0 { SIGN } else { 0 };
    f64::from_bits(sign | place.unsigned_abs())
}

/// The entry whose 4096-fold is within a few floats of the number.
fn beside(scaled: f64, random: &mut Random) -> f64 {
    let floats = random.choose(&[0, 0, -1, 1, -2, 2, -3, 3]);
    moved(scaled / 4096.0, floats)
}

/// A whole number of any size up to beyond 16,385, or one that is about as large as an entry may be.
fn number(random: &mut Random) -> f64 {
    let bits = random.below(16);
    let size = match random.below(4) {
        0 => random.between(16_380, 16_390),
        _ => random.between(0, (1 << bits) - 1),
    };
    let number = if random.one_in(2) { -size } else { size };
    number as f64
}

/// The bits of a float from 2^−60 up to beyond 4, without its sign.
fn plain(random: &mut Random) -> u64 {
    let most = random.choose(&[4, 16, 63]);
    let exponent = EXPONENT_OF_1 + 2 - random.below(most) as u64;
    exponent << DIGIT_BITS | digits(random)
}

/// The bits of a power of two, without its sign. Those of subnormals have exponent 0.
fn power(random: &mut Random) -> u64 {
    match random.below(4) {
        0 => 1 << random.below(DIGIT_BITS as usize),
        1 => (EXPONENT_OF_1 - 15 + random.below(20) as u64) << DIGIT_BITS,
        _ => (1 + random.below(LAST_EXPONENT as usize - 1) as u64) << DIGIT_BITS,
    }
}

/// Digits behind the first, any of them or only some in front or at the end.
fn digits(random: &mut Random) -> u64 {
    let digits = random.next_bits() >> (u64::BITS - DIGIT_BITS);
    let cut = random.below(DIGIT_BITS as usize);
    match random.below(3) {
        0 => digits,
        1 => digits >> cut,
        _ => digits >> cut << cut,
    }
}
