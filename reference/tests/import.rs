//! Entries and models in floats: figures worked out by hand, and the same by other ways.

mod tapes;

use std::collections::BTreeSet;

use reference::generate::entries::moved;
use reference::generate::models::tape_with;
use reference::*;
use tapes::*;

/// The entry a with this 4096 × a. A power of two changes no digit.
fn entry_of(scaled: f64) -> f64 {
    scaled / 4096.0
}

#[track_caller]
fn whole(entry: f64, number: Whole) {
    assert_eq!(import_entry(entry), Ok(Entry::Whole(number)));
}

/// Near the number, with the leftover's bits.
#[track_caller]
fn near(entry: f64, number: Whole, leftover: f64) {
    let Ok(Entry::Near {
        number: found,
        leftover: left,
    }) = import_entry(entry)
    else {
        panic!("{entry:e}: {:?}", import_entry(entry));
    };
    assert_eq!((found, left.to_bits()), (number, leftover.to_bits()));
}

#[track_caller]
fn not_finite(bits: u64) {
    let refusal = Refusal::NotFinite { entry: None };
    assert_eq!(import_entry(f64::from_bits(bits)), Err(refusal));
}

#[track_caller]
fn too_large(entry: f64) {
    assert_eq!(import_entry(entry), Err(Refusal::TooLarge { entry: None }));
}

#[test]
fn whole_entries() {
    whole(1.0, 4096);
    whole(-1.0, -4096);
    whole(0.5, 2048);
    whole(entry_of(1.0), 1);
    whole(entry_of(-1.0), -1);
    whole(4.0, 16_384);
    whole(-4.0, -16_384);
    whole(0.0, 0);
    whole(-0.0, 0);
}

#[test]
fn halves_go_upward() {
    near(entry_of(0.5), 1, -0.5);
    near(entry_of(-0.5), 0, -0.5);
    near(entry_of(1.5), 2, -0.5);
    near(entry_of(-1.5), -1, -0.5);
    near(entry_of(16_383.5), 16_384, -0.5);
    near(entry_of(-16_383.5), -16_383, -0.5);
}

#[test]
fn floats_beside_a_half() {
    // The largest float below 1/2 is 1/2 − 2^−54. With 1/2 added in floats it would be 1.
    let below = f64::from_bits(0x3fdf_ffff_ffff_ffff);
    assert_eq!(below + 0.5, 1.0);
    near(entry_of(below), 0, below);
    near(entry_of(-below), 0, -below);
    // The next above 1/2 is 1/2 + 2^−53, which lies 1/2 − 2^−53 below 1.
    let above = f64::from_bits(0x3fe0_0000_0000_0001);
    let rest = f64::from_bits(0x3fdf_ffff_ffff_fffe);
    near(entry_of(above), 1, -rest);
    near(entry_of(-above), -1, rest);
}

#[test]
fn the_ends_of_the_range() {
    // Floats from 8,192 to 16,384 lie 2^−39 apart, those from there to 32,768 lie 2^−38 apart.
    let step = 2.0_f64.powi(-38);
    too_large(entry_of(16_384.5));
    too_large(entry_of(16_384.5 + step));
    near(entry_of(16_384.5 - step), 16_384, 0.5 - step);
    near(entry_of(16_384.0 + step), 16_384, step);
    near(entry_of(16_384.0 - step / 2.0), 16_384, -step / 2.0);
    near(entry_of(-16_384.5), -16_384, -0.5);
    near(entry_of(-16_384.5 + step), -16_384, -0.5 + step);
    too_large(entry_of(-16_384.5 - step));
    too_large(entry_of(16_385.0));
    too_large(entry_of(-16_385.0));
}

#[test]
fn too_large_without_bound() {
    for entry in [
        5.0,
        2.0_f64.powi(40),
        2.0_f64.powi(41),
        1e18,
        1e305,
        f64::MAX,
    ] {
        too_large(entry);
        too_large(-entry);
    }
    // All digits, and none behind the point: 2^53 − 1 and 2^54 − 2.
    too_large(entry_of(9_007_199_254_740_991.0));
    too_large(entry_of(18_014_398_509_481_982.0));
    // 4096 times this one is no float.
    assert_eq!(1e305 * 4096.0, f64::INFINITY);
}

#[test]
fn tiny_entries() {
    let least = f64::from_bits(1);
    near(least, 0, f64::from_bits(4096));
    near(-least, 0, -f64::from_bits(4096));
    near(f64::MIN_POSITIVE, 0, 2.0_f64.powi(-1010));
    near(-f64::MIN_POSITIVE, 0, -(2.0_f64.powi(-1010)));
    // The largest subnormal, (2^52 − 1) × 2^−1074: 12 powers more and the same digits.
    let subnormal = f64::from_bits(0x000f_ffff_ffff_ffff);
    near(subnormal, 0, f64::from_bits(0x00cf_ffff_ffff_fffe));
    // The leftover is subnormal up to 2^−1034.
    near(f64::from_bits(1 << 39), 0, f64::from_bits(1 << 51));
    near(f64::from_bits(1 << 40), 0, f64::MIN_POSITIVE);
    near(1e-300, 0, 4096.0 * 1e-300);
}

#[test]
fn infinite_or_not_a_number() {
    for sign in [0, 1 << 63] {
        // An infinity; quiet and signalling ones that are not numbers, with the least and the most
        // of digits.
        for bits in [
            0x7ff0_0000_0000_0000,
            0x7ff8_0000_0000_0000,
            0x7fff_ffff_ffff_ffff,
            0x7ff0_0000_0000_0001,
            0x7ff7_ffff_ffff_ffff,
        ] {
            not_finite(sign | bits);
        }
        too_large(f64::from_bits(sign | 0x7fef_ffff_ffff_ffff));
    }
}

/// Numbers around every power of two up to beyond the range, of both signs.
fn numbers() -> BTreeSet<i64> {
    let around = |power: u32| (-3..=3).map(move |distance| (1 << power) + distance);
    let sizes = (0..17).flat_map(around);
    sizes.flat_map(|size| [size, -size]).collect()
}

/// Checks (digits / 2^halvings) / 4096 by whole numbers. The digits are below 2^53 in size.
#[track_caller]
fn check_fraction(digits: i64, halvings: u32) {
    let unit = (1_u64 << halvings) as f64;
    let entry = entry_of(digits as f64 / unit);
    let (digits, unit) = (Whole::from(digits), 1 << halvings);
    match import_entry(entry) {
        Ok(imported) => {
            let number = imported.number();
            // number − 1/2 ≤ digits / unit < number + 1/2, times 2 × unit.
            assert!((2 * number - 1) * unit <= 2 * digits);
            assert!(2 * digits < (2 * number + 1) * unit);
            assert!((-16_384..=16_384).contains(&number));
            let left = digits - number * unit;
            match imported {
                Entry::Whole(_) => assert_eq!(left, 0),
                Entry::Near { leftover, .. } => {
                    assert_ne!(left, 0);
                    let expected = left as f64 / unit as f64;
                    assert_eq!(leftover.to_bits(), expected.to_bits());
                }
            }
        }
        Err(refusal) => {
            assert_eq!(refusal, Refusal::TooLarge { entry: None });
            let beyond = 2 * digits >= 32_769 * unit || 2 * digits < -32_769 * unit;
            assert!(beyond);
        }
    }
}

#[test]
fn halves_and_wholes_near_every_power_of_two() {
    for number in numbers() {
        for halves in [2 * number, 2 * number + 1] {
            // The half and its neighbours, cut at every digit that a float of this size may have.
            let bits = 64 - halves.unsigned_abs().leading_zeros();
            for halvings in 1..=53 - bits {
                for distance in -2..=2 {
                    let digits = (halves << (halvings - 1)) + distance;
                    if digits.unsigned_abs() < 1 << 53 {
                        check_fraction(digits, halvings);
                    }
                }
            }
        }
    }
}

/// The number and the leftover by floats, for sizes far below 2^52.
fn by_floats(entry: f64) -> (Whole, f64) {
    let value = 4096.0 * entry;
    let below = value.floor();
    let number = if value - below < 0.5 {
        below
    } else {
        below + 1.0
    };
    (number as Whole, value - number)
}

#[test]
fn generated_entries_by_floats() {
    let mut accepted = 0;
    for seed in 0..4_000 {
        for generated in generate::entries(seed) {
            let entry = generated.entry;
            match import_entry(entry) {
                Ok(imported) => {
                    let (number, leftover) = by_floats(entry);
                    let expected = match leftover == 0.0 {
                        true => Entry::Whole(number),
                        false => Entry::Near { number, leftover },
                    };
                    assert_eq!(imported, expected, "{entry:e}");
                    accepted += 1;
                }
                Err(refusal) if entry.is_finite() => {
                    assert_eq!(refusal, Refusal::TooLarge { entry: None });
                    let value = 4096.0 * entry;
                    assert!(!(-16_384.5..16_384.5).contains(&value), "{entry:e}");
                }
                Err(refusal) => assert_eq!(refusal, Refusal::NotFinite { entry: None }),
            }
        }
    }
    assert!(accepted > 100_000, "{accepted}");
}

#[test]
fn moved_by_floats() {
    assert_eq!(moved(1.0, 1), 1.0 + f64::EPSILON);
    assert_eq!(moved(-1.0, -1), -1.0 - f64::EPSILON);
    assert_eq!(moved(0.0, 1).to_bits(), 1);
    assert_eq!(moved(-0.0, -1).to_bits(), 1 << 63 | 1);
    assert_eq!(moved(f64::from_bits(2), -3).to_bits(), 1 << 63 | 1);
}

/// A model of 2 states and 1 input.
const A: [f64; 4] = [1.0, -0.5, 0.0, 4.0];
const B: [f64; 2] = [-4.0, 3e-5];

/// What [`A`] and [`B`] give: 4096, −2048, 0, 16,384, −16,384, and 0.12288, which is near 0.
const COMMANDS: [u8; 30] = [
    0x20, 0, 0, 0x00, 0x10, //
    0x20, 0, 1, 0x00, 0xf8, //
    0x20, 1, 0, 0x00, 0x00, //
    0x20, 1, 1, 0x00, 0x40, //
    0x21, 0, 0, 0x00, 0xc0, //
    0x21, 1, 0, 0x00, 0x00,
];

#[test]
fn the_bytes_of_a_model() {
    let mut out = [7; 30];
    assert_eq!(import_model(2, 1, &A, &B, &mut out), Ok(()));
    assert_eq!(out, COMMANDS);
    // −1 and −257 in two's complement, low byte first.
    let mut out = [7; 10];
    let (a, b) = ([entry_of(-1.25)], [entry_of(-257.0)]);
    assert_eq!(import_model(1, 1, &a, &b, &mut out), Ok(()));
    assert_eq!(out, [0x20, 0, 0, 0xff, 0xff, 0x21, 0, 0, 0xff, 0xfe]);
}

/// The refusal, with `out` as it was.
#[track_caller]
fn refused(sizes: (usize, usize), a: &[f64], b: &[f64], bytes: usize, refusal: Refusal) {
    let before: Vec<u8> = (0..bytes).map(|place| place as u8).collect();
    let mut out = before.clone();
    let answer = import_model(sizes.0, sizes.1, a, b, &mut out);
    assert_eq!(answer, Err(refusal));
    assert_eq!(out, before);
}

#[test]
fn sizes_out_of_range() {
    let refusal = Refusal::ArgumentOutOfRange;
    assert_eq!((refusal.number(), refusal.carried()), (5, None));
    for sizes in [
        (0, 1),
        (1, 0),
        (0, 0),
        (7, 1),
        (1, 5),
        (7, 5),
        (257, 1),
        (usize::MAX, usize::MAX),
        (1 << 32, 1),
    ] {
        // Whatever the lengths and the entries are.
        refused(sizes, &[1.0], &[1.0], 10, refusal);
        refused(sizes, &[f64::NAN], &[], 0, refusal);
        refused(sizes, &[], &[], 0, refusal);
    }
    refused((7, 4), &[1.0; 49], &[1.0; 28], 385, refusal);
    refused((6, 5), &[1.0; 36], &[1.0; 30], 330, refusal);
}

#[test]
fn lengths() {
    let all = [1.0; 40];
    let mut out = [7; 300];
    assert_eq!(import_model(6, 4, &all[..36], &all[..24], &mut out), Ok(()));
    for states in 1..=6 {
        for inputs in 1..=4 {
            let (of_a, of_b) = (states * states, states * inputs);
            let bytes = 5 * (of_a + of_b);
            let refused = |a: usize, b: usize, bytes| {
                let sizes = (states, inputs);
                refused(sizes, &all[..a], &all[..b], bytes, Refusal::Length);
                // Before the entries' refusals.
                refused(
                    sizes,
                    &[f64::NAN; 40][..a],
                    &[1e9; 40][..b],
                    bytes,
                    Refusal::Length,
                );
            };
            refused(of_a - 1, of_b, bytes);
            refused(of_a + 1, of_b, bytes);
            refused(of_a, of_b - 1, bytes);
            refused(of_a, of_b + 1, bytes);
            refused(of_a, of_b, bytes - 1);
            refused(of_a, of_b, bytes + 1);
            refused(0, of_b, bytes);
            refused(of_a, 0, bytes);
            refused(of_a, of_b, 0);
            // As many in all.
            refused(of_a - 1, of_b + 1, bytes);
        }
    }
}

#[test]
fn faulty_entries_by_count() {
    let inf = f64::INFINITY;
    for count in 0..6 {
        let mut entries = [A.as_slice(), &B].concat();
        let entry = Some(count);
        for (fault, refusal) in [
            (f64::NAN, Refusal::NotFinite { entry }),
            (-inf, Refusal::NotFinite { entry }),
            (-1e300, Refusal::TooLarge { entry }),
            (entry_of(16_384.5), Refusal::TooLarge { entry }),
        ] {
            entries[count] = fault;
            assert_eq!(refusal.carried(), Some(count));
            refused((2, 1), &entries[..4], &entries[4..], 30, refusal);
        }
    }
}

#[test]
fn the_first_faulty_entry_counts() {
    let (nan, large) = (f64::NAN, 5.0);
    let not_finite = |count| Refusal::NotFinite { entry: Some(count) };
    let too_large = |count| Refusal::TooLarge { entry: Some(count) };
    let ok = 1.0;
    for (a, b, refusal) in [
        ([ok, large, nan, ok], [ok, ok], too_large(1)),
        ([ok, nan, large, ok], [ok, ok], not_finite(1)),
        ([ok, ok, ok, large], [nan, nan], too_large(3)),
        ([ok, ok, ok, nan], [large, large], not_finite(3)),
        ([ok, ok, ok, ok], [large, nan], too_large(4)),
        ([ok, ok, ok, ok], [ok, nan], not_finite(5)),
        ([nan; 4], [nan; 2], not_finite(0)),
        ([large; 4], [large; 2], too_large(0)),
    ] {
        refused((2, 1), &a, &b, 30, refusal);
    }
}

#[test]
fn a_tape_with_an_imported_model() {
    // Tape F from its floats.
    let mut out = [7; 10];
    assert_eq!(import_model(1, 1, &[1.0], &[0.5], &mut out), Ok(()));
    let f = tape_f();
    assert_eq!([&f[..4], &out, &f[14..]].concat(), f);
    // Two states and one input.
    let furnace = read(&tape_with(2, 1, &COMMANDS)).unwrap();
    assert_eq!(furnace.a, [[4096, -2048], [0, 16_384]]);
    assert_eq!(furnace.b, [[-16_384], [0]]);
}

#[test]
fn a_generated_model_is_read_with_its_numbers() {
    let mut written = 0;
    for seed in 0..2_000 {
        for model in generate::models(seed) {
            let generate::Model {
                states,
                inputs,
                a,
                b,
                ..
            } = &model;
            let mut out = model.out.clone();
            if import_model(*states, *inputs, a, b, &mut out).is_err() {
                assert_eq!(out, model.out, "seed {seed}");
                continue;
            }
            let furnace = read(&tape_with(*states, *inputs, &out)).unwrap();
            for (rows, entries) in [(&furnace.a, a), (&furnace.b, b)] {
                let numbers = entries
                    .iter()
                    .map(|entry| import_entry(*entry).unwrap().number());
                assert_eq!(rows.concat(), numbers.collect::<Vec<_>>(), "seed {seed}");
            }
            written += 1;
        }
    }
    assert!(written > 1_000, "{written}");
}
