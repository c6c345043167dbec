//! Tapes, plans and multipliers of every length, tapes with a command too few or too many, tapes
//! whose floor meets the ceiling, and inputs of the slip program around its buffer's end.

use std::collections::BTreeMap;

use reference::generate::commands::of_furnace;
use reference::generate::furnaces::{limits, plain};
use reference::generate::{lent, Lent, Random};
use reference::model::Furnace;
use reference::tape::{
    operand_bytes, BANDED_SEARCH, MOST_INPUTS, MOST_STATES, MOST_STEPS, NUMBER_RANGE, SEARCH,
};

use crate::calls::{Call, Lending};
use crate::comparison::{
    Comparison, EQUAL, MULTIPLIER_LENGTHS, PLACES, PLAN_LENGTHS, TAPE_LENGTHS,
};

/// The seed of everything here.
const SEED: u64 = 8;

/// Lengths of tapes go this far beyond the longest accepted one.
const BEYOND: usize = 100;

/// The longest accepted tape.
const LONGEST: usize = 1_064;

/// The commands of a tape of the longest length: every place is given.
fn longest(random: &mut Random) -> Vec<Vec<u8>> {
    loop {
        let mut furnace = limits(random);
        put_curves(&mut furnace, random);
        let commands = of_furnace(&furnace, random);
        let length: usize = commands.iter().map(Vec::len).sum();
        if length == LONGEST && furnace.rounds <= 10 {
            return commands;
        }
    }
}

/// Gives every column a curve.
pub fn put_curves(furnace: &mut Furnace, random: &mut Random) {
    for curve in &mut furnace.curves {
        let steps = 0..furnace.horizon;
        let references = steps.map(|_| random.between(-NUMBER_RANGE, NUMBER_RANGE));
        *curve = Some(references.collect());
    }
}

/// The commands with a 51 in place of the 50.
fn banded(commands: &[Vec<u8>]) -> Vec<Vec<u8>> {
    let mut commands = commands.to_vec();
    for command in &mut commands {
        if command[0] == SEARCH {
            command[0] = BANDED_SEARCH;
        }
    }
    commands
}

/// A plan and multipliers for the longest tape.
fn longest_lent(random: &mut Random) -> Lent {
    lent::any_values(
        MOST_STEPS * (MOST_STATES + MOST_INPUTS),
        MOST_STEPS * MOST_STATES,
        random,
    )
}

/// All calls on tapes of every length from 0 to beyond the longest: the fronts of a longest tape
/// that goes on behind its end, with command 50 and with 51, and noise.
pub fn add_tapes(comparison: &mut Comparison) {
    let mut random = Random::new(SEED);
    let commands = longest(&mut random);
    let behind: Vec<u8> = (0..2 * BEYOND).map(|_| random.byte()).collect();
    let bytes = [&commands.concat()[..], &behind].concat();
    let banded = [&banded(&commands).concat()[..], &behind].concat();
    let noise: Vec<u8> = (0..bytes.len()).map(|_| random.byte()).collect();
    let sized_noise = [&bytes[..4], &noise].concat();
    let lent = longest_lent(&mut random);
    for bytes in [bytes, banded, noise, sized_noise] {
        for length in 0..=LONGEST + BEYOND {
            let (tape, behind) = bytes.split_at(length);
            for call in Call::ALL {
                let lending = Lending {
                    behind,
                    ..Lending::new(TAPE_LENGTHS, tape, &lent.plan, &lent.multipliers)
                };
                comparison.also(call, &lending);
            }
            if comparison.ends() {
                return;
            }
        }
    }
}

/// All calls on the longest tape with a command changed, each of them in turn: left out, given once
/// more before FF, and alone of those that begin as it does, so that a curve has one step only. Once
/// with command 50, and once with 51.
pub fn add_places(comparison: &mut Comparison) {
    let mut random = Random::new(SEED);
    let commands = longest(&mut random);
    let lent = longest_lent(&mut random);
    for commands in [banded(&commands), commands] {
        for place in 0..commands.len() {
            for tape in [
                left_out(&commands, place),
                given_again(&commands, place),
                alone(&commands, place),
            ] {
                for call in Call::ALL {
                    let lending = Lending::new(PLACES, &tape, &lent.plan, &lent.multipliers);
                    comparison.also(call, &lending);
                }
            }
            if comparison.ends() {
                return;
            }
        }
    }
}

/// The tape without a command.
fn left_out(commands: &[Vec<u8>], place: usize) -> Vec<u8> {
    [&commands[..place], &commands[place + 1..]]
        .concat()
        .concat()
}

/// The tape with a command once more before its last one.
fn given_again(commands: &[Vec<u8>], place: usize) -> Vec<u8> {
    let (end, front) = commands.split_last().expect("a tape has commands");
    [front.concat(), commands[place].clone(), end.clone()].concat()
}

/// The tape without the other commands of the same byte and the same first operand.
fn alone(commands: &[Vec<u8>], place: usize) -> Vec<u8> {
    let begin = commands[place].get(..2);
    let kept = |other: &usize| *other == place || commands[*other].get(..2) != begin;
    let kept = (0..commands.len()).filter(kept);
    kept.flat_map(|other| commands[other].clone()).collect()
}

/// A furnace of each of the sizes, with few rounds.
pub fn of_all_sizes(random: &mut Random) -> Vec<Furnace> {
    let mut all = BTreeMap::new();
    while all.len() < MOST_STATES * MOST_INPUTS * MOST_STEPS {
        let mut furnace = plain(random);
        furnace.rounds = 1 + random.below(3) as u32;
        all.insert((furnace.states, furnace.inputs, furnace.horizon), furnace);
    }
    all.into_values().collect()
}

/// Tapes of all sizes with plans and multipliers of every length, from 0 to beyond the longest,
/// the other slice having its right length.
pub fn add_slices(comparison: &mut Comparison) {
    let mut random = Random::new(SEED);
    for furnace in of_all_sizes(&mut random) {
        let tape = of_furnace(&furnace, &mut random).concat();
        let (plan, multipliers) = (furnace.plan_length(), furnace.multipliers_length());
        for length in 0..=MOST_STEPS * (MOST_STATES + MOST_INPUTS) + 1 {
            let lent = lent::any_values(length, multipliers, &mut random);
            for call in [
                Call::JudgePlan,
                Call::JudgeReport,
                Call::Ranges,
                Call::Solve,
            ] {
                let lending = Lending::new(PLAN_LENGTHS, &tape, &lent.plan, &lent.multipliers);
                comparison.also(call, &lending);
            }
        }
        for length in 0..=MOST_STEPS * MOST_STATES + 1 {
            let lent = lent::any_values(plan, length, &mut random);
            for call in [
                Call::JudgePlan,
                Call::JudgeReport,
                Call::Ranges,
                Call::JudgeMultipliers,
                Call::Solve,
            ] {
                let lending =
                    Lending::new(MULTIPLIER_LENGTHS, &tape, &lent.plan, &lent.multipliers);
                comparison.also(call, &lending);
            }
        }
        if comparison.ends() {
            return;
        }
    }
}

/// Tapes of all sizes with both limits at the reference. The ceiling is 0, and so is the floor of
/// multipliers that are 0: they do not show impossibility, neither lent nor in round 0.
pub fn add_equal(comparison: &mut Comparison) {
    let mut random = Random::new(SEED);
    for mut furnace in of_all_sizes(&mut random) {
        put_limits_at_references(&mut furnace, &mut random);
        let tape = of_furnace(&furnace, &mut random).concat();
        let plan = vec![0; furnace.plan_length()];
        let multipliers = vec![0; furnace.multipliers_length()];
        for call in [Call::JudgeMultipliers, Call::Solve] {
            let lending = Lending::new(EQUAL, &tape, &plan, &multipliers);
            comparison.also(call, &lending);
        }
    }
}

/// Puts both limits of each column at its reference. Some columns get it by a curve, which is flat,
/// and have another r.
fn put_limits_at_references(furnace: &mut Furnace, random: &mut Random) {
    for (column, curve) in furnace.columns.iter_mut().zip(&mut furnace.curves) {
        let reference = column.reference;
        (column.lo, column.hi) = (reference, reference);
        *curve = None;
        if random.one_in(2) {
            *curve = Some(vec![reference; furnace.horizon]);
            column.reference = random.between(-NUMBER_RANGE, NUMBER_RANGE);
        }
    }
}

/// Inputs that no generated tape has: empty, far longer than any tape, in parts, and a longest
/// tape without FF with whatever may follow it.
pub fn add_slips(comparison: &mut Comparison) {
    let mut random = Random::new(SEED);
    let commands = longest(&mut random);
    let tape = commands.concat();
    let noise: Vec<u8> = (0..1_000_000).map(|_| random.byte()).collect();
    comparison.print(&[]);
    comparison.print(&[&tape]);
    comparison.print(&[&noise]);
    for length in 1..=20 {
        comparison.print(&[&tape, &noise[..length]]);
        comparison.print(&[&tape[..50 * length], &tape[50 * length..]]);
    }
    comparison.print(&[&tape, &noise]);
    let open_end = &tape[..LONGEST - 1];
    for follows in following(&commands) {
        for length in 0..=follows.len() {
            comparison.print(&[&[open_end, &follows[..length]].concat()]);
        }
        for behind in [0x00, 0xff] {
            for count in [1, 2, 8, 9, 1_200, 100_000] {
                comparison.print(&[&[open_end, &follows, &vec![behind; count]].concat()]);
            }
        }
    }
}

/// One command of each kind that the tape has, a 51, and bytes that are no command. Commands 50 and 51
/// are the longest that can follow, with 9 bytes.
fn following(commands: &[Vec<u8>]) -> Vec<Vec<u8>> {
    let mut kinds: BTreeMap<u8, Vec<u8>> = BTreeMap::new();
    for command in [commands, &banded(commands)].concat() {
        kinds.entry(command[0]).or_insert(command);
    }
    let unknown = (0..=255).filter(|byte| operand_bytes(*byte).is_none());
    kinds.extend(unknown.step_by(50).map(|byte| (byte, vec![byte])));
    kinds.into_values().collect()
}

#[cfg(test)]
mod tests {
    use reference::tape::STEP_REFERENCE;
    use reference::{read, Refusal};

    use super::*;

    #[test]
    fn the_longest_tape_is_accepted_at_its_length_alone() {
        let tape = longest(&mut Random::new(SEED)).concat();
        assert_eq!(tape.len(), fibergravel::MOST_TAPE);
        assert!(read(&tape).is_ok());
        let (cut, longer) = (&tape[..LONGEST - 1], [&tape[..], &[0xff]].concat());
        assert_eq!(read(cut), Err(Refusal::Cut { offset: 1_063 }));
        assert_eq!(read(&longer), Err(Refusal::Overrun { offset: 1_064 }));
    }

    #[test]
    fn a_curve_lacks_a_step_or_has_one_only() {
        let commands = longest(&mut Random::new(SEED));
        let place = commands.iter().position(|c| c[0] == STEP_REFERENCE);
        let place = place.expect("the longest tape has curves");
        let absent = |offset| Err(Refusal::Absent { offset });
        assert_eq!(read(&left_out(&commands, place)), absent(1_063 - 5));
        assert_eq!(read(&alone(&commands, place)), absent(1_063 - 11 * 5));
        let twice = Err(Refusal::Twice { offset: 1_063 });
        assert_eq!(read(&given_again(&commands, place)), twice);
    }

    #[test]
    fn a_second_50_or_51_after_the_longest_tape() {
        let commands = longest(&mut Random::new(SEED));
        for byte in [SEARCH, BANDED_SEARCH] {
            let mut tape = commands.concat();
            assert_eq!(tape.pop(), Some(0xff));
            let again = following(&commands).into_iter().find(|c| c[0] == byte);
            tape.extend(again.expect("both follow"));
            assert_eq!(tape.len(), 1_072);
            assert_eq!(reference::slip(&tape), "refused 6 at 1063\n");
            assert_eq!(reference::slip(&tape[..1_071]), "refused 1 at 1063\n");
        }
    }

    #[test]
    fn the_longest_tape_may_have_a_51() {
        let commands = longest(&mut Random::new(SEED));
        let tape = banded(&commands).concat();
        assert_eq!(tape.len(), LONGEST);
        assert_eq!(reference::read_step(&tape), Ok(1));
        assert_eq!(reference::read_step(&commands.concat()), Ok(0));
    }
}
