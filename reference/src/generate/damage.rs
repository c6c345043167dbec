//! Damaged tapes and noise.

use super::commands::{operand, step_reference, Command};
use super::random::Random;
use crate::tape::{
    operand_bytes, BANDED_SEARCH, COLUMN, DRIFT, INPUT_ENTRY, SEARCH, SIZE, START, STATE_ENTRY,
    STEP_REFERENCE,
};

/// All command bytes but FF.
const COMMANDS: [u8; 9] = [
    SIZE,
    STATE_ENTRY,
    INPUT_ENTRY,
    DRIFT,
    COLUMN,
    STEP_REFERENCE,
    START,
    SEARCH,
    BANDED_SEARCH,
];

/// The tape of the commands with one or two damages.
pub fn damaged(mut commands: Vec<Command>, random: &mut Random) -> Vec<u8> {
    let damages = random.choose(&[1, 1, 2]);
    for _ in 0..damages {
        damage_commands(&mut commands, random);
    }
    let mut tape = commands.concat();
    match random.below(6) {
        0 => tape.truncate(random.below(tape.len() + 1)),
        1 => flip_bit(&mut tape, random),
        2 => {
            for _ in 0..random.choose(&[1, 1, 2, 9, 60]) {
                tape.push(random.byte());
            }
        }
        _ => (),
    }
    tape
}

/// One damage to a list of commands that is not empty. What is inserted stands before the last
/// command, which is FF unless it was moved or removed.
fn damage_commands(commands: &mut Vec<Command>, random: &mut Random) {
    let some = random.below(commands.len());
    let before_end = random.below(commands.len());
    match random.below(14) {
        0 => commands.insert(before_end, commands[some].clone()),
        1 => {
            // The same place with another value, or another place.
            let mut copy = commands[some].clone();
            if random.one_in(2) {
                flip_bit(&mut copy, random);
            } else {
                extreme_operand(&mut copy, random);
            }
            commands.insert(before_end, copy);
        }
        2 => commands.swap(some, before_end),
        3 => {
            if commands.len() > 1 {
                commands.remove(some);
            }
        }
        4 => {
            let unknown = random.choose(&[0x00, 0x11, 0x23, 0x32, 0x52, 0xfe, 0x80]);
            commands.insert(before_end, vec![unknown]);
        }
        5 => flip_bit(&mut commands[some], random),
        6..=8 => damage_steps(commands, random),
        9..=11 => damage_search(commands, random),
        _ => {
            // Several in one command, so that two refusals meet in it.
            for _ in 0..random.choose(&[1, 1, 4]) {
                extreme_operand(&mut commands[some], random);
            }
        }
    }
}

/// One damage to the references of steps. A tape without any gets one, which is too few unless it
/// has one step.
fn damage_steps(commands: &mut Vec<Command>, random: &mut Random) {
    let before_end = random.below(commands.len());
    let whole = |command: &Command| command[0] == STEP_REFERENCE && command.len() == 5;
    let places: Vec<usize> = (0..commands.len())
        .filter(|place| whole(&commands[*place]))
        .collect();
    if places.is_empty() {
        let command = step_reference(random.below(2), 0, random.between(-100, 100));
        commands.insert(before_end, command);
        return;
    }
    let some = random.choose(&places);
    let mut copy = commands[some].clone();
    match random.below(5) {
        // One step short.
        0 => {
            commands.remove(some);
        }
        // Twice, with the same reference or another one.
        1 => {
            copy[3] ^= random.choose(&[0, 1]);
            commands.insert(before_end, copy);
        }
        // A column or a step too many.
        2 => {
            if let Some([SIZE, states, inputs, horizon]) = commands.first().map(Vec::as_slice) {
                let column = states.wrapping_add(*inputs);
                (copy[1], copy[2]) = random.choose(&[(column, copy[2]), (copy[1], *horizon)]);
            }
            commands.insert(before_end, copy);
        }
        _ => extreme_operand(&mut commands[some], random),
    }
}

/// One damage to the command 50 or 51, or to the weights that a 51 asks for.
fn damage_search(commands: &mut Vec<Command>, random: &mut Random) {
    let before_end = random.below(commands.len());
    let Some(place) = any_of(commands, &[SEARCH, BANDED_SEARCH], random) else {
        return;
    };
    match random.below(5) {
        // Either after either.
        0 | 1 => {
            let mut copy = commands[place].clone();
            copy[0] = random.choose(&[SEARCH, BANDED_SEARCH]);
            commands.insert(before_end, copy);
        }
        // Neither.
        2 => {
            commands.remove(place);
        }
        // A weight of 0 with a 51: alone, with a byte behind FF, or with a required place missing.
        _ => {
            commands[place][0] = BANDED_SEARCH;
            if let Some(column) = any_of(commands, &[COLUMN], random) {
                commands[column][8] = 0;
            }
            match random.below(3) {
                0 => (),
                1 => commands.push(vec![random.byte()]),
                _ => {
                    if let Some(required) = any_of(commands, &[START, COLUMN], random) {
                        commands.remove(required);
                    }
                }
            }
        }
    }
}

/// The place of one of the whole commands with one of these bytes, if there is any.
fn any_of(commands: &[Command], bytes: &[u8], random: &mut Random) -> Option<usize> {
    let is_whole = |command: &Command| operand_bytes(command[0]) == Some(command.len() - 1);
    let is_one = |place: &usize| {
        let command = &commands[*place];
        bytes.contains(&command[0]) && is_whole(command)
    };
    let places: Vec<usize> = (0..commands.len()).filter(is_one).collect();
    (!places.is_empty()).then(|| random.choose(&places))
}

/// Inverts one bit.
fn flip_bit(bytes: &mut [u8], random: &mut Random) {
    if !bytes.is_empty() {
        let place = random.below(bytes.len());
        bytes[place] ^= 1 << random.below(8);
    }
}

/// Replaces one operand by a number at or just past an end of its range.
fn extreme_operand(command: &mut Command, random: &mut Random) {
    let (place, bytes) = match command[0] {
        SIZE => (
            1 + random.below(3),
            operand(random.choose(&[0, 1, 4, 5, 6, 7, 12, 13, 255]), 1),
        ),
        STATE_ENTRY | INPUT_ENTRY if random.one_in(2) => (
            1 + random.below(2),
            operand(random.choose(&[0, 1, 3, 4, 5, 6, 255]), 1),
        ),
        STATE_ENTRY | INPUT_ENTRY => {
            let value = random.choose(&[16_384, 16_385, -16_384, -16_385, 32_767, -32_768]);
            (3, operand(value, 2))
        }
        STEP_REFERENCE if random.one_in(2) => (
            1 + random.below(2),
            operand(random.choose(&[0, 1, 5, 6, 9, 10, 11, 12, 13, 255]), 1),
        ),
        DRIFT | COLUMN | START if random.one_in(3) => {
            (1, operand(random.choose(&[0, 1, 5, 6, 9, 10, 255]), 1))
        }
        DRIFT => {
            let value = random.choose(&[
                16_777_216,
                16_777_217,
                -16_777_216,
                -16_777_217,
                0x7fff_ffff,
                -0x8000_0000,
            ]);
            (2, operand(value, 4))
        }
        COLUMN if random.one_in(4) => (8, operand(random.choose(&[0, 1, 255]), 1)),
        COLUMN | STEP_REFERENCE | START => {
            let value = random.choose(&[20_000, 20_001, -20_000, -20_001, 32_767, -32_768]);
            let places: &[usize] = match command[0] {
                START => &[2],
                STEP_REFERENCE => &[3],
                _ => &[2, 4, 6],
            };
            (random.choose(places), operand(value, 2))
        }
        SEARCH | BANDED_SEARCH => match random.below(4) {
            0 => (1, operand(random.choose(&[0, 1, 65_535]), 2)),
            1 | 2 => (
                3,
                operand(random.choose(&[0, 1, 10_001, 32_768, 65_535]), 2),
            ),
            _ => (5, operand(random.choose(&[0, 0x7fff_ffff, 0xffff_ffff]), 4)),
        },
        _ => return,
    };
    // A command that was damaged before may be of another kind now, and too short.
    if place + bytes.len() <= command.len() {
        command[place..place + bytes.len()].copy_from_slice(&bytes);
    }
}

/// Bytes that are hardly a tape, of lengths from 0 to beyond the longest tape.
pub fn noise(random: &mut Random) -> Vec<u8> {
    let length = match random.below(4) {
        0 => random.below(12),
        1 => random.below(100),
        2 => random.below(480),
        _ => 1_000 + random.below(200),
    };
    let mut bytes = Vec::new();
    match random.below(3) {
        0 => (),
        1 => bytes.extend([SIZE, 6, 4, 12]),
        _ => {
            bytes.push(SIZE);
            for _ in 0..3 {
                bytes.push(1 + random.byte() % 4);
            }
        }
    }
    let commands_only = random.one_in(2);
    while bytes.len() < length {
        if commands_only {
            let command = random.choose(&COMMANDS);
            bytes.push(command);
            for _ in 0..operand_bytes(command).unwrap_or(0) {
                bytes.push(random.byte() % 8);
            }
        } else {
            bytes.push(random.byte());
        }
    }
    bytes.truncate(length);
    bytes
}
