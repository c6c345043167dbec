//! A furnace written as tape commands.

use super::random::Random;
use crate::model::{Column, Correction, Furnace, Whole};
use crate::tape::{
    BANDED_SEARCH, COLUMN, DRIFT, END, INPUT_ENTRY, SEARCH, SIZE, START, STATE_ENTRY,
    STEP_REFERENCE,
};

/// One command: its byte and its operands.
pub type Command = Vec<u8>;

/// The low `width` bytes of a number, low byte first.
pub fn operand(value: Whole, width: usize) -> Vec<u8> {
    value.to_le_bytes()[..width].to_vec()
}

/// Command 10.
pub fn size(states: usize, inputs: usize, horizon: usize) -> Command {
    vec![SIZE, states as u8, inputs as u8, horizon as u8]
}

/// Command 20.
pub fn state_entry(i: usize, j: usize, value: Whole) -> Command {
    [vec![STATE_ENTRY, i as u8, j as u8], operand(value, 2)].concat()
}

/// Command 21.
pub fn input_entry(i: usize, j: usize, value: Whole) -> Command {
    [vec![INPUT_ENTRY, i as u8, j as u8], operand(value, 2)].concat()
}

/// Command 22.
pub fn drift(i: usize, value: Whole) -> Command {
    [vec![DRIFT, i as u8], operand(value, 4)].concat()
}

/// Command 30.
pub fn column(place: usize, column: &Column) -> Command {
    [
        vec![COLUMN, place as u8],
        operand(column.lo, 2),
        operand(column.hi, 2),
        operand(column.reference, 2),
        operand(column.weight, 1),
    ]
    .concat()
}

/// Command 31.
pub fn step_reference(column: usize, k: usize, value: Whole) -> Command {
    [
        vec![STEP_REFERENCE, column as u8, k as u8],
        operand(value, 2),
    ]
    .concat()
}

/// Command 40.
pub fn start(i: usize, value: Whole) -> Command {
    [vec![START, i as u8], operand(value, 2)].concat()
}

/// Command 50.
pub fn search(step_size: Whole, rounds: Whole, wanted_gap: Whole) -> Command {
    search_with(Correction::Gain, step_size, rounds, wanted_gap)
}

/// The byte of the command, 50 or 51, that asks for a correction.
pub fn search_byte(correction: Correction) -> u8 {
    match correction {
        Correction::Gain => SEARCH,
        Correction::Banded => BANDED_SEARCH,
    }
}

/// Command 50 or 51.
pub fn search_with(
    correction: Correction,
    step_size: Whole,
    rounds: Whole,
    wanted_gap: Whole,
) -> Command {
    [
        vec![search_byte(correction)],
        operand(step_size, 2),
        operand(rounds, 2),
        operand(wanted_gap, 4),
    ]
    .concat()
}

/// The furnace's commands: 10 first, FF last, the others in random order. Most entries of A, B
/// and w that are 0 stay absent; some are given as 0.
pub fn of_furnace(furnace: &Furnace, random: &mut Random) -> Vec<Command> {
    let mut middle = Vec::new();
    let zeros_one_in = random.choose(&[1, 4, 1000]);
    let mut entry = |value: Whole, command: Command, random: &mut Random| {
        if value != 0 || random.one_in(zeros_one_in) {
            middle.push(command);
        }
    };
    for i in 0..furnace.states {
        for j in 0..furnace.states {
            entry(furnace.a[i][j], state_entry(i, j, furnace.a[i][j]), random);
        }
        for j in 0..furnace.inputs {
            entry(furnace.b[i][j], input_entry(i, j, furnace.b[i][j]), random);
        }
        entry(furnace.drift[i], drift(i, furnace.drift[i]), random);
    }
    for (place, values) in furnace.columns.iter().enumerate() {
        middle.push(column(place, values));
    }
    for (place, curve) in furnace.curves.iter().enumerate() {
        for (k, value) in curve.iter().flatten().enumerate() {
            middle.push(step_reference(place, k, *value));
        }
    }
    for (i, value) in furnace.start.iter().enumerate() {
        middle.push(start(i, *value));
    }
    let rounds = Whole::from(furnace.rounds);
    let (step_size, wanted_gap) = (furnace.step_size, furnace.wanted_gap);
    middle.push(search_with(
        furnace.correction,
        step_size,
        rounds,
        wanted_gap,
    ));
    random.shuffle(&mut middle);
    let mut commands = vec![size(furnace.states, furnace.inputs, furnace.horizon)];
    commands.append(&mut middle);
    commands.push(vec![END]);
    commands
}
