//! Tapes that several tests use, and their rounds.
#![allow(dead_code)]

use reference::cases::bytes;
use reference::generate::commands::{self, Command};
use reference::model::Column;
use reference::rounds::Round;
use reference::{read, solve_traced};

/// Document 01's tape F up to its command 50.
pub const F_FRONT: &str = "10 01 01 01  20 00 00 00 10  21 00 00 00 08 \
    30 00 18 FC E8 03 6E 00 01  30 01 00 00 28 00 00 00 01  40 00 64 00";

/// F with state limits 200 to 300 and r 250, up to its command 50 (M9 and M10).
pub const M9_FRONT: &str = "10 01 01 01  20 00 00 00 10  21 00 00 00 08 \
    30 00 C8 00 2C 01 FA 00 01  30 01 00 00 28 00 00 00 01  40 00 64 00";

/// Two states, two inputs, two steps, up to command 50:
/// A = 4096 2048 / 0 4096, B = 4096 0 / 0 4096, w = 0 8192, x(0) = 10 20, all limits −1000 to
/// 1000, r = 20 25 0 1, h = 1 2 3 4.
pub const PAIR_FRONT: &str = "10 02 02 02 \
    20 00 00 00 10  20 00 01 00 08  20 01 01 00 10  21 00 00 00 10  21 01 01 00 10 \
    22 01 00 20 00 00 \
    30 00 18 FC E8 03 14 00 01  30 01 18 FC E8 03 19 00 02 \
    30 02 18 FC E8 03 00 00 03  30 03 18 FC E8 03 01 00 04 \
    40 00 0A 00  40 01 14 00";

/// Bytes from hexadecimal digits.
pub fn hex(text: &str) -> Vec<u8> {
    bytes(text).expect("hexadecimal digits")
}

/// A tape from its front, with command 50 and FF.
pub fn with_search(front: &str, g: u16, rounds: u16, wanted_gap: u32) -> Vec<u8> {
    let mut tape = hex(front);
    tape.push(0x50);
    tape.extend(g.to_le_bytes());
    tape.extend(rounds.to_le_bytes());
    tape.extend(wanted_gap.to_le_bytes());
    tape.push(0xff);
    tape
}

/// Tape F.
pub fn tape_f() -> Vec<u8> {
    hex(&format!("{F_FRONT} 50 19 00 05 00 40 9C 00 00 FF"))
}

/// Tape F with another T.
pub fn tape_f_gap(wanted_gap: u32) -> Vec<u8> {
    with_search(F_FRONT, 25, 5, wanted_gap)
}

/// The tape of M9 and M10, with F's command 50.
pub fn tape_m9() -> Vec<u8> {
    with_search(M9_FRONT, 25, 5, 40_000)
}

/// The commands of a tape of the largest sizes: all columns, all entries, all starts, no curve.
pub fn full_commands() -> Vec<Command> {
    let column = Column {
        lo: -20_000,
        hi: 20_000,
        reference: -20_000,
        weight: 255,
    };
    let mut tape = vec![commands::size(6, 4, 12)];
    for i in 0..6 {
        for j in 0..6 {
            tape.push(commands::state_entry(i, j, -16_384));
        }
        for j in 0..4 {
            tape.push(commands::input_entry(i, j, 16_384));
        }
        tape.push(commands::drift(i, -16_777_216));
        tape.push(commands::start(i, 20_000));
    }
    for place in 0..10 {
        tape.push(commands::column(place, &column));
    }
    tape.push(commands::search(65_535, 10_000, 0xffff_ffff));
    tape.push(vec![0xff]);
    tape
}

/// The rounds of an accepted tape.
pub fn rounds_of(tape: &[u8]) -> Vec<Round> {
    let furnace = read(tape).expect("an accepted tape");
    let mut plan = vec![0; furnace.plan_length()];
    let mut multipliers = vec![0; furnace.multipliers_length()];
    let mut rounds = Vec::new();
    let watch = &mut |round: &Round| rounds.push(round.clone());
    let _ = solve_traced(tape, &mut plan, &mut multipliers, watch);
    rounds
}
