//! Tapes for the tests.

use crate::furnace::Furnace;
use crate::tape::read;

/// Tape F of document 01, with some of its numbers to be changed.
pub(crate) struct Tape {
    pub(crate) steps: u8,
    /// lo, hi and r of the state.
    pub(crate) state: [i16; 3],
    /// The state's weight.
    pub(crate) weight: u8,
    pub(crate) wanted_gap: u32,
    /// Commands before FF.
    pub(crate) more: Vec<u8>,
}

/// Tape F.
pub(crate) fn tape_f() -> Tape {
    Tape {
        steps: 1,
        state: [-1000, 1000, 110],
        weight: 1,
        wanted_gap: 40_000,
        more: Vec::new(),
    }
}

/// Tape F with the limits of figure M9.
pub(crate) fn tape_m9() -> Tape {
    Tape {
        state: [200, 300, 250],
        ..tape_f()
    }
}

impl Tape {
    /// The tape.
    pub(crate) fn bytes(&self) -> Vec<u8> {
        [
            &[0x10, 1, 1, self.steps][..],
            &[0x20, 0, 0, 0x00, 0x10],
            &[0x21, 0, 0, 0x00, 0x08],
            &[0x30, 0],
            &self.state.map(i16::to_le_bytes).concat(),
            &[self.weight],
            &[0x30, 1, 0x00, 0x00, 0x28, 0x00, 0x00, 0x00, 1],
            &[0x40, 0, 0x64, 0x00],
            &[0x50, 0x19, 0x00, 0x05, 0x00],
            &self.wanted_gap.to_le_bytes(),
            &self.more,
            &[0xff],
        ]
        .concat()
    }

    /// What is read of it.
    pub(crate) fn furnace(&self) -> Furnace {
        read(&self.bytes()).expect("a legal tape")
    }
}
