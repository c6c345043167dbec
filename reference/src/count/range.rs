//! Counts of ranges: of plans that are judged, of slips, and of duties without a tape.

use super::{tape_answers, up_to, Counts};
use crate::calls::{lent_multipliers, Solved};
use crate::floor::Piece;
use crate::generate::furnaces::MOST_GAP;
use crate::generate::{duties, Duty};
use crate::model::{Furnace, Whole};
use crate::range::{columns_and_slopes, Range};
use crate::refusal::Refusal;
use crate::tape::{MOST_INPUTS, MOST_WEIGHT, NUMBER_RANGE};

/// The headings of judged plans, of slips and of duties without a tape. More headings begin with these
/// words.
pub const RANGES: [&str; 3] = ["judge ranges", "slip ranges", "range"];

/// The heading of the answers of [`ranges`](crate::ranges) and of its refusals.
const JUDGED: &str = RANGES[0];

/// The heading of slips that have ranges.
const SLIP: &str = RANGES[1];

/// The heading of duties without a tape.
const ALONE: &str = RANGES[2];

/// Where lo is below hi: the piece that applies, and which limits are ends of the range. The first piece
/// has lo in any case, and the second hi.
const ENDS: [&str; 9] = [
    "weight 0",
    "first, not hi",
    "first, hi",
    "second, not lo",
    "second, lo",
    "third, neither",
    "third, lo",
    "third, hi",
    "third, both",
];

/// A shape of duties: its name, and whether a duty with this range has it.
type Shape = (&'static str, fn(&Duty, Range) -> bool);

/// The shapes that are counted. At gap 0 an accepted plan's own number is all that is allowed.
const SHAPES: [Shape; 10] = [
    ("lo = hi", |duty, _| duty.column.lo == duty.column.hi),
    ("one number, lo below hi", |duty, range| {
        range.low == range.high && duty.column.lo < duty.column.hi
    }),
    ("first, gap 0", |duty, _| is(duty, Piece::First, 0)),
    ("second, gap 0", |duty, _| is(duty, Piece::Second, 0)),
    ("third, gap 0", |duty, _| is(duty, Piece::Third, 0)),
    ("third, gap above 0, an end allowed", |duty, range| {
        duty.piece() == Piece::Third && duty.gap > 0 && allowed_ends(duty, range) > 0
    }),
    ("third, r outside lo to hi", |duty, _| {
        duty.piece() == Piece::Third && !duty.column.contains(duty.column.reference)
    }),
    ("both ends below 0", |_, range| range.high < 0),
    ("ends on both sides of 0", |_, range| {
        range.low < 0 && range.high > 0
    }),
    ("1,000 units or more", |duty, range| {
        duty.column.weight > 0 && range.high - range.low >= 1_000
    }),
];

/// The shapes that are counted of duties without a tape. Those of tapes hardly have them.
const RARE: [Shape; 14] = [
    ("first, an end allowed", |duty, range| {
        duty.piece() == Piece::First && duty.gap > 0 && allowed_ends(duty, range) > 0
    }),
    ("second, an end allowed", |duty, range| {
        duty.piece() == Piece::Second && duty.gap > 0 && allowed_ends(duty, range) > 0
    }),
    ("third, both ends allowed", |duty, range| {
        duty.piece() == Piece::Third && duty.gap > 0 && allowed_ends(duty, range) == 2
    }),
    ("third, gap 0, two numbers", |duty, range| {
        is(duty, Piece::Third, 0) && range.low < range.high
    }),
    ("2P (lo - r) + s = 0", |duty, _| {
        beside(duty, duty.column.lo, 0)
    }),
    ("2P (lo - r) + s = -1", |duty, _| {
        beside(duty, duty.column.lo, -1)
    }),
    ("2P (hi - r) + s = 0", |duty, _| {
        beside(duty, duty.column.hi, 0)
    }),
    ("2P (hi - r) + s = 1", |duty, _| {
        beside(duty, duty.column.hi, 1)
    }),
    ("first, largest gap", |duty, _| {
        is(duty, Piece::First, MOST_GAP)
    }),
    ("second, largest gap", |duty, _| {
        is(duty, Piece::Second, MOST_GAP)
    }),
    ("third, largest gap", |duty, _| {
        is(duty, Piece::Third, MOST_GAP)
    }),
    ("third, gap 1", |duty, _| is(duty, Piece::Third, 1)),
    ("largest weight", |duty, _| {
        duty.column.weight == MOST_WEIGHT
    }),
    ("widest limits", |duty, _| {
        duty.column.hi - duty.column.lo == 2 * NUMBER_RANGE
    }),
];

/// Are these the piece and the gap?
fn is(duty: &Duty, piece: Piece, gap: Whole) -> bool {
    (duty.piece(), duty.gap) == (piece, gap)
}

/// Is 2P × (end − r) + s this number? Weight 0 has no pieces.
fn beside(duty: &Duty, end: Whole, number: Whole) -> bool {
    let column = duty.column;
    column.weight > 0 && 2 * column.price() * (end - column.reference) + duty.slope == number
}

/// How many ends lie between the limits and are allowed themselves, so that nothing was rounded.
fn allowed_ends(duty: &Duty, range: Range) -> usize {
    let between = duty.column.lo + 1..duty.column.hi;
    let ends = [range.low, range.high].into_iter();
    ends.filter(|end| between.contains(end) && duty.allows(1, *end))
        .count()
}

/// The name under [`ENDS`].
fn ends(duty: &Duty, range: Range) -> &'static str {
    let is_lo = usize::from(range.low == duty.column.lo);
    let is_hi = usize::from(range.high == duty.column.hi);
    ENDS[match duty.piece() {
        Piece::Unweighted => 0,
        Piece::First => 1 + is_hi,
        Piece::Second => 3 + is_lo,
        Piece::Third => 5 + is_lo + 2 * is_hi,
    }]
}

impl Counts {
    /// Adds the headings and names of ranges.
    pub fn expect_ranges(&mut self) {
        let refusals = [9, 10, 11, 12, 13];
        self.expect(JUDGED, tape_answers(&["accepted"], &refusals));
        for heading in [JUDGED, SLIP] {
            self.expect(&format!("{heading}, m"), up_to(MOST_INPUTS));
            self.expect_duties(heading);
        }
        self.expect_duties(ALONE);
        let rare = RARE.map(|(name, _)| name.to_string());
        self.expect(&format!("{ALONE}, rare shape"), rare);
    }

    /// Adds the ends and shapes of duties under a heading.
    fn expect_duties(&mut self, heading: &str) {
        self.expect(&format!("{heading}, ends"), ENDS.map(str::to_string));
        let shapes = SHAPES.map(|(name, _)| name.to_string());
        self.expect(&format!("{heading}, shape"), shapes);
    }

    /// Counts an answer of [`ranges`](crate::ranges), given what reading says of the same tape and
    /// judging of the same plan.
    pub fn add_ranges(
        &mut self,
        furnace: &Result<Furnace, Refusal>,
        multipliers: &[i32],
        judged: Result<Whole, Refusal>,
    ) {
        self.add_answer(JUDGED, judged.map(|_| "accepted"));
        if let (Ok(furnace), Ok(gap)) = (furnace, judged) {
            self.add_first_duties(JUDGED, furnace, multipliers, gap);
        }
    }

    /// Counts the ranges of a slip, given what reading says of the same tape, what a solve answers and
    /// the multipliers that it leaves.
    pub fn add_slip_ranges(
        &mut self,
        furnace: &Result<Furnace, Refusal>,
        multipliers: &[i32],
        solved: Result<Solved, Refusal>,
    ) {
        if let (Ok(furnace), Ok(Solved::Proved { gap, .. })) = (furnace, solved) {
            self.add_first_duties(SLIP, furnace, multipliers, gap);
        }
    }

    /// Counts m and the first duties of an accepted plan.
    fn add_first_duties(
        &mut self,
        heading: &str,
        furnace: &Furnace,
        multipliers: &[i32],
        gap: Whole,
    ) {
        self.add(&format!("{heading}, m"), &furnace.inputs.to_string());
        let y = lent_multipliers(furnace, multipliers);
        for (column, slope) in &columns_and_slopes(furnace, &y)[..furnace.inputs] {
            let (column, slope) = (*column, *slope);
            self.add_duty(heading, &Duty { column, slope, gap });
        }
    }

    /// Counts a duty by its ends and shapes.
    fn add_duty(&mut self, heading: &str, duty: &Duty) {
        let range = duty.range();
        if duty.column.lo < duty.column.hi {
            self.add(&format!("{heading}, ends"), ends(duty, range));
        }
        for (name, _) in SHAPES.iter().filter(|(_, has)| has(duty, range)) {
            self.add(&format!("{heading}, shape"), name);
        }
        if heading == ALONE {
            for (name, _) in RARE.iter().filter(|(_, has)| has(duty, range)) {
                self.add(&format!("{heading}, rare shape"), name);
            }
        }
    }

    /// Counts a duty without a tape.
    pub fn add_duty_alone(&mut self, duty: &Duty) {
        self.add_duty(ALONE, duty);
    }

    /// Counts a seed's duties without a tape.
    pub(super) fn add_duties(&mut self, seed: u64) {
        for duty in duties(seed) {
            self.add_duty_alone(&duty);
        }
    }
}
