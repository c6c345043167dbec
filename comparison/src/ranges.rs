//! Ranges of first duties: at the edges of columns, slopes and gaps, of a seed, and the longest on
//! slips.

use std::collections::BTreeSet;

use reference::count::Counts;
use reference::floor::Piece;
use reference::generate::commands::of_furnace;
use reference::generate::furnaces::MOST_GAP;
use reference::generate::records::widest_gap;
use reference::generate::{duties, Duty, Random};
use reference::model::{ceil_div, floor_div, Column, Whole};
use reference::tape::{MOST_INPUTS, MOST_WEIGHT, NUMBER_RANGE};

use crate::calls::{Call, Lending};
use crate::comparison::{Comparison, DRAWN_DUTIES, EDGE_DUTIES};
use crate::duties::{sharing, tape_of};

/// The seed of what has no other.
const SEED: u64 = 8;

/// Limits at the edges: one number, two, of both signs, and the ends of their range.
const LIMITS: [(Whole, Whole); 8] = [
    (7, 7),
    (-7, -7),
    (0, 1),
    (-3, 2),
    (-412, -400),
    (-NUMBER_RANGE, -NUMBER_RANGE + 12),
    (NUMBER_RANGE - 12, NUMBER_RANGE),
    (-NUMBER_RANGE, NUMBER_RANGE),
];

/// Weights at the edges.
const WEIGHTS: [Whole; 5] = [0, 1, 2, 3, MOST_WEIGHT];

/// How many whole numbers on each side of the centre ends are put at.
const AWAY: Whole = 3;

/// The heading of first duties at the edges, by what the second program's counts do not tell apart.
pub const AT_THE_EDGES: &str = "range, at the edges";

/// The names under [`AT_THE_EDGES`] of the numbers of first duties.
const INPUTS: [&str; MOST_INPUTS] = ["m = 1", "m = 2", "m = 3", "m = 4"];

/// A shape of duties: its name, and whether a duty has it.
type Shape = (&'static str, fn(&Duty) -> bool);

/// The other names under [`AT_THE_EDGES`], among them ranges that would be others with a gap of one
/// less, and with one of one more.
const SHAPES: [Shape; 8] = [
    ("weight 1", |duty| duty.column.weight == 1),
    ("third, centre between whole numbers", |duty| {
        duty.piece() == Piece::Third && duty.slope % (2 * duty.column.price()) != 0
    }),
    ("first, narrower with one less", |duty| {
        is_edge(duty, Piece::First, -1)
    }),
    ("first, wider with one more", |duty| {
        is_edge(duty, Piece::First, 1)
    }),
    ("second, narrower with one less", |duty| {
        is_edge(duty, Piece::Second, -1)
    }),
    ("second, wider with one more", |duty| {
        is_edge(duty, Piece::Second, 1)
    }),
    ("third, narrower with one less", |duty| {
        is_edge(duty, Piece::Third, -1)
    }),
    ("third, wider with one more", |duty| {
        is_edge(duty, Piece::Third, 1)
    }),
];

/// Does this piece apply, and has a gap of so much more another range? Not looked for in wide limits,
/// of which all numbers would be tried.
fn is_edge(duty: &Duty, piece: Piece, more: Whole) -> bool {
    let gap = duty.gap + more;
    let narrow = duty.column.hi - duty.column.lo <= 100;
    duty.piece() == piece && narrow && gap >= 0 && Duty { gap, ..*duty }.range() != duty.range()
}

/// The names under [`AT_THE_EDGES`].
pub fn names() -> Vec<String> {
    let shapes = SHAPES.iter().map(|(name, _)| *name);
    INPUTS
        .into_iter()
        .chain(shapes)
        .map(str::to_string)
        .collect()
}

/// Counts the first duties of a tape at the edges.
fn add_edge(counts: &mut Counts, duties: &[Duty]) {
    counts.add(AT_THE_EDGES, INPUTS[duties.len() - 1]);
    for duty in duties {
        for (name, _) in SHAPES.iter().filter(|(_, has)| has(duty)) {
            counts.add(AT_THE_EDGES, name);
        }
    }
}

/// Ranges at the edges, and slips with long ones.
pub fn add_ranges(comparison: &mut Comparison) {
    let mut random = Random::new(SEED);
    for (place, edge) in edges(&mut random).iter().enumerate() {
        let duties = with_others(edge, place % MOST_INPUTS, &mut random);
        comparison.add_duties(EDGE_DUTIES, &duties, &mut random);
        add_edge(&mut comparison.counts, &duties);
        if comparison.ends() {
            return;
        }
    }
    for tape in long_slips(&mut random) {
        comparison.print(&[&tape]);
    }
}

impl Comparison {
    /// The ranges of a seed's duties: one of them alone, two, three and four together.
    pub fn add_ranges_of(&mut self, seed: u64) {
        let mut random = Random::new(!seed);
        for drawn in groups(&duties(seed)) {
            let gap = random.choose(drawn).gap;
            self.add_duties(DRAWN_DUTIES, &sharing(gap, drawn), &mut random);
        }
    }

    /// The ranges of duties that share a gap, as the first of a tape.
    fn add_duties(&mut self, origin: &'static str, duties: &[Duty], random: &mut Random) {
        let (tape, lent) = tape_of(origin, duties, random);
        self.also(Call::Ranges, &Lending::of(&lent, &tape));
        for duty in duties {
            self.counts.add_duty_alone(duty);
        }
    }
}

/// The first duty, the next two, the next three and the next four.
fn groups(duties: &[Duty]) -> [&[Duty]; MOST_INPUTS] {
    [&duties[..1], &duties[1..3], &duties[3..6], &duties[6..10]]
}

/// The duty at a drawn place among so many others. They leave it its gap.
fn with_others(edge: &Duty, others: usize, random: &mut Random) -> Vec<Duty> {
    let mut duties: Vec<Duty> = (0..others).map(|_| other(random)).collect();
    duties.insert(random.below(others + 1), *edge);
    sharing(edge.gap, &duties)
}

/// A duty whose number adds nothing to a gap: the centre is a whole number within the limits.
fn other(random: &mut Random) -> Duty {
    let lo = random.between(-NUMBER_RANGE, NUMBER_RANGE - 12);
    let column = Column {
        lo,
        hi: lo + random.between(0, 12),
        reference: random.between(-NUMBER_RANGE, NUMBER_RANGE),
        weight: random.choose(&WEIGHTS),
    };
    let centre = random.between(column.lo, column.hi);
    Duty {
        column,
        slope: 2 * column.price() * (column.reference - centre),
        gap: 0,
    }
}

/// Every limit with every weight, and of each such column every centre with every gap. References are
/// drawn: between the limits, at them, outside and at the ends of their range.
fn edges(random: &mut Random) -> Vec<Duty> {
    let mut all = Vec::new();
    for (lo, hi) in LIMITS {
        let references = [lo - 9, lo, (lo + hi) / 2, hi, hi + 9];
        let references = references.map(|r| r.clamp(-NUMBER_RANGE, NUMBER_RANGE));
        for weight in WEIGHTS {
            let mut column = Column {
                lo,
                hi,
                reference: 0,
                weight,
            };
            for centre in centres(&column) {
                for gap in gaps(&column, centre) {
                    column.reference = random.choose(&references);
                    let slope = 2 * column.price() * column.reference - centre;
                    all.push(Duty { column, slope, gap });
                }
            }
        }
    }
    all
}

/// 2P times the centre: at both limits, at a whole number between them, half a unit above it, and a
/// unit beside each of these; and far outside. At weight 0 they are slopes about 0.
fn centres(column: &Column) -> BTreeSet<Whole> {
    let Column { lo, hi, .. } = *column;
    let p = column.price();
    let middle = (lo + hi) / 2;
    let exact = [2 * p * lo, 2 * p * middle, 2 * p * middle + p, 2 * p * hi];
    let beside = exact
        .iter()
        .flat_map(|centre| [-1, 0, 1].map(|by| centre + by));
    let outside = [2 * p * (lo - 50), 2 * p * (hi + 50)];
    beside.chain(outside).collect()
}

/// The ends of a gap's range and one beside; and the least gaps that reach from the centre to a limit
/// or to one of the next whole numbers on either side, with one less and one more.
fn gaps(column: &Column, centre: Whole) -> BTreeSet<Whole> {
    let Column { lo, hi, .. } = *column;
    let p = column.price();
    let centre = centre.clamp(2 * p * lo, 2 * p * hi);
    let below = floor_div(centre, (2 * p).max(1));
    let numbers = (below - AWAY..=below + 1 + AWAY).chain([lo, hi]);
    let distances = numbers.map(|number| 2 * p * number - centre);
    let reaching = distances.map(|distance| ceil_div(distance * distance, (4 * p).max(1)));
    let beside = reaching.flat_map(|gap| [gap - 1, gap, gap + 1]);
    let all = beside.chain([0, 1, MOST_GAP - 1, MOST_GAP]);
    all.filter(|gap| (0..=MOST_GAP).contains(gap)).collect()
}

/// Tapes whose slips have the widest gap, and 1 to 4 ranges, most of them with ends of six
/// characters.
fn long_slips(random: &mut Random) -> Vec<Vec<u8>> {
    let tape = |inputs| {
        let mut furnace = widest_gap(inputs);
        for column in &mut furnace.columns[2..] {
            (column.lo, column.hi) = (-NUMBER_RANGE, -NUMBER_RANGE / 2);
        }
        of_furnace(&furnace, random).concat()
    };
    (1..=MOST_INPUTS).map(tape).collect()
}

#[cfg(test)]
mod tests {
    use reference::calls::lent_multipliers;
    use reference::floor::input_slope;
    use reference::{judge_plan, read};

    use super::*;
    use crate::comparison::NEVER;

    /// The duties of all edges' tapes, and of some seeds'.
    fn all(random: &mut Random) -> Vec<Vec<Duty>> {
        let edges = edges(random);
        let edges = edges.iter().enumerate();
        let mut all: Vec<Vec<Duty>> = edges
            .map(|(place, edge)| with_others(edge, place % MOST_INPUTS, random))
            .collect();
        for seed in 0..300 {
            let drawn = duties(seed);
            all.extend(groups(&drawn).map(|group| sharing(group[0].gap, group)));
        }
        all
    }

    #[test]
    fn tapes_have_the_wanted_duties() {
        let mut random = Random::new(SEED);
        for duties in all(&mut random) {
            let (tape, lent) = tape_of("made", &duties, &mut random);
            let furnace = read(&tape).expect("an accepted tape");
            let y = lent_multipliers(&furnace, &lent.multipliers);
            for (j, duty) in duties.iter().enumerate() {
                assert_eq!(furnace.input_at(0, j), duty.column);
                assert_eq!(input_slope(&furnace, &y, 0, j), duty.slope);
            }
            let judged = judge_plan(&tape, &lent.plan, &lent.multipliers);
            assert_eq!(judged, Ok(duties[0].gap));
        }
    }

    #[test]
    fn edges_keep_their_gaps() {
        // But those that no plan has with such a duty.
        let mut random = Random::new(SEED);
        let edges = edges(&mut random);
        let kept = edges.iter().filter(|edge| {
            let alone = sharing(edge.gap, &[**edge]);
            let together = with_others(edge, 3, &mut random);
            assert_eq!(together[0].gap, alone[0].gap);
            alone[0].gap == edge.gap
        });
        assert!(kept.count() * 2 > edges.len());
    }

    #[test]
    fn the_edges_meet_every_name() {
        let mut random = Random::new(SEED);
        let mut counts = Counts::default();
        counts.expect_ranges();
        counts.expect(AT_THE_EDGES, names());
        for (place, edge) in edges(&mut random).iter().enumerate() {
            let duties = with_others(edge, place % MOST_INPUTS, &mut random);
            add_edge(&mut counts, &duties);
            for duty in &duties {
                counts.add_duty_alone(duty);
            }
        }
        let (heading, name) = NEVER;
        assert_eq!(counts.count(heading, name), 0);
        counts.add(heading, name);
        assert_eq!(
            counts.require(|heading| heading.starts_with("range, ")),
            Ok(())
        );
    }

    #[test]
    fn slips_are_long() {
        let mut random = Random::new(SEED);
        let slips = long_slips(&mut random).into_iter();
        let slips: Vec<String> = slips.map(|tape| reference::slip(&tape)).collect();
        let longest =
            "proved\nrounds 2\ngap 4294967295\nfirst -1 -20000 -20000 -20000\nrange -6 -1\n\
            range -20000 -10000\nrange -20000 -10000\nrange -20000 -10000\n";
        assert_eq!(slips[3], longest);
        let lines: Vec<usize> = slips.iter().map(|slip| slip.lines().count()).collect();
        assert_eq!(lines, [5, 6, 7, 8]);
    }
}
