//! Tiny furnaces, on which all plans and all rivals can be listed. The model and the cost are
//! written here a second time, for one state and one input.
#![allow(dead_code)]

use std::ops::RangeInclusive;

use reference::generate::Random;
use reference::model::{Column, Correction};
use reference::{Furnace, Whole};

/// A furnace of one state and one input with narrow limits and one or two steps.
pub fn tiny(random: &mut Random) -> Furnace {
    let horizon = 1 + random.below(2);
    tiny_of(horizon, random)
}

/// [`tiny`] with a given number of steps. Half of the columns have a curve. Half of the furnaces have
/// weight 0, a sixth on both columns. A quarter have entries and a drift of whole and half units, so
/// that residuals are at the ends of their range. Half have a drift under which a duty between two
/// whole ones keeps the first state within its limits.
pub fn tiny_of(horizon: usize, random: &mut Random) -> Furnace {
    let grain = random.choose(&[1, 1, 1, 2048]);
    let coarse = |number: Whole| number / grain * grain;
    let a = coarse(random.between(-6_000, 6_000));
    let b = coarse(random.between(-9_000, 9_000));
    let weights = [(1, 1), (1, 1), (1, 1), (0, 1), (1, 0), (0, 0)];
    let (of_state, of_input) = random.choose(&weights);
    let width = random.choose(&[0, 20, 20, 20]);
    let state = narrow(random, width, of_state);
    let input = narrow(random, 6, of_input);
    let start = random.between(-20, 20);
    let x = random.between(state.lo, state.hi);
    let u = random.between(input.lo, input.hi);
    let reaching = 4096 * x - a * start - b * (2 * u + 1) / 2;
    let any = random.between(-20_000, 20_000);
    let drift = coarse(random.choose(&[reaching, any]));
    // g near the size at which the rounds converge, a weight of 0 being taken for 1.
    let price = |column: Column| 4096 * column.weight.max(1);
    let size = (a * a + 4096 * 4096) / price(state) + b * b / price(input);
    Furnace {
        states: 1,
        inputs: 1,
        horizon,
        a: vec![vec![a]],
        b: vec![vec![b]],
        drift: vec![drift],
        columns: vec![state, input],
        curves: vec![curve(horizon, random), curve(horizon, random)],
        start: vec![start],
        correction: Correction::Gain,
        step_size: (131_072 / size * random.between(1, 8) / 4).clamp(1, 65_535),
        rounds: random.between(1, 60) as u32,
        wanted_gap: random.between(0, 3_000_000),
    }
}

/// A column with limits up to `width` apart and a weight of up to three times `weight`.
fn narrow(random: &mut Random, width: Whole, weight: Whole) -> Column {
    let lo = random.between(-12, 12);
    Column {
        lo,
        hi: lo + random.between(0, width),
        reference: random.between(-20, 20),
        weight: weight * random.between(1, 3),
    }
}

/// A curve, or none.
fn curve(horizon: usize, random: &mut Random) -> Option<Vec<Whole>> {
    let steps = 0..horizon;
    let curve = steps.map(|_| random.between(-20, 20)).collect();
    random.one_in(2).then_some(curve)
}

/// How many columns have weight 0.
pub fn zeros(furnace: &Furnace) -> usize {
    let columns = furnace.columns.iter();
    columns.filter(|column| column.weight == 0).count()
}

/// Is there a curve that is no hold?
pub fn has_ramp(furnace: &Furnace) -> bool {
    let mut curves = furnace.curves.iter().flatten();
    curves.any(|curve| curve.len() == 2 && curve[0] != curve[1])
}

/// Multipliers of a random size.
pub fn multipliers(furnace: &Furnace, random: &mut Random) -> Vec<i32> {
    let range = random.choose(&[2, 20, 200, 2_000, 16_777_216]);
    (0..furnace.horizon)
        .map(|_| random.between(-range, range) as i32)
        .collect()
}

/// Multipliers by steps.
pub fn by_steps(multipliers: &[i32]) -> Vec<Vec<Whole>> {
    let one = |number: &i32| vec![Whole::from(*number)];
    multipliers.iter().map(one).collect()
}

/// The numbers of a tiny furnace.
struct Small {
    a: i64,
    b: i64,
    w: i64,
    start: i64,
    /// lo, hi and h of the state.
    state: [i64; 3],
    /// lo, hi and h of the input.
    input: [i64; 3],
    /// r of the state and of the input, by steps.
    references: Vec<[i64; 2]>,
}

impl Small {
    /// Those of a furnace.
    fn of(furnace: &Furnace) -> Small {
        let small = |number: Whole| number as i64;
        let [state, input] = [0, 1].map(|place| {
            let column = furnace.columns[place];
            [column.lo, column.hi, column.weight].map(small)
        });
        let reference = |step: usize, place: usize| {
            let hold = furnace.columns[place].reference;
            let curve = furnace.curves[place].as_ref();
            small(curve.map_or(hold, |curve| curve[step]))
        };
        let steps = 0..furnace.horizon;
        Small {
            a: small(furnace.a[0][0]),
            b: small(furnace.b[0][0]),
            w: small(furnace.drift[0]),
            start: small(furnace.start[0]),
            state,
            input,
            references: steps.map(|k| [0, 1].map(|c| reference(k, c))).collect(),
        }
    }

    /// Shows all lists that go on from a front, which costs `spent`, with their costs.
    fn extend(
        &self,
        d: i64,
        residuals: &RangeInclusive<i64>,
        (front, spent): (&mut Vec<i64>, i64),
        show: &mut impl FnMut(&[i64], i64),
    ) {
        let step = front.len() / 2;
        let Some([state_r, input_r]) = self.references.get(step) else {
            show(front, spent);
            return;
        };
        let from = front.last().copied().unwrap_or(d * self.start);
        for u in d * self.input[0]..=d * self.input[1] {
            let sum = self.a * from + self.b * u + d * self.w;
            for x in d * self.state[0]..=d * self.state[1] {
                if residuals.contains(&(sum - 4096 * x)) {
                    let state_cost = 4096 * self.state[2] * (x - d * state_r).pow(2);
                    let input_cost = 4096 * self.input[2] * (u - d * input_r).pow(2);
                    front.extend([u, x]);
                    let longer = (&mut *front, spent + state_cost + input_cost);
                    self.extend(d, residuals, longer, show);
                    front.truncate(2 * step);
                }
            }
        }
    }
}

/// A list of whole numbers as the plan slice holds them, with its cost.
pub type Listed = (Vec<i32>, i64);

/// All plans of whole numbers that follow the tape: the state x has −2048 ≤ S − 4096 x ≤ 2047.
pub fn plans(furnace: &Furnace) -> Vec<Listed> {
    let mut found = Vec::new();
    let numbers = |list: &[i64]| list.iter().map(|number| *number as i32).collect();
    let show = &mut |list: &[i64], cost| found.push((numbers(list), cost));
    Small::of(furnace).extend(1, &(-2048..=2047), (&mut Vec::new(), 0), show);
    found
}

/// Shows all rivals of a D, each number V standing for V / D, with their costs in units of 1/D². The
/// residuals, in units of 1/D, are from −2048 D to 2048 D.
pub fn each_rival(furnace: &Furnace, d: i64, mut show: impl FnMut(&[i64], i64)) {
    let residuals = -2048 * d..=2048 * d;
    Small::of(furnace).extend(d, &residuals, (&mut Vec::new(), 0), &mut show);
}

/// The largest D whose rivals are listed.
pub const MOST_D: i64 = 6;

/// What the rivals of one D cost, in units of 1/D².
#[derive(Clone, Copy, Debug)]
pub struct Rivals {
    /// D.
    pub d: i64,
    /// The least cost.
    pub least: Whole,
    /// The largest cost.
    pub most: Whole,
}

impl Rivals {
    /// A cost of whole units in units of 1/D².
    pub fn in_units(&self, cost: Whole) -> Whole {
        Whole::from(self.d * self.d) * cost
    }
}

/// The rivals for D from 1 to 6. A D that has none is left out.
pub fn rivals(furnace: &Furnace) -> Vec<Rivals> {
    let of_d = |d: i64| {
        let mut ends: Option<(i64, i64)> = None;
        each_rival(furnace, d, |_, cost| {
            let (least, most) = ends.unwrap_or((cost, cost));
            ends = Some((least.min(cost), most.max(cost)));
        });
        let (least, most) = ends?;
        let (least, most) = (Whole::from(least), Whole::from(most));
        Some(Rivals { d, least, most })
    };
    (1..=MOST_D).filter_map(of_d).collect()
}
