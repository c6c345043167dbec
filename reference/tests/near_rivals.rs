//! Request 8 against rivals: every one of tiny tapes with D = 1 to 4, and mixtures of plans of generated
//! tapes. Each that costs no more than an accepted plan obeys the inequalities and keeps to the ranges.

mod tiny;

use std::collections::BTreeMap;

use reference::calls::{lent_multipliers, lent_plan};
use reference::floor::{floor, Piece};
use reference::generate::{case, commands, kind, Kind, Random};
use reference::model::{cost, Column};
use reference::range::{allows, columns_and_slopes, range};
use reference::*;
use tiny::*;

/// The largest T.
const MOST_GAP: Whole = 0xffff_ffff;

/// Counts by name.
#[derive(Debug, Default)]
struct Counts(BTreeMap<String, u32>);

impl Counts {
    /// Counts one.
    fn add(&mut self, name: impl ToString) {
        *self.0.entry(name.to_string()).or_default() += 1;
    }

    /// Fails unless each of the names has been counted more often than `least`.
    fn require(&self, names: &[String], least: u32) {
        for name in names {
            let count = self.0.get(name).copied().unwrap_or(0);
            assert!(count > least, "{name}: {count} of {self:#?}");
        }
    }
}

/// A plan that is accepted with multipliers.
struct Accepted {
    plan: Vec<i32>,
    cost: Whole,
    gap: Whole,
    /// The column and the slope of each plan number.
    slopes: Vec<(Column, Whole)>,
    /// The ranges of the first of them.
    ranges: Vec<Range>,
}

impl Accepted {
    /// What judging comes to where the plan is accepted, with so many ranges.
    fn judged(
        furnace: &Furnace,
        tape: &[u8],
        plan: &[i32],
        multipliers: &[i32],
        ranges: usize,
    ) -> Option<Accepted> {
        let gap = judge_plan(tape, plan, multipliers).ok()?;
        let slopes = columns_and_slopes(furnace, &lent_multipliers(furnace, multipliers));
        let of = |(column, s): &(Column, Whole)| range(column, *s, gap);
        Some(Accepted {
            plan: plan.to_vec(),
            cost: cost(furnace, &lent_plan(furnace, plan)),
            gap,
            ranges: slopes[..ranges].iter().map(of).collect(),
            slopes,
        })
    }

    /// Are all numbers of a list allowed?
    fn allows(&self, d: Whole, numbers: &[Whole]) -> bool {
        let mut all = self.slopes.iter().zip(numbers);
        all.all(|((column, s), number)| allows(column, *s, self.gap, d, *number))
    }

    /// Checks a rival that costs no more, and counts its numbers by the piece that applies.
    fn check(&self, d: Whole, numbers: &[Whole], counts: &mut Counts) {
        for (place, number) in numbers.iter().enumerate() {
            let (column, s) = self.slopes[place];
            let shown = || format!("{column:?} {s} {}: {number} of {d}", self.gap);
            assert!(allows(&column, s, self.gap, d, *number), "{}", shown());
            let piece = Piece::of(&column, s);
            counts.add(format!("{piece:?}"));
            if number % d != 0 {
                counts.add(format!("{piece:?}, a fraction"));
            }
            // With a gap smaller by a tenth it would be shut out.
            if !allows(&column, s, self.gap * 9 / 10, d, *number) {
                counts.add(format!("{piece:?}, near the edge"));
            }
            if let Some(Range { low, high }) = self.ranges.get(place) {
                assert!(d * low <= *number && *number <= d * high, "{}", shown());
                if *low > column.lo || *high < column.hi {
                    counts.add(format!("{piece:?}, narrower than the limits"));
                }
            }
        }
    }

    /// What such a rival is, in words: its cost beside the plan's, and its units.
    fn kind(&self, d: Whole, numbers: &[Whole], cost: Whole) -> String {
        let plan = self.plan.iter().map(|number| d * Whole::from(*number));
        let cost = match cost == d * d * self.cost {
            true if plan.eq(numbers.iter().copied()) => "itself",
            true => "as dear",
            false => "cheaper",
        };
        let is_whole = numbers.iter().all(|number| number % d == 0);
        let units = if is_whole { "whole" } else { "fractions" };
        format!("{cost}, {units}")
    }
}

/// The names that [`Accepted::check`] gives numbers of weight above 0, of all pieces.
fn of_pieces(whats: &[&str]) -> Vec<String> {
    let mut names = Vec::new();
    for piece in [Piece::First, Piece::Second, Piece::Third] {
        names.extend(whats.iter().map(|what| format!("{piece:?}, {what}")));
    }
    names
}

/// Of some multipliers that are drawn, those with the highest floor.
fn good_multipliers(furnace: &Furnace, random: &mut Random) -> Vec<i32> {
    let drawn: Vec<Vec<i32>> = (0..60).map(|_| multipliers(furnace, random)).collect();
    let best = drawn
        .into_iter()
        .max_by_key(|y| floor(furnace, &by_steps(y)));
    best.expect("some were drawn")
}

/// A tiny furnace with the largest T. A third have their references at the ends of their limits: with
/// multipliers of 0 the first and the second piece apply there, and no slope holds numbers nearer.
fn furnace(random: &mut Random) -> Furnace {
    let mut furnace = tiny(random);
    furnace.wanted_gap = MOST_GAP;
    if random.one_in(3) {
        furnace.curves.fill(None);
        for column in &mut furnace.columns {
            column.reference = random.choose(&[column.lo, column.hi]);
        }
    }
    furnace
}

/// Plans of a tiny furnace that are accepted, with good multipliers, with 0 and with any.
fn accepted(furnace: &Furnace, random: &mut Random) -> Vec<Accepted> {
    let tape = commands::of_furnace(furnace, random).concat();
    let mut plans = plans(furnace);
    plans.sort_by_key(|(_, cost)| *cost);
    let mut found = Vec::new();
    for _ in 0..plans.len().min(4) {
        // The cheapest ones have the smallest gaps.
        let among = random.choose(&[1, plans.len()]);
        let (plan, _) = &plans[random.below(among)];
        let good = good_multipliers(furnace, random);
        let zero = vec![0; furnace.horizon];
        for y in [good, zero, multipliers(furnace, random)] {
            let all = plan.len();
            found.extend(Accepted::judged(furnace, &tape, plan, &y, all));
        }
    }
    found
}

/// Checks all rivals of one D against the accepted plans of a tiny furnace.
fn check_listed(furnace: &Furnace, accepted: &[Accepted], d: i64, counts: &mut Counts) {
    let (steps, zeros) = (furnace.horizon, zeros(furnace));
    each_rival(furnace, d, |list, cost| {
        let numbers: Vec<Whole> = list.iter().map(|number| Whole::from(*number)).collect();
        let (d, cost) = (Whole::from(d), Whole::from(cost));
        for one in accepted {
            if cost <= d * d * one.cost {
                one.check(d, &numbers, counts);
                let kind = one.kind(d, &numbers, cost);
                counts.add(format!("{kind}, N {steps}, weights of 0: {zeros}"));
            } else if one.allows(d, &numbers) {
                counts.add("dearer, allowed");
            } else {
                counts.add("dearer, shut out");
            }
        }
    });
}

/// The names that [`check_listed`] gives rivals that cost no more. With all weights 0 none is cheaper.
fn names_of_rivals() -> Vec<String> {
    let mut names = Vec::new();
    for steps in [1, 2] {
        for (zeros, costs) in [
            (0, &["as dear", "cheaper"][..]),
            (1, &["as dear", "cheaper"]),
            (2, &["as dear"]),
        ] {
            for cost in costs {
                for units in ["whole", "fractions"] {
                    let name = format!("{cost}, {units}, N {steps}, weights of 0: {zeros}");
                    names.push(name);
                }
            }
        }
    }
    names
}

/// The largest D whose rivals are listed here.
const MOST_LISTED: i64 = 4;

#[test]
fn every_rival_that_costs_no_more_is_allowed() {
    let mut random = Random::new(31);
    let mut counts = Counts::default();
    for _ in 0..1_000 {
        let furnace = furnace(&mut random);
        let accepted = accepted(&furnace, &mut random);
        for d in 1..=MOST_LISTED {
            check_listed(&furnace, &accepted, d, &mut counts);
        }
    }
    let whats = ["a fraction", "narrower than the limits", "near the edge"];
    counts.require(&of_pieces(&whats), 100);
    let others = [
        "Unweighted, a fraction",
        "dearer, allowed",
        "dearer, shut out",
    ];
    counts.require(&others.map(str::to_string), 1_000);
    counts.require(&names_of_rivals(), 10);
}

/// A tape of any size with the largest T.
struct Tape {
    furnace: Furnace,
    bytes: Vec<u8>,
    /// Plans that follow it.
    plans: Vec<Vec<i32>>,
    /// Multipliers within their range.
    multipliers: Vec<Vec<i32>>,
}

impl Tape {
    /// That of a seed's case, if it is accepted.
    fn of_seed(seed: u64, random: &mut Random) -> Option<Tape> {
        let case = case(seed);
        let mut furnace = read(&case.tape.bytes).ok()?;
        furnace.wanted_gap = MOST_GAP;
        let mut tape = Tape {
            bytes: commands::of_furnace(&furnace, random).concat(),
            furnace,
            plans: Vec::new(),
            multipliers: Vec::new(),
        };
        for lent in case.judged {
            let judged = judge_plan(&tape.bytes, &lent.plan, &lent.multipliers);
            if matches!(judged, Ok(_) | Err(Refusal::Wide { .. })) {
                tape.plans.push(lent.plan);
                tape.multipliers.push(lent.multipliers);
            }
        }
        for lent in [&mut tape.plans, &mut tape.multipliers] {
            lent.sort();
            lent.dedup();
        }
        Some(tape)
    }

    /// Each plan that is accepted with multipliers.
    fn accepted(&self) -> Vec<Accepted> {
        let mut found = Vec::new();
        for plan in &self.plans {
            for y in &self.multipliers {
                let duties = self.furnace.inputs;
                found.extend(Accepted::judged(
                    &self.furnace,
                    &self.bytes,
                    plan,
                    y,
                    duties,
                ));
            }
        }
        found
    }
}

/// So many parts of one plan and so many of another: where both follow the tape, so does what lies
/// between them, in fractions and with residuals from −2048 to 2047.
fn mixture(one: (&[i32], Whole), other: (&[i32], Whole)) -> Vec<Whole> {
    let parts = |(plan, parts): (&[i32], Whole), place| parts * Whole::from(plan[place]);
    let places = 0..one.0.len();
    places
        .map(|place| parts(one, place) + parts(other, place))
        .collect()
}

#[test]
fn mixtures_of_plans_that_cost_no_more_are_allowed() {
    let mut random = Random::new(32);
    let mut counts = Counts::default();
    for seed in 0..1_500 {
        // Late ones take long to make.
        if [Kind::Late, Kind::Noise].contains(&kind(seed)) {
            continue;
        }
        let Some(tape) = Tape::of_seed(seed, &mut random) else {
            continue;
        };
        for one in tape.accepted() {
            for other in &tape.plans {
                for (parts, of_other) in [(0, 1), (1, 1), (1, 2), (2, 1), (3, 4), (1, 9)] {
                    let d = parts + of_other;
                    let numbers = mixture((&one.plan, parts), (other, of_other));
                    assert!(rival::is_rival(&tape.furnace, d, &numbers), "seed {seed}");
                    let cost = rival::cost(&tape.furnace, d, &numbers);
                    if cost <= d * d * one.cost {
                        one.check(d, &numbers, &mut counts);
                        counts.add(one.kind(d, &numbers, cost));
                    }
                }
            }
        }
    }
    let whats = ["a fraction", "narrower than the limits"];
    counts.require(&of_pieces(&whats), 100);
    let others = ["Third, near the edge", "Unweighted, a fraction"];
    counts.require(&others.map(str::to_string), 100);
    let kinds = ["cheaper, fractions", "cheaper, whole", "as dear, fractions"];
    counts.require(&kinds.map(str::to_string), 100);
}
