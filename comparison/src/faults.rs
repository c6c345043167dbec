//! Reports on plans that fail, at every step and column, with one fault, two and three, and by a gap
//! that is one above T.

use std::collections::BTreeSet;

use reference::calls::write_plan;
use reference::floor::MULTIPLIER_RANGE;
use reference::generate::commands::of_furnace;
use reference::generate::faulty::{with_faults, Place};
use reference::generate::furnaces::{sized, MOST_GAP};
use reference::generate::{Lent, Random};
use reference::model::{next_state, Column, Furnace, Plan, Whole, UNIT};
use reference::{judge_plan, Refusal};

use crate::calls::{Call, Lending};
use crate::comparison::{Comparison, GAPS, LIMITS_PASSED, ONE_FAULT, SEVERAL_FAULTS};

/// The seed of everything here.
const SEED: u64 = 8;

/// The sizes n, m and N that are tried, the largest last.
const SIZES: [(usize, usize, usize); 6] = [
    (1, 1, 1),
    (1, 1, 12),
    (2, 2, 2),
    (1, 4, 5),
    (6, 1, 3),
    (6, 4, 12),
];

/// Do the states rise in every step, or fall?
#[derive(Clone, Copy, Debug, PartialEq, Eq)]
enum Course {
    Rise,
    Fall,
}

/// Both courses.
const COURSES: [Course; 2] = [Course::Rise, Course::Fall];

/// A tape with a plan and multipliers to be judged by it.
struct Judged {
    origin: &'static str,
    tape: Vec<u8>,
    lent: Lent,
}

/// Judges all plans of these kinds with a report, and those that have not several faults also without
/// one and with ranges.
pub fn add_faults(comparison: &mut Comparison) {
    let mut random = Random::new(SEED);
    for sizes in SIZES {
        for course in COURSES {
            for judged in all(sizes, course, &mut random) {
                add_judged(comparison, &judged);
            }
            if comparison.ends() {
                return;
            }
        }
    }
}

/// Judges a plan.
fn add_judged(comparison: &mut Comparison, Judged { origin, tape, lent }: &Judged) {
    let lending = Lending::new(origin, tape, &lent.plan, &lent.multipliers);
    comparison.also(Call::JudgeReport, &lending);
    if *origin != SEVERAL_FAULTS {
        comparison.also(Call::JudgePlan, &lending);
        comparison.also(Call::Ranges, &lending);
    }
}

/// All that is judged of a furnace of these sizes.
fn all(sizes: (usize, usize, usize), course: Course, random: &mut Random) -> Vec<Judged> {
    let furnace = steady(sizes, course, random);
    let right = followed(&furnace, random);
    let mut all = one_fault(&furnace, &right, random);
    all.extend(limits_passed(&furnace, course, &right, random));
    all.extend(gaps(&furnace, &right, random));
    // There are many of these, and the course is nothing to them.
    if course == Course::Rise {
        all.extend(several_faults(&furnace, &right, random));
    }
    all
}

/// A furnace whose states rise by a unit or more in every step, or fall, whatever the inputs are. A
/// limit beside any of its numbers is then passed there first. Any gap is accepted.
fn steady((n, m, steps): (usize, usize, usize), course: Course, random: &mut Random) -> Furnace {
    let mut furnace = sized(n, m, steps);
    let sign = match course {
        Course::Rise => 1,
        Course::Fall => -1,
    };
    for i in 0..n {
        let entry = |_| random.between(-10, 10);
        furnace.a[i] = (0..n).map(entry).collect();
        furnace.a[i][i] = UNIT;
        let entry = |_| random.between(-400, 400);
        furnace.b[i] = (0..m).map(entry).collect();
        furnace.drift[i] = sign * UNIT * random.between(10, 20);
        furnace.start[i] = random.between(-50, 50);
    }
    for (c, column) in furnace.columns.iter_mut().enumerate() {
        let (lo, hi) = if c < n { (-1_000, 1_000) } else { (-7, 5) };
        *column = Column {
            lo,
            hi,
            reference: random.between(lo, hi),
            weight: random.between(0, 3),
        };
    }
    furnace.wanted_gap = MOST_GAP;
    furnace
}

/// A plan that follows the furnace's tape where its states keep to their limits, with multipliers 0.
pub fn followed(furnace: &Furnace, random: &mut Random) -> Lent {
    let mut plan = Plan {
        u: Vec::new(),
        x: vec![furnace.start.clone()],
    };
    for k in 0..furnace.horizon {
        let inputs = furnace.columns[furnace.states..].iter();
        let u: Vec<Whole> = inputs.map(|c| random.between(c.lo, c.hi)).collect();
        let states = 0..furnace.states;
        let next = states.map(|i| next_state(furnace, &plan.x[k], &u, i));
        let next = next.collect();
        plan.u.push(u);
        plan.x.push(next);
    }
    let mut lent = Lent {
        origin: "follows",
        plan: vec![0; furnace.plan_length()],
        multipliers: vec![0; furnace.multipliers_length()],
    };
    write_plan(furnace, &plan, &mut lent.plan);
    lent
}

/// The step and the column of a number of the plan: a step has its inputs first.
fn step_and_column(furnace: &Furnace, number: usize) -> Place {
    let (columns, inputs) = (furnace.columns.len(), furnace.inputs);
    let (step, within) = (number / columns, number % columns);
    if within < inputs {
        (step, furnace.states + within)
    } else {
        (step, within - inputs)
    }
}

/// The plan with another number at a place of its slice.
fn with_number(right: &Lent, place: usize, number: i32) -> Lent {
    let mut lent = right.clone();
    lent.plan[place] = number;
    lent
}

/// Plans with one number put wrong: each of them in turn, beside the right number, beside its limits
/// and at the ends of 32 bits. A state is off the model there, outside its limits or not.
fn one_fault(furnace: &Furnace, right: &Lent, random: &mut Random) -> Vec<Judged> {
    let tape = of_furnace(furnace, random).concat();
    let mut all = Vec::new();
    for (place, number) in right.plan.iter().enumerate() {
        let (_, column) = step_and_column(furnace, place);
        let Column { lo, hi, .. } = furnace.columns[column];
        let limits = [lo - 1, hi + 1].map(|number| number as i32);
        let beside = [number - 1, number + 1];
        for wrong in [limits, beside, [i32::MIN, i32::MAX]].concat() {
            all.push(Judged {
                origin: ONE_FAULT,
                tape: tape.clone(),
                lent: with_number(right, place, wrong),
            });
        }
    }
    all
}

/// Tapes with a limit that a state passes, each state of each step in turn, and the plan with that
/// state as the model gives it and a unit beside it, where it is off the model as well.
fn limits_passed(
    furnace: &Furnace,
    course: Course,
    right: &Lent,
    random: &mut Random,
) -> Vec<Judged> {
    let mut all = Vec::new();
    for (place, number) in right.plan.iter().enumerate() {
        let (_, column) = step_and_column(furnace, place);
        if column >= furnace.states {
            continue;
        }
        let mut furnace = furnace.clone();
        let limited = &mut furnace.columns[column];
        match course {
            Course::Rise => limited.hi = Whole::from(*number) - 1,
            Course::Fall => limited.lo = Whole::from(*number) + 1,
        }
        let tape = of_furnace(&furnace, random).concat();
        for tried in [*number, number - 1, number + 1] {
            all.push(Judged {
                origin: LIMITS_PASSED,
                tape: tape.clone(),
                lent: with_number(right, place, tried),
            });
        }
    }
    all
}

/// Plans with two numbers put wrong, every two of them, and half of the time a third that is drawn.
fn several_faults(furnace: &Furnace, right: &Lent, random: &mut Random) -> Vec<Judged> {
    let tape = of_furnace(furnace, random).concat();
    let mut all = Vec::new();
    let count = right.plan.len();
    for first in 0..count {
        for second in first + 1..count {
            let drawn = random.below(count);
            let third = random.choose(&[second, drawn]);
            let wrong = [first, second, third].map(|place| step_and_column(furnace, place));
            all.push(Judged {
                origin: SEVERAL_FAULTS,
                tape: tape.clone(),
                lent: with_faults(furnace, right, &BTreeSet::from(wrong), random),
            });
        }
    }
    all
}

/// The right plan with multipliers of several sizes, on tapes whose T is the gap or one below it, or
/// the largest where the gap is wider.
fn gaps(furnace: &Furnace, right: &Lent, random: &mut Random) -> Vec<Judged> {
    let mut all = Vec::new();
    for size in [0, 1, 4, 16, 64, 256, 1_000, MULTIPLIER_RANGE] {
        let mut lent = right.clone();
        for multiplier in &mut lent.multipliers {
            *multiplier = random.between(-size, size) as i32;
        }
        let tape = of_furnace(furnace, random).concat();
        let gap = match judge_plan(&tape, &lent.plan, &lent.multipliers) {
            Ok(gap) => gap,
            Err(Refusal::Wide { cost, floor }) => cost - floor,
            Err(refusal) => unreachable!("the plan follows the tape: {refusal:?}"),
        };
        for wanted in [gap, gap - 1] {
            let mut furnace = furnace.clone();
            furnace.wanted_gap = wanted.clamp(0, MOST_GAP);
            all.push(Judged {
                origin: GAPS,
                tape: of_furnace(&furnace, random).concat(),
                lent: lent.clone(),
            });
        }
    }
    all
}

#[cfg(test)]
mod tests {
    use std::collections::BTreeMap;

    use reference::calls::lent_plan;
    use reference::{judge_report, read, Report};

    use super::*;

    /// What is judged of all sizes and courses.
    fn judged() -> Vec<((usize, usize, usize), Course, Vec<Judged>)> {
        let mut random = Random::new(SEED);
        let mut list = Vec::new();
        for sizes in SIZES {
            for course in COURSES {
                list.push((sizes, course, all(sizes, course, &mut random)));
            }
        }
        list
    }

    /// The report on a plan.
    fn report(Judged { tape, lent, .. }: &Judged) -> Report {
        judge_report(tape, &lent.plan, &lent.multipliers).expect("a report")
    }

    #[test]
    fn every_place_is_the_first_fault_of_each_kind() {
        for (sizes, course, list) in judged() {
            let (n, m, steps) = sizes;
            let mut met: BTreeSet<(Whole, Whole, Whole, bool)> = BTreeSet::new();
            for judged in &list {
                let numbers = report(judged).numbers();
                let below = numbers[3] < numbers[4];
                met.insert((numbers[0], numbers[1], numbers[2], below));
            }
            for step in 0..steps as Whole {
                for column in 0..(n + m) as Whole {
                    let of_state = column < n as Whole;
                    for below in [true, false] {
                        let passes = below == (course == Course::Fall);
                        let off_model = met.contains(&(10, step, column, below));
                        let over_limit = met.contains(&(11, step, column, below));
                        assert_eq!(off_model, of_state, "{sizes:?} {step} {column}");
                        assert_eq!(over_limit, !of_state || passes, "{sizes:?} {step} {column}");
                    }
                }
            }
        }
    }

    #[test]
    fn plans_have_two_faults_and_three() {
        let mut counts: BTreeMap<usize, u32> = BTreeMap::new();
        for (_, _, list) in judged() {
            for judged in list.iter().filter(|judged| judged.origin == SEVERAL_FAULTS) {
                let furnace = read(&judged.tape).expect("an accepted tape");
                let plan = lent_plan(&furnace, &judged.lent.plan);
                // A number that is off the model and outside its limits has two.
                let places = reference::faults::faults(&furnace, &plan).into_iter();
                let places: BTreeSet<Place> = places.map(place).collect();
                *counts.entry(places.len()).or_default() += 1;
            }
        }
        assert!(counts[&2] > 500 && counts[&3] > 500, "{counts:?}");
        assert!(!counts.contains_key(&0), "{counts:?}");
    }

    /// The place of a fault.
    fn place(refusal: Refusal) -> Place {
        match refusal {
            Refusal::OffModel(fault) | Refusal::OverLimit(fault) => (fault.step, fault.column),
            _ => unreachable!("no fault"),
        }
    }

    #[test]
    fn gaps_beside_the_wanted_one() {
        // Gaps of T, one above T, and further above; floors below 0 of the last two.
        let mut counts = [0; 5];
        for (_, _, list) in judged() {
            for judged in list.iter().filter(|judged| judged.origin == GAPS) {
                let wanted = read(&judged.tape).expect("an accepted tape").wanted_gap;
                match report(judged) {
                    Report::Accepted { gap } => {
                        counts[0] += 1;
                        assert_eq!(gap, wanted);
                    }
                    Report::Wide { cost, floor } => {
                        let far = usize::from(cost - floor > wanted + 1);
                        counts[1 + far] += 1;
                        counts[3 + far] += u32::from(floor < 0);
                    }
                    fault => panic!("{fault:?} on a plan that follows the tape"),
                }
            }
        }
        assert!(counts.iter().all(|count| *count > 10), "{counts:?}");
    }
}
