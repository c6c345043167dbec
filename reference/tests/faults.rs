//! The truth of the report (request 6) on tiny tapes, on which all plans about the limits can be
//! listed. The tests of a place are written here a second time.

use std::collections::{BTreeMap, BTreeSet};

use reference::generate::commands::of_furnace;
use reference::generate::furnaces::sized;
use reference::generate::{case, Random};
use reference::model::Column;
use reference::*;

/// The sizes n, m and N of the tapes.
const SIZES: [(usize, usize, usize); 8] = [
    (1, 1, 1),
    (1, 1, 2),
    (1, 1, 3),
    (1, 2, 1),
    (2, 1, 1),
    (2, 2, 1),
    (1, 2, 2),
    (2, 1, 2),
];

/// How many tapes of each of the sizes.
const TAPES: usize = 50;

/// A furnace with limits of one to three numbers, or two where there are many places. Any gap will
/// do.
fn tiny((states, inputs, horizon): (usize, usize, usize), random: &mut Random) -> Furnace {
    let mut furnace = sized(states, inputs, horizon);
    let widest = if furnace.plan_length() > 4 { 1 } else { 2 };
    for i in 0..states {
        let entry = |_| random.between(-5_000, 5_000);
        furnace.a[i] = (0..states).map(entry).collect();
        let entry = |_| random.between(-5_000, 5_000);
        furnace.b[i] = (0..inputs).map(entry).collect();
        furnace.drift[i] = random.between(-5_000, 5_000);
        furnace.start[i] = random.between(-2, 2);
    }
    for column in &mut furnace.columns {
        let lo = random.between(-2, 1);
        *column = Column {
            lo,
            hi: lo + random.between(0, widest),
            reference: random.between(-3, 3),
            weight: random.between(0, 2),
        };
    }
    furnace.wanted_gap = 0xffff_ffff;
    furnace
}

/// The step and the column of a place.
fn step_and_column(furnace: &Furnace, place: usize) -> (usize, usize) {
    let (step, within) = (place / furnace.columns.len(), place % furnace.columns.len());
    match within.checked_sub(furnace.inputs) {
        Some(state) => (step, state),
        None => (step, furnace.states + within),
    }
}

/// All lists of numbers from one below lo to one above hi.
fn lists(furnace: &Furnace) -> Vec<Vec<i32>> {
    let mut all = vec![Vec::new()];
    for place in 0..furnace.plan_length() {
        let (_, column) = step_and_column(furnace, place);
        let Column { lo, hi, .. } = furnace.columns[column];
        let longer = |list: Vec<i32>| {
            let numbers = lo as i32 - 1..=hi as i32 + 1;
            numbers.map(move |number| [&list[..], &[number]].concat())
        };
        all = all.into_iter().flat_map(longer).collect();
    }
    all
}

/// S of x(k+1,i), from the numbers before it in a plan.
fn sum(furnace: &Furnace, plan: &[i32], step: usize, i: usize) -> Whole {
    let columns = furnace.columns.len();
    let before = |place: usize| Whole::from(plan[place]);
    let mut sum = furnace.drift[i];
    for j in 0..furnace.states {
        let state = match step {
            0 => furnace.start[j],
            _ => before((step - 1) * columns + furnace.inputs + j),
        };
        sum += furnace.a[i][j] * state;
    }
    for j in 0..furnace.inputs {
        sum += furnace.b[i][j] * before(step * columns + j);
    }
    sum
}

/// Does the number go with S? The residual lies in −2048 to 2047.
fn goes_with(sum: Whole, number: Whole) -> bool {
    (-2048..=2047).contains(&(sum - 4096 * number))
}

/// Is the number at a place the model's, as that of an input always is?
fn on_model(furnace: &Furnace, plan: &[i32], place: usize) -> bool {
    let (step, column) = step_and_column(furnace, place);
    let number = Whole::from(plan[place]);
    column >= furnace.states || goes_with(sum(furnace, plan, step, column), number)
}

/// Is the number at a place within its limits?
fn within(furnace: &Furnace, plan: &[i32], place: usize) -> bool {
    let (_, column) = step_and_column(furnace, place);
    let Column { lo, hi, .. } = furnace.columns[column];
    (lo..=hi).contains(&Whole::from(plan[place]))
}

/// Checks a report of 10 or 11 against the tests, and gives its place.
fn check_fault(furnace: &Furnace, plan: &[i32], report: Report) -> usize {
    let (Report::OffModel(fault) | Report::OverLimit(fault)) = report else {
        panic!("{report:?} on {plan:?}: {furnace:?}");
    };
    let mut places = 0..plan.len();
    let here = |place: &usize| step_and_column(furnace, *place) == (fault.step, fault.column);
    let place = places.find(here).expect("a place of the plan");
    for earlier in 0..place {
        assert!(on_model(furnace, plan, earlier) && within(furnace, plan, earlier));
    }
    assert_eq!(fault.found, Whole::from(plan[place]));
    if let Report::OffModel(_) = report {
        assert!(!on_model(furnace, plan, place));
        let sum = sum(furnace, plan, fault.step, fault.column);
        assert!(goes_with(sum, fault.due));
    } else {
        assert!(on_model(furnace, plan, place));
        let Column { lo, hi, .. } = furnace.columns[fault.column];
        let below = fault.found < lo && fault.due == lo;
        assert!(below || fault.found > hi && fault.due == hi);
    }
    place
}

/// What a fault is, in words for the counts.
fn names(furnace: &Furnace, plan: &[i32], place: usize, report: Report) -> Vec<&'static str> {
    let of_input = step_and_column(furnace, place).1 >= furnace.states;
    let numbers = report.numbers();
    let below = numbers[3] < numbers[4];
    let mut names = vec![match (numbers[0], of_input, below) {
        (10, _, true) => "10 below",
        (10, _, false) => "10 above",
        (_, true, true) => "11 of an input, below",
        (_, true, false) => "11 of an input, above",
        (_, false, true) => "11 of a state, below",
        (_, false, false) => "11 of a state, above",
    }];
    if numbers[0] == 10 && !within(furnace, plan, place) {
        names.push("10 and 11 at the place");
    }
    names
}

/// The multipliers that each list is judged with: 0, of either sign, and at an end of their range.
fn multipliers(furnace: &Furnace, random: &mut Random) -> Vec<Vec<i32>> {
    let count = furnace.multipliers_length();
    let drawn = (0..count).map(|_| random.between(-50, 50) as i32).collect();
    vec![
        vec![0; count],
        drawn,
        vec![1; count],
        vec![-16_777_216; count],
    ]
}

/// Checks the reports on all lists of a tape, and counts them.
fn check_tape(furnace: &Furnace, random: &mut Random, counts: &mut BTreeMap<&str, u32>) {
    let tape = of_furnace(furnace, random).concat();
    let multipliers = multipliers(furnace, random);
    let judged = |plan: &[i32], y: &[i32]| judge_report(&tape, plan, y).expect("a report");
    let accepted = |report: &Report| matches!(report, Report::Accepted { .. });
    let lists = lists(furnace);
    let mut fronts = BTreeSet::new();
    let mut faulty = Vec::new();
    for plan in &lists {
        let reports: Vec<Report> = multipliers.iter().map(|y| judged(plan, y)).collect();
        if reports.iter().any(accepted) {
            fronts.extend((0..=plan.len()).map(|length| &plan[..length]));
            *counts.entry("accepted").or_default() += 1;
        } else {
            // A fault does not depend on the multipliers.
            assert!(reports.iter().all(|report| *report == reports[0]));
            faulty.push((plan, reports[0]));
        }
    }
    for (plan, report) in faulty {
        let place = check_fault(furnace, plan, report);
        assert!(!fronts.contains(&plan[..=place]), "{plan:?}: {furnace:?}");
        for name in names(furnace, plan, place, report) {
            *counts.entry(name).or_default() += 1;
        }
        // The place itself is what no list can go on from.
        if fronts.contains(&plan[..place]) {
            *counts.entry("another number goes on").or_default() += 1;
        }
    }
}

#[test]
fn no_list_that_begins_with_a_reported_front_is_accepted() {
    let mut random = Random::new(9);
    let mut counts = BTreeMap::new();
    for sizes in SIZES {
        for _ in 0..TAPES {
            let furnace = tiny(sizes, &mut random);
            check_tape(&furnace, &mut random, &mut counts);
        }
    }
    assert_eq!(counts.len(), 9, "{counts:?}");
    assert!(counts.values().all(|count| *count > 100), "{counts:?}");
}

#[test]
fn reports_on_generated_plans() {
    let mut counts = BTreeMap::new();
    for seed in 0..600 {
        let case = case(seed);
        let Ok(furnace) = read(&case.tape.bytes) else {
            continue;
        };
        for lent in &case.judged {
            let report = judge_report(&case.tape.bytes, &lent.plan, &lent.multipliers);
            if let Ok(report @ (Report::OffModel(_) | Report::OverLimit(_))) = report {
                let place = check_fault(&furnace, &lent.plan, report);
                for name in names(&furnace, &lent.plan, place, report) {
                    *counts.entry(name).or_default() += 1;
                }
            }
        }
    }
    assert_eq!(counts.len(), 7, "{counts:?}");
    assert!(counts.values().all(|count: &u32| *count > 10), "{counts:?}");
}
