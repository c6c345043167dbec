//! What must hold of every generated case.

use std::collections::BTreeMap;

use reference::calls::{input_place, lent_multipliers, lent_plan, state_place};
use reference::generate::{case, commands, kind, tape, Case, Kind, Random};
use reference::model::{cost, follows_tape, residual, Plan};
use reference::quotient::lowered;
use reference::rounds::{Candidate, Ending, Round};
use reference::shapes::some_weight_0;
use reference::*;

/// The seeds of these tests.
const SEEDS: std::ops::Range<u64> = 0..1_500;

/// Document 01: at these limits no sum passes this size.
const MOST: Whole = 5_000_000_000_000_000_000;

/// A solve's answer, and the plan and the multipliers at exit.
type Exit = (Result<Solved, Refusal>, Vec<i32>, Vec<i32>);

/// Solves with each of the case's slices.
fn solved(case: &Case) -> Vec<Exit> {
    let solve_one = |lent: &generate::Lent| {
        let (mut plan, mut multipliers) = (lent.plan.clone(), lent.multipliers.clone());
        let answer = solve(&case.tape.bytes, &mut plan, &mut multipliers);
        (answer, plan, multipliers)
    };
    case.solved.iter().map(solve_one).collect()
}

#[test]
fn same_seed_same_case() {
    for seed in 0..100 {
        let one = case(seed);
        assert_eq!(one, case(seed));
        assert_eq!(one.tape, tape(seed));
    }
}

#[test]
fn same_seed_same_imports() {
    // By bits, since what is not a number differs from itself.
    let bits = |entries: &[f64]| entries.iter().map(|entry| entry.to_bits()).collect();
    let all = |seed| -> Vec<Vec<u64>> {
        let entries: Vec<f64> = generate::entries(seed).iter().map(|e| e.entry).collect();
        let models = generate::models(seed);
        let models = models.iter().map(|model| bits(&model.entries()));
        models.chain([bits(&entries)]).collect()
    };
    for seed in 0..100 {
        assert_eq!(all(seed), all(seed));
    }
}

#[test]
fn same_seed_same_duties() {
    for seed in 0..100 {
        assert_eq!(generate::duties(seed), generate::duties(seed));
    }
}

#[test]
fn same_seed_same_lendings() {
    // By bits, since what is not a number differs from itself.
    let bits = |seed| -> Vec<(Whole, u64)> {
        let next = generate::next_steps(seed).into_iter();
        next.map(|next| (next.y, next.d.to_bits())).collect()
    };
    for seed in 0..100 {
        assert_eq!(generate::lendings(seed), generate::lendings(seed));
        assert_eq!(bits(seed), bits(seed));
    }
}

#[test]
fn a_quarter_has_command_51() {
    let mut steps = [0, 0];
    for seed in 0..2_000 {
        // Late ones take long to make.
        if kind(seed) != Kind::Late {
            if let Ok(step) = read_step(&tape(seed).bytes) {
                steps[step as usize] += 1;
            }
        }
    }
    let share = 100 * steps[1] / (steps[0] + steps[1]);
    assert!((20..=30).contains(&share), "{steps:?}");
}

#[test]
fn kinds_meant_to_be_accepted_are() {
    let mut longest = 0;
    for seed in SEEDS {
        let tape = tape(seed);
        if ![Kind::Damaged, Kind::Noise].contains(&tape.kind) {
            assert!(read(&tape.bytes).is_ok(), "seed {seed}");
            longest = longest.max(tape.bytes.len());
        }
    }
    assert_eq!(longest, 1_064);
}

#[test]
fn weight_0_comes_in_a_third_of_each_kind() {
    let mut counts: BTreeMap<Kind, (u32, u32)> = BTreeMap::new();
    for seed in 0..4_000 {
        let kind = kind(seed);
        // Late ones take long to make, and damaged ones may be refused.
        if [Kind::Late, Kind::Damaged, Kind::Noise].contains(&kind) {
            continue;
        }
        let furnace = read(&tape(seed).bytes).unwrap();
        let (all, with_zeros) = counts.entry(kind).or_default();
        *all += 1;
        *with_zeros += u32::from(some_weight_0(&furnace));
    }
    assert_eq!(counts.len(), 5);
    for (kind, (all, with_zeros)) in counts {
        let share = 100 * with_zeros / all;
        assert!(
            (25..=42).contains(&share),
            "{kind:?}: {with_zeros} of {all}"
        );
    }
}

#[test]
fn late_tapes_end_late() {
    let mut late = 0;
    for seed in 0..500 {
        let tape = tape(seed);
        if tape.kind == Kind::Late {
            let furnace = read(&tape.bytes).unwrap();
            let mut plan = vec![0; furnace.plan_length()];
            let mut multipliers = vec![0; furnace.multipliers_length()];
            match solve(&tape.bytes, &mut plan, &mut multipliers) {
                Ok(Solved::Proved { rounds, .. } | Solved::Impossible { rounds }) => {
                    assert!(rounds >= 1_000, "seed {seed}");
                }
                // R may be a round too few.
                answer => {
                    let rounds = furnace.rounds;
                    assert_eq!(answer, Err(Refusal::Open { rounds }), "seed {seed}");
                    assert!(rounds >= 999, "seed {seed}");
                }
            }
            late += 1;
        }
    }
    assert!(late > 0);
}

#[test]
fn judging_what_a_solve_wrote() {
    for seed in SEEDS {
        let case = case(seed);
        let tape = &case.tape.bytes;
        for ((answer, plan, multipliers), lent) in solved(&case).into_iter().zip(&case.solved) {
            match answer {
                Ok(Solved::Proved { gap, first, .. }) => {
                    assert_eq!(
                        judge_plan(tape, &plan, &multipliers),
                        Ok(gap),
                        "seed {seed}"
                    );
                    let inputs = read(tape).unwrap().inputs;
                    assert_eq!(first[..inputs], plan[..inputs], "seed {seed}");
                    assert!(first[inputs..].iter().all(|duty| *duty == 0), "seed {seed}");
                }
                Ok(Solved::Impossible { .. }) => {
                    assert_eq!(
                        judge_multipliers(tape, &multipliers),
                        Ok(Shown),
                        "seed {seed}"
                    );
                    assert_eq!(plan, lent.plan, "seed {seed}");
                }
                Err(_) => {
                    assert_eq!((&plan, &multipliers), (&lent.plan, &lent.multipliers));
                }
            }
        }
    }
}

#[test]
fn shown_and_accepted_exclude_each_other() {
    for seed in SEEDS {
        let case = case(seed);
        let tape = &case.tape.bytes;
        let plans = case.judged.iter();
        let accepted = plans.filter(|lent| judge_plan(tape, &lent.plan, &lent.multipliers).is_ok());
        let multipliers = case.judged.iter();
        let shown = multipliers.filter(|lent| judge_multipliers(tape, &lent.multipliers).is_ok());
        assert!(accepted.count() == 0 || shown.count() == 0, "seed {seed}");
    }
}

/// The denominators with which generated plans are tried as rivals.
const DENOMINATORS: [Whole; 4] = [1, 2, 3, 1 << 25];

/// The furnace in units of 1/D: all temperatures and duties times D, A, B and the weights as they are.
fn in_units(furnace: &Furnace, d: Whole) -> Furnace {
    let mut units = furnace.clone();
    for column in &mut units.columns {
        for number in [&mut column.lo, &mut column.hi, &mut column.reference] {
            *number *= d;
        }
    }
    let curves = units.curves.iter_mut().flatten().flatten();
    for number in curves.chain(&mut units.start).chain(&mut units.drift) {
        *number *= d;
    }
    units
}

/// The numbers in the places of a plan of a furnace.
fn plan_of(furnace: &Furnace, numbers: &[Whole]) -> Plan {
    let mut plan = lent_plan(furnace, &vec![0; numbers.len()]);
    for k in 0..furnace.horizon {
        for j in 0..furnace.inputs {
            plan.u[k][j] = numbers[input_place(furnace, k, j)];
        }
        for i in 0..furnace.states {
            plan.x[k + 1][i] = numbers[state_place(furnace, k + 1, i)];
        }
    }
    plan
}

/// Checks a list against document 01's limits, residuals and cost in units of 1/D. Is it a rival?
fn check_rival(furnace: &Furnace, d: Whole, numbers: &[Whole]) -> bool {
    let units = in_units(furnace, d);
    let plan = plan_of(&units, numbers);
    let mut expected = true;
    for k in 0..units.horizon {
        for j in 0..units.inputs {
            expected &= units.input_column(j).contains(plan.u[k][j]);
        }
        for i in 0..units.states {
            expected &= units.state_column(i).contains(plan.x[k + 1][i]);
            expected &= residual(&units, &plan, k, i).abs() <= 2048 * d;
        }
    }
    assert_eq!(rival::is_rival(furnace, d, numbers), expected);
    assert_eq!(rival::cost(furnace, d, numbers), cost(&units, &plan));
    expected
}

#[test]
fn plans_that_follow_the_tape_are_rivals() {
    let mut random = Random::new(8);
    // By D: lists beside plans that are rivals, and that are not.
    let mut beside = [[0; DENOMINATORS.len()]; 2];
    for seed in SEEDS {
        let case = case(seed);
        for lent in &case.judged {
            let judged = judge_plan(&case.tape.bytes, &lent.plan, &lent.multipliers);
            let (Ok(_) | Err(Refusal::Wide { .. })) = judged else {
                continue;
            };
            let furnace = read(&case.tape.bytes).unwrap();
            let cost = cost(&furnace, &lent_plan(&furnace, &lent.plan));
            for (place, d) in DENOMINATORS.into_iter().enumerate() {
                let whole = lent.plan.iter().map(|number| d * Whole::from(*number));
                let mut numbers: Vec<Whole> = whole.collect();
                assert!(check_rival(&furnace, d, &numbers), "seed {seed}");
                assert_eq!(rival::cost(&furnace, d, &numbers), d * d * cost);
                let by = random.choose(&[1, d / 4 + 1, d]) * random.choose(&[-1, 1]);
                numbers[random.below(lent.plan.len())] += by;
                let is = check_rival(&furnace, d, &numbers);
                beside[usize::from(!is)][place] += 1;
            }
        }
    }
    let mut counts = beside.iter().flatten();
    assert!(counts.all(|count| *count > 100), "{beside:?}");
}

#[test]
fn rounding_up_lowers_floors_of_all_sizes() {
    // Of furnaces with 20 numbers and more: floors that are the same, and ones that are lower by
    // almost one for each number.
    let (mut same, mut most) = (0, 0);
    for seed in SEEDS {
        let case = case(seed);
        let Ok(furnace) = read(&case.tape.bytes) else {
            continue;
        };
        for lent in &case.judged {
            if lent.multipliers.len() == furnace.multipliers_length() {
                let by = lowered(&furnace, &lent_multipliers(&furnace, &lent.multipliers));
                let numbers = furnace.plan_length() as Whole;
                assert!((0..=numbers).contains(&by), "seed {seed}");
                same += u32::from(numbers >= 20 && by == 0);
                most += u32::from(numbers >= 20 && 10 * by >= 9 * numbers);
            }
        }
    }
    assert!(same > 100 && most > 100, "{same} {most}");
}

/// The furnace with curves that hold the references of command 30 on some of its columns that have
/// none, and another r there.
fn hold_as_curve(furnace: &Furnace, random: &mut Random) -> Furnace {
    let mut curved = furnace.clone();
    for c in 0..furnace.columns.len() {
        if furnace.curves[c].is_none() && !random.one_in(3) {
            let hold = furnace.columns[c].reference;
            curved.curves[c] = Some(vec![hold; furnace.horizon]);
            curved.columns[c].reference = random.between(-20_000, 20_000);
        }
    }
    curved
}

/// The furnace with other references on its columns of weight 0, by command 30 and by curves that
/// come and go.
fn other_references(furnace: &Furnace, random: &mut Random) -> Furnace {
    let mut other = furnace.clone();
    for c in 0..furnace.columns.len() {
        if furnace.columns[c].weight == 0 {
            other.columns[c].reference = random.between(-20_000, 20_000);
            let steps = 0..furnace.horizon;
            let curve = steps.map(|_| random.between(-20_000, 20_000)).collect();
            other.curves[c] = random.one_in(2).then_some(curve);
        }
    }
    other
}

/// Checks that no judging or solving of generated tapes tells a furnace from what `change` makes of
/// it. How many furnaces it changed.
fn check_unchanged(change: fn(&Furnace, &mut Random) -> Furnace) -> u32 {
    let mut random = Random::new(7);
    let mut changed = 0;
    for seed in 0..600 {
        let case = case(seed);
        let Ok(furnace) = read(&case.tape.bytes) else {
            continue;
        };
        let other = change(&furnace, &mut random);
        changed += u32::from(other != furnace);
        let tape = commands::of_furnace(&other, &mut random).concat();
        assert_eq!(read(&tape), Ok(other), "seed {seed}");
        for lent in &case.judged {
            let (plan, multipliers) = (&lent.plan, &lent.multipliers);
            let judged = |tape: &[u8]| {
                (
                    judge_plan(tape, plan, multipliers),
                    judge_multipliers(tape, multipliers),
                )
            };
            assert_eq!(judged(&tape), judged(&case.tape.bytes), "seed {seed}");
        }
        let mut with_other = case.clone();
        with_other.tape.bytes = tape;
        assert_eq!(solved(&with_other), solved(&case), "seed {seed}");
    }
    changed
}

#[test]
fn a_curve_equal_to_the_hold_answers_as_the_hold() {
    let changed = check_unchanged(hold_as_curve);
    assert!(changed > 300, "{changed}");
}

#[test]
fn the_references_of_weight_0_change_nothing() {
    let changed = check_unchanged(other_references);
    assert!(changed > 100, "{changed}");
}

/// Checks one round against what the paper says of it, in ways other than the rounds' own.
fn check_round(furnace: &Furnace, round: &Round) {
    // The floor without its last term is the least of K + sum of y × e over the limits. Step
    // 2's numbers are within half a unit of that least: P / 4 each, and rounding. At weight 0 they
    // are just there.
    let (mut products, mut size, mut slack) = (0, 0, 0);
    for k in 0..furnace.horizon {
        for i in 0..furnace.states {
            products += round.y_tilde[k][i] * round.residuals[k][i];
            size += round.y_tilde[k][i].abs();
        }
        for column in furnace.columns.iter().filter(|column| column.weight > 0) {
            slack += column.price() / 4 + 1;
        }
    }
    let numbers_cost = cost(furnace, &round.numbers);
    let least = round.floor + 2048 * size;
    assert!(least <= numbers_cost + products);
    assert!(numbers_cost + products <= least + slack);
    assert!(numbers_cost <= round.ceiling);
    assert!(round.floor.abs() <= MOST && round.ceiling <= MOST);
    if let Candidate::Follows { plan, cost, gap } = &round.candidate {
        assert!(follows_tape(furnace, plan));
        assert_eq!(plan.u, round.numbers.u);
        assert_eq!(cost - gap, round.floor);
        assert!(0 <= *gap && *gap <= MOST);
        assert_ne!(round.ending, Ending::Impossible);
    }
}

#[test]
fn rounds_of_generated_tapes() {
    for seed in 0..400 {
        let case = case(seed);
        let Ok(furnace) = read(&case.tape.bytes) else {
            continue;
        };
        let mut plan = vec![0; furnace.plan_length()];
        let mut multipliers = vec![0; furnace.multipliers_length()];
        let mut entered = 0;
        let mut next = vec![vec![0; furnace.states]; furnace.horizon];
        let watch = &mut |round: &Round| {
            assert_eq!(round.k, entered);
            assert_eq!(round.y, next);
            check_round(&furnace, round);
            entered += 1;
            if let Ending::Next(y) = &round.ending {
                next = y.clone();
            }
        };
        let answer = solve_traced(&case.tape.bytes, &mut plan, &mut multipliers, watch);
        let rounds = match answer {
            Ok(Solved::Proved { rounds, .. } | Solved::Impossible { rounds }) => rounds,
            Err(refusal) => {
                let rounds = furnace.rounds;
                assert_eq!(refusal, Refusal::Open { rounds });
                rounds
            }
        };
        assert_eq!(rounds, entered, "seed {seed}");
        assert!(rounds <= furnace.rounds);
    }
}

#[test]
fn few_seeds_lead_to_every_answer() {
    // The program `reference generate` counts more of them.
    let counts = count::count_cases(1_500, 50_000);
    for answer in ["proved", "impossible", "refused 9", "refused 15"] {
        assert!(counts.count("solve", answer) > 0, "{answer}");
    }
    for number in 1..=13 {
        let name = format!("refused {number}");
        assert!(counts.count("judge plan", &name) > 0, "{name}");
    }
    for answer in ["shown", "refused 12", "refused 14"] {
        assert!(counts.count("judge multipliers", answer) > 0, "{answer}");
    }
    for number in 4..=7 {
        let name = format!("refused {number}");
        assert!(counts.count(count::STEPS, &name) > 0, "{name} for a 31");
    }
    let [judged, solved] = count::QUOTIENTS;
    for name in ["gap larger", "13 in place of a gap", "14 in place of shown"] {
        assert!(counts.count(judged, name) > 0, "{name}");
    }
    for name in ["proved, gap larger", "proved later", "impossible later"] {
        assert!(counts.count(solved, name) > 0, "{name}");
    }
    let [read, refused, solve, correction, ..] = count::BANDED;
    for (heading, names) in [
        (read, ["50", "51", "51"]),
        (
            refused,
            ["6 for 51 after 50", "7 for neither", "18 before 8"],
        ),
        (solve, ["proved", "impossible", "with g"]),
        (correction, ["written", "fallen back", "refused 9"]),
    ] {
        for name in names {
            assert!(counts.count(heading, name) > 0, "{heading}: {name}");
        }
    }
    for heading in count::RANGES {
        for name in ["weight 0", "first, hi", "second, lo", "third, neither"] {
            let heading = format!("{heading}, ends");
            assert!(counts.count(&heading, name) > 0, "{heading}: {name}");
        }
    }
}
