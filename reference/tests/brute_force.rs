//! Tiny tapes, on which all rivals of D = 1 to 6 can be listed.

mod tiny;

use std::collections::BTreeMap;

use reference::floor::{ceiling, floor, piece};
use reference::generate::commands;
use reference::generate::Random;
use reference::model::Column;
use reference::quotient::lowered;
use reference::rounds::minimiser;
use reference::*;
use tiny::*;

/// Have rivals no list of whole numbers among them?
fn fractions_only(rivals: &[Rivals]) -> bool {
    rivals.first().is_some_and(|of_d| of_d.d > 1)
}

/// Is a rival cheaper than a plan of this cost?
fn is_undercut(rivals: &[Rivals], cost: Whole) -> bool {
    rivals.iter().any(|of_d| of_d.least < of_d.in_units(cost))
}

/// Demand 3: no rival costs less than the bound.
fn check_bound(furnace: &Furnace, rivals: &[Rivals], bound: Whole) {
    for of_d in rivals {
        let bound = of_d.in_units(bound);
        assert!(bound <= of_d.least, "{furnace:?}: {bound} above {of_d:?}");
    }
}

#[test]
fn floor_is_under_every_rival() {
    let mut random = Random::new(1);
    // By the number of columns of weight 0.
    let mut with_rivals = [0; 3];
    let mut only_fractions = [0; 3];
    // And by D.
    let mut close = [[0; MOST_D as usize]; 3];
    for _ in 0..3_000 {
        let furnace = tiny(&mut random);
        let zeros = zeros(&furnace);
        let rivals = rivals(&furnace);
        with_rivals[zeros] += u32::from(!rivals.is_empty());
        only_fractions[zeros] += u32::from(fractions_only(&rivals));
        for _ in 0..60 {
            let y = by_steps(&multipliers(&furnace, &mut random));
            let floor = floor(&furnace, &y);
            check_bound(&furnace, &rivals, floor);
            for of_d in &rivals {
                // Within a tenth of the least cost: a floor that is much too low would not be.
                let is_close = of_d.least > 0 && 10 * of_d.in_units(floor) >= 9 * of_d.least;
                close[zeros][of_d.d as usize - 1] += u32::from(is_close);
            }
        }
    }
    let counts = [with_rivals, only_fractions];
    assert!(with_rivals.iter().all(|count| *count > 100), "{counts:?}");
    assert!(only_fractions.iter().all(|count| *count > 10), "{counts:?}");
    // Where all weights are 0 every rival costs 0.
    let mut weighted = close[..2].iter().flatten();
    assert!(weighted.all(|count| *count > 1_000), "{close:?}");
}

#[test]
fn no_rival_is_above_the_ceiling() {
    let mut random = Random::new(8);
    // By D: the dearest rival is at a ceiling above 0, or below it.
    let mut at = [0; MOST_D as usize];
    let mut below = [0; MOST_D as usize];
    for _ in 0..2_000 {
        let furnace = tiny(&mut random);
        let ceiling = ceiling(&furnace);
        for of_d in rivals(&furnace) {
            let (ceiling, place) = (of_d.in_units(ceiling), of_d.d as usize - 1);
            assert!(of_d.most <= ceiling, "{furnace:?}: {of_d:?}");
            at[place] += u32::from(ceiling > 0 && of_d.most == ceiling);
            below[place] += u32::from(of_d.most < ceiling);
        }
    }
    let counts = [at, below].concat();
    assert!(counts.iter().all(|count| *count > 100), "{counts:?}");
}

#[test]
fn shown_leaves_no_rival() {
    let mut random = Random::new(2);
    // By the number of columns of weight 0.
    let mut shown = [0; 3];
    let mut not_shown = [0; 3];
    for _ in 0..3_000 {
        let furnace = tiny(&mut random);
        let tape = commands::of_furnace(&furnace, &mut random).concat();
        let none = rivals(&furnace).is_empty();
        for _ in 0..30 {
            match judge_multipliers(&tape, &multipliers(&furnace, &mut random)) {
                Ok(Shown) => {
                    assert!(none, "{furnace:?}");
                    shown[zeros(&furnace)] += 1;
                }
                Err(refusal) => {
                    assert_eq!(refusal, Refusal::NotShown);
                    not_shown[zeros(&furnace)] += 1;
                }
            }
        }
    }
    let counts = [shown, not_shown].concat();
    assert!(counts.iter().all(|count| *count > 1_000), "{counts:?}");
}

#[test]
fn no_rival_is_cheaper_than_an_accepted_plan_by_more_than_its_gap() {
    let mut random = Random::new(3);
    // By the number of columns of weight 0.
    let mut accepted = [0; 3];
    let (mut ramps, mut undercut) = (0, 0);
    for _ in 0..2_000 {
        let mut furnace = tiny(&mut random);
        furnace.wanted_gap = random.choose(&[100_000, 1_000_000, 0xffff_ffff]);
        let tape = commands::of_furnace(&furnace, &mut random).concat();
        let rivals = rivals(&furnace);
        for (plan, cost) in plans(&furnace) {
            let cost = Whole::from(cost);
            let y = multipliers(&furnace, &mut random);
            match judge_plan(&tape, &plan, &y) {
                Ok(gap) => {
                    accepted[zeros(&furnace)] += 1;
                    ramps += u32::from(has_ramp(&furnace));
                    undercut += u32::from(is_undercut(&rivals, cost));
                    assert!(gap >= 0 && gap <= furnace.wanted_gap);
                    check_bound(&furnace, &rivals, cost - gap);
                }
                Err(Refusal::Wide { cost: told, floor }) => {
                    assert_eq!(told, cost);
                    assert!(told - floor > furnace.wanted_gap);
                    check_bound(&furnace, &rivals, floor);
                }
                Err(refusal) => panic!("{refusal:?} for a plan that follows the tape"),
            }
        }
    }
    assert!(accepted.iter().all(|count| *count > 200), "{accepted:?}");
    assert!(ramps > 300 && undercut > 300, "{ramps} {undercut}");
}

#[test]
fn only_plans_that_follow_the_tape_are_accepted() {
    let mut random = Random::new(4);
    // By the number of columns of weight 0.
    let mut accepted = [0; 3];
    let mut refused = [0; 3];
    for _ in 0..500 {
        let mut furnace = tiny_of(1, &mut random);
        let zeros = zeros(&furnace);
        furnace.wanted_gap = 0xffff_ffff;
        let tape = commands::of_furnace(&furnace, &mut random).concat();
        let plans = plans(&furnace);
        for u in -20..=20 {
            for x in -40..=40 {
                let plan = vec![u, x];
                let follows = plans.iter().any(|(listed, _)| *listed == plan);
                let judged = judge_plan(&tape, &plan, &[0]);
                assert_eq!(judged.is_ok(), follows);
                match judged {
                    Ok(_) => accepted[zeros] += 1,
                    Err(refusal) => {
                        assert!([10, 11].contains(&refusal.number()));
                        refused[zeros] += 1;
                    }
                }
            }
        }
    }
    let counts = [accepted, refused].concat();
    assert!(counts.iter().all(|count| *count > 80), "{counts:?}");
}

/// What a solve of a tiny furnace was, in words for the counts. It agrees with the list of rivals.
fn solved(furnace: &Furnace, random: &mut Random) -> Vec<&'static str> {
    let tape = commands::of_furnace(furnace, random).concat();
    let rivals = rivals(furnace);
    let mut plan = vec![0; 2 * furnace.horizon];
    let mut y = vec![0; furnace.horizon];
    let ramp = has_ramp(furnace);
    let names = match solve(&tape, &mut plan, &mut y) {
        Ok(Solved::Proved { rounds, gap, first }) => {
            check_proved(furnace, &rivals, &plan, gap);
            assert_eq!(first, [plan[0], 0, 0, 0]);
            let late = rounds > 2;
            vec![
                ("proved, gap 0", gap == 0),
                ("proved, gap above 0", gap > 0),
                ("proved late", late),
                ("proved late, a ramp", late && ramp),
            ]
        }
        Ok(Solved::Impossible { .. }) => {
            assert!(rivals.is_empty(), "{furnace:?}");
            assert_eq!(judge_multipliers(&tape, &y), Ok(Shown));
            vec![("impossible", true), ("impossible, a ramp", ramp)]
        }
        Err(refusal) => {
            let rounds = furnace.rounds;
            assert_eq!(refusal, Refusal::Open { rounds });
            vec![("open", true)]
        }
    };
    let names = names.into_iter().filter(|(_, is)| *is);
    names.map(|(name, _)| name).collect()
}

/// A proved plan follows the tape, and no rival costs less than it by more than the gap.
fn check_proved(furnace: &Furnace, rivals: &[Rivals], plan: &[i32], gap: Whole) {
    let (_, cost) = plans(furnace)
        .into_iter()
        .find(|(listed, _)| *listed == plan)
        .expect("a proved plan follows the tape");
    check_bound(furnace, rivals, Whole::from(cost) - gap);
    assert!(gap <= furnace.wanted_gap);
}

#[test]
fn solves_agree_with_the_list_of_rivals() {
    let mut random = Random::new(5);
    // By the number of columns of weight 0.
    let mut counts: BTreeMap<&str, [u32; 3]> = BTreeMap::new();
    for _ in 0..40_000 {
        let furnace = tiny(&mut random);
        for name in solved(&furnace, &mut random) {
            counts.entry(name).or_default()[zeros(&furnace)] += 1;
        }
    }
    assert_eq!(counts.len(), 7, "{counts:?}");
    let mut all = counts.values().flatten();
    assert!(all.all(|count| *count > 10), "{counts:?}");
}

/// The floor of a tiny furnace, with the quotient of the third piece rounded up or, as before request
/// 7, down. How many pieces are the third, too.
fn floor_by_hand(furnace: &Furnace, y: &[Vec<Whole>], up: bool) -> (Whole, usize) {
    let (a, b) = (furnace.a[0][0], furnace.b[0][0]);
    let (mut floor, mut thirds) = (y[0][0] * a * furnace.start[0], 0);
    for k in 0..furnace.horizon {
        let after = y.get(k + 1).map_or(0, |y| y[0]);
        for (c, s) in [(0, -4096 * y[k][0] + a * after), (1, b * y[k][0])] {
            let Column { lo, hi, weight, .. } = furnace.columns[c];
            let (p, r) = (4096 * weight, furnace.reference(c, k));
            if 2 * p * (lo - r) + s >= 0 {
                floor += p * (lo - r).pow(2) + s * lo;
            } else if 2 * p * (hi - r) + s <= 0 {
                floor += p * (hi - r).pow(2) + s * hi;
            } else {
                let whole = s * s % (4 * p) == 0;
                let quotient = s * s / (4 * p) + Whole::from(up && !whole);
                floor += s * r - quotient;
                thirds += 1;
            }
        }
        floor += y[k][0] * furnace.drift[0] - 2048 * y[k][0].abs();
    }
    (floor, thirds)
}

#[test]
fn rounding_up_lowers_the_floor_by_at_most_one_for_each_number() {
    let mut random = Random::new(9);
    // By the number of steps: the floors that are lower by 0 to 4.
    let mut counts = [[0; 5]; 2];
    for _ in 0..40_000 {
        let mut furnace = tiny(&mut random);
        if random.one_in(2) {
            // With references inside the limits more pieces are the third.
            furnace.curves.fill(None);
            for column in &mut furnace.columns {
                column.reference = random.between(column.lo, column.hi);
            }
        }
        let y = by_steps(&multipliers(&furnace, &mut random));
        let (up, thirds) = floor_by_hand(&furnace, &y, true);
        let (down, _) = floor_by_hand(&furnace, &y, false);
        assert_eq!(floor(&furnace, &y), up, "{furnace:?} {y:?}");
        assert_eq!(lowered(&furnace, &y), down - up, "{furnace:?} {y:?}");
        let by = usize::try_from(down - up).expect("no floor is higher");
        assert!(by <= thirds && thirds <= furnace.plan_length());
        counts[furnace.horizon - 1][by] += 1;
    }
    // One step has 2 numbers, two steps have 4.
    let possible = [&counts[0][..3], &counts[1]].concat();
    assert!(possible.iter().all(|count| *count > 50), "{counts:?}");
}

/// A column with limits up to 30 apart, and a reference between them or not.
fn column_of(weight: Whole, random: &mut Random) -> Column {
    let lo = random.between(-30, 30);
    Column {
        lo,
        hi: lo + random.between(0, 30),
        reference: random.between(-60, 60),
        weight,
    }
}

#[test]
fn piece_is_the_largest_whole_number_under_all_fractions() {
    let mut random = Random::new(10);
    // By the number of the piece, the third one whole or not: the fourth.
    let mut tried = [0; 4];
    for _ in 0..20_000 {
        let weight = random.between(1, 3);
        let column = column_of(weight, &mut random);
        let Column { lo, hi, .. } = column;
        let (p, r) = (4096 * column.weight, column.reference);
        let (range, grain) = random.choose(&[(20_000, 1), (600_000, 1), (600_000, 4096)]);
        let s = random.between(-range, range) / grain * grain;
        // With D = 2P the real number at which P (v − r)² + s v is least is V = 2P r − s, and the
        // nearer end where that is outside the limits. In units of 1/D²:
        let d = 2 * p;
        let value = |v: Whole| p * (v - d * r) * (v - d * r) + s * v * d;
        let best = (d * r - s).clamp(d * lo, d * hi);
        let beside = [-d, -1, 0, 1, d].map(|by| (best + by).clamp(d * lo, d * hi));
        let least = beside.map(value).into_iter().min().unwrap();
        assert_eq!(least, value(best));
        let piece = piece(&column, s);
        let whole = least % (d * d) == 0;
        assert!(d * d * piece <= least && least < d * d * (piece + 1));
        let place = match best {
            v if v == d * lo => 0,
            v if v == d * hi => 1,
            _ if whole => 2,
            _ => 3,
        };
        tried[place] += 1;
    }
    assert!(tried.iter().all(|count| *count > 100), "{tried:?}");
}

#[test]
fn piece_and_minimiser_of_weight_0_against_all_numbers() {
    let mut random = Random::new(7);
    // By the sign of the slope: below 0, 0, above.
    let mut tried = [0; 3];
    for _ in 0..20_000 {
        let column = column_of(0, &mut random);
        let Column { lo, hi, .. } = column;
        let range = random.choose(&[1, 2, 600_000]);
        let s = random.between(-range, range);
        tried[(1 + s.signum()) as usize] += 1;
        let least = (lo..=hi).map(|v| s * v).min().unwrap();
        assert_eq!(piece(&column, s), least, "{column:?} {s}");
        // The least number that attains it.
        let v = (lo..=hi).find(|v| s * v == least);
        assert_eq!(Some(minimiser(&column, s)), v, "{column:?} {s}");
    }
    assert!(tried.iter().all(|count| *count > 1_000), "{tried:?}");
}

#[test]
fn piece_and_minimiser_against_all_numbers() {
    let mut random = Random::new(6);
    for _ in 0..20_000 {
        let weight = random.between(1, 3);
        let column = column_of(weight, &mut random);
        let Column { lo, hi, .. } = column;
        let p = 4096 * column.weight;
        let s = random.between(-600_000, 600_000);
        let value = |v: Whole| p * (v - column.reference) * (v - column.reference) + s * v;
        let least = (lo..=hi).map(value).min().unwrap();
        let piece = piece(&column, s);
        assert!(piece <= least, "{column:?} {s}");
        // A whole number lies within half a unit of the least: P × (1/2)² more, and rounding.
        assert!(least <= piece + p / 4 + 1, "{column:?} {s}");
        let v = minimiser(&column, s);
        assert!(column.contains(v));
        assert_eq!(value(v), least, "{column:?} {s}");
    }
}
