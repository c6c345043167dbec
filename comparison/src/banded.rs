//! Banded steps: of all sizes, of zones that heat each other as strongly as A allows and of tapes that
//! fall back on g, with residuals of every size at every place and slices of every length; of a seed;
//! and what is refused for command 51.

use reference::banded::Elimination;
use reference::calls::RESIDUAL_RANGE;
use reference::generate::commands::{of_furnace, search_with, Command};
use reference::generate::furnaces::{largest, sized};
use reference::generate::{lendings, lent, Lending as Residuals, Lent, Random};
use reference::model::{Column, Correction, Furnace, Whole};
use reference::tape::{
    COLUMN, ENTRY_RANGE, MOST_INPUTS, MOST_STATES, MOST_STEPS, MOST_WEIGHT, NUMBER_RANGE, START,
};
use reference::{read, Refusal};

use crate::calls::{Answer, Call, Lending};
use crate::comparison::{
    Comparison, BANDED_LENGTHS, BANDED_SIZES, DRAWN_BANDED, HALF_D, RESIDUALS, TWO_SEARCHES,
    WEIGHTLESS,
};
use crate::edges::of_all_sizes;

/// The seed of what has no other.
const SEED: u64 = 8;

/// Tapes of a seed with more rounds are not solved: the cases of seeds have enough of them.
const MOST_ROUNDS: u32 = 30;

/// Halves behind these numbers and behind those below 0 are tried. Nearer to 0 the second round's gap is no
/// smaller than the first's, so that no T shows its multipliers.
const HALVES: std::ops::Range<Whole> = 10..40;

/// The heading of banded steps at the edges, by the tape and by what is answered.
pub const AT_THE_EDGES: &str = "banded correction, at the edges";

/// What a tape's step comes to, in words for the counts.
const ENDS: [&str; 3] = ["with d", "falls back", "command 50"];

/// Answers that are counted for each of [`ENDS`].
const ANSWERS: [&str; 3] = ["answered", "refused 9", "refused 5"];

/// Of [`AT_THE_EDGES`]: a d that is beyond 2^25 in size.
const FAR: &str = "with d, a d beyond 2^25";

/// Of [`AT_THE_EDGES`]: refusals of tapes with command 51 and a weight of 0.
const REFUSED: [&str; 3] = ["weightless", "weightless, before 8", "absent, before 18"];

/// The names under [`AT_THE_EDGES`].
pub fn names() -> Vec<String> {
    let ends = ENDS.iter();
    let of_ends = ends.flat_map(|end| ANSWERS.map(|answer| format!("{end}, {answer}")));
    let others = REFUSED.into_iter().chain([FAR]).map(str::to_string);
    of_ends.chain(others).collect()
}

/// What the step of a furnace comes to, of [`ENDS`].
fn end(furnace: &Furnace) -> &'static str {
    let [with_d, falls, gain] = ENDS;
    match (furnace.correction, Elimination::of_tape(furnace)) {
        (Correction::Gain, _) => gain,
        (Correction::Banded, None) => falls,
        (Correction::Banded, Some(_)) => with_d,
    }
}

/// A furnace with its tape.
struct Made {
    tape: Vec<u8>,
    furnace: Furnace,
    end: &'static str,
}

impl Made {
    /// A furnace with its tape.
    fn new(furnace: Furnace, random: &mut Random) -> Made {
        Made {
            tape: of_furnace(&furnace, random).concat(),
            end: end(&furnace),
            furnace,
        }
    }

    /// N × n.
    fn rows(&self) -> usize {
        self.furnace.multipliers_length()
    }
}

/// Calls on all tapes and slices of these kinds.
pub fn add_banded(comparison: &mut Comparison) {
    let mut random = Random::new(SEED);
    add_sizes(comparison, &mut random);
    for furnace in furnaces(&mut random) {
        let made = Made::new(furnace, &mut random);
        add_lengths(comparison, &made);
        for residuals in all_residuals(made.rows(), &mut random) {
            let lengths = [made.rows(); 2];
            correct(comparison, RESIDUALS, &made, &residuals, lengths);
        }
        if comparison.ends() {
            return;
        }
    }
    add_halves(comparison, &mut random);
    add_weightless(comparison, &mut random);
    add_two_searches(comparison, &mut random);
}

/// All calls on tapes of all sizes with command 51; and their banded steps with residuals, pivots and d
/// of every length, from 0 to beyond the longest, the other two slices having their right length. A
/// quarter of these have command 50.
fn add_sizes(comparison: &mut Comparison, random: &mut Random) {
    for mut furnace in of_all_sizes(random) {
        furnace.correction = Correction::Banded;
        let made = Made::new(furnace.clone(), random);
        let lent = any_lent(&furnace, random);
        for call in Call::ALL {
            comparison.also(call, &of_lent(BANDED_SIZES, &made.tape, &lent));
        }
        if random.one_in(4) {
            furnace.correction = Correction::Gain;
        }
        add_lengths(comparison, &Made::new(furnace, random));
        if comparison.ends() {
            return;
        }
    }
}

/// A plan and multipliers of a furnace's lengths, of any values.
fn any_lent(furnace: &Furnace, random: &mut Random) -> Lent {
    lent::any_values(furnace.plan_length(), furnace.multipliers_length(), random)
}

/// A tape with slices, from an origin.
fn of_lent<'a>(origin: &'a str, tape: &'a [u8], lent: &'a Lent) -> Lending<'a> {
    Lending::new(origin, tape, &lent.plan, &lent.multipliers)
}

/// The banded step with one of its three slices of another length, one after the other.
fn add_lengths(comparison: &mut Comparison, made: &Made) {
    let rows = made.rows();
    for length in 0..=MOST_STEPS * MOST_STATES + 1 {
        for lengths in [
            [length, rows, rows],
            [rows, length, rows],
            [rows, rows, length],
        ] {
            let [residuals, pivots, correction] = lengths;
            // A wrong length comes before a residual beyond its range.
            let beyond = if lengths == [rows; 3] { 0 } else { i64::MAX };
            let residuals = vec![beyond; residuals];
            correct(
                comparison,
                BANDED_LENGTHS,
                made,
                &residuals,
                [pivots, correction],
            );
        }
    }
}

/// The banded step on both sides, counted by what it answers.
fn correct(
    comparison: &mut Comparison,
    origin: &str,
    made: &Made,
    residuals: &[i64],
    floats: [usize; 2],
) {
    let lending = Lending {
        residuals: Some(residuals),
        floats,
        ..Lending::new(origin, &made.tape, &[], &[])
    };
    let (answer, left) = comparison.also(Call::BandedCorrection, &lending);
    let [answered, length, beyond] = ANSWERS;
    let answer = match answer {
        Answer::Corrected(Err(Refusal::Length)) => length,
        Answer::Corrected(Err(_)) => beyond,
        _ => answered,
    };
    let name = format!("{}, {answer}", made.end);
    comparison.counts.add(AT_THE_EDGES, &name);
    if made.end == ENDS[0] && answer == answered && left.correction.iter().any(|d| is_far(*d)) {
        comparison.counts.add(AT_THE_EDGES, FAR);
    }
}

/// Is the d of these bits beyond 2^25 in size?
fn is_far(bits: u64) -> bool {
    f64::from_bits(bits).abs() > 33_554_432.0
}

/// Furnaces whose banded steps get residuals of every size and slices of every length: strongly coupled ones with n 2 and 3, one that
/// falls back on g, and one of the largest sizes; each with command 51, and the first of them with 50.
fn furnaces(random: &mut Random) -> Vec<Furnace> {
    let mut all = Vec::new();
    for states in [2, 3] {
        for inputs in [1, 3] {
            all.push(strong(states, inputs, random));
        }
    }
    all.push(falling(random));
    all.push(largest(random));
    for furnace in &mut all {
        furnace.correction = Correction::Banded;
    }
    let mut gain = all[0].clone();
    gain.correction = Correction::Gain;
    all.push(gain);
    all
}

/// States that heat each other as strongly as A allows, over all steps, with weights from 1 to 255.
fn coupled(states: usize, inputs: usize, random: &mut Random) -> Furnace {
    let mut furnace = sized(states, inputs, MOST_STEPS);
    for entry in furnace.a.iter_mut().flatten() {
        *entry = random.choose(&[-ENTRY_RANGE, ENTRY_RANGE]);
    }
    for column in &mut furnace.columns {
        *column = Column {
            lo: -NUMBER_RANGE,
            hi: NUMBER_RANGE,
            reference: random.between(-NUMBER_RANGE, NUMBER_RANGE),
            weight: random.between(1, MOST_WEIGHT),
        };
    }
    furnace
}

/// A strongly coupled furnace with heaters, which takes the banded step.
fn strong(states: usize, inputs: usize, random: &mut Random) -> Furnace {
    loop {
        let mut furnace = coupled(states, inputs, random);
        for entry in furnace.b.iter_mut().flatten() {
            *entry = random.between(-ENTRY_RANGE, ENTRY_RANGE);
        }
        furnace.correction = Correction::Banded;
        if end(&furnace) == ENDS[0] {
            return furnace;
        }
    }
}

/// A strongly coupled furnace without heat from its heaters, whose pivots rounding takes to 0 or below.
fn falling(random: &mut Random) -> Furnace {
    loop {
        let mut furnace = coupled(MOST_STATES, MOST_INPUTS, random);
        furnace.correction = Correction::Banded;
        if end(&furnace) == ENDS[1] {
            return furnace;
        }
    }
}

/// Solves tapes whose first d is half a unit off a whole number, on either side of 0, and their variants
/// that show the multipliers of the second round.
fn add_halves(comparison: &mut Comparison, random: &mut Random) {
    for whole in HALVES.flat_map(|whole| [whole, -whole]) {
        let furnace = with_half(whole);
        let tape = of_furnace(&furnace, random).concat();
        comparison.add_also(HALF_D);
        let (solved, _) = comparison.solve(&tape, &any_lent(&furnace, random));
        if let Err(Refusal::Open { .. }) = solved {
            comparison.add_open(&furnace, random);
        }
    }
}

/// A furnace of one row, whose W is (2048² + 4096²) / 8192 = 2560, and whose first residual, which is the
/// drift, is this number and a half times as much. It has 2 rounds.
fn with_half(whole: Whole) -> Furnace {
    let mut furnace = sized(1, 1, 1);
    furnace.b[0][0] = 2_048;
    furnace.drift[0] = 2_560 * whole + 1_280;
    for column in &mut furnace.columns {
        (column.lo, column.hi) = (-NUMBER_RANGE, NUMBER_RANGE);
    }
    furnace.correction = Correction::Banded;
    furnace.rounds = 2;
    furnace
}

/// Residuals of so many rows: 0, of each size from 1 to 2^40 and one beside it, with signs drawn, and of
/// any numbers; then one at each place alone, of the least and the largest size, and beyond it.
fn all_residuals(rows: usize, random: &mut Random) -> Vec<Vec<i64>> {
    let mut all = vec![vec![0; rows]];
    for power in 0..=40 {
        for beside in [-1, 0, 1] {
            let size = (1 << power) + beside;
            all.push((0..rows).map(|_| random.choose(&[-size, size])).collect());
        }
        let most = 1 << power;
        let any = (0..rows).map(|_| random.between(-most, most) as i64);
        all.push(any.collect());
    }
    for place in 0..rows {
        for residual in [1, RESIDUAL_RANGE, RESIDUAL_RANGE + 1, i64::MAX] {
            for residual in [residual, -residual] {
                let mut alone = vec![0; rows];
                alone[place] = residual;
                all.push(alone);
            }
        }
    }
    let mut least = vec![0; rows];
    least[rows - 1] = i64::MIN;
    all.push(least);
    all
}

/// All calls and slips of tapes of the largest sizes with command 51 and a weight of 0, of each column in
/// turn and of all: alone, with bytes behind FF, and with a required command left out.
fn add_weightless(comparison: &mut Comparison, random: &mut Random) {
    let mut furnace = largest(random);
    furnace.correction = Correction::Banded;
    let lent = any_lent(&furnace, random);
    for column in 0..=furnace.columns.len() {
        for (name, tape) in weightless(&furnace, column, random) {
            for call in Call::ALL {
                comparison.also(call, &of_lent(WEIGHTLESS, &tape, &lent));
            }
            comparison.print(&[&tape]);
            comparison.counts.add(AT_THE_EDGES, name);
        }
        if comparison.ends() {
            return;
        }
    }
}

/// The tapes of [`add_weightless`] with the weight of this column 0, or all where there is no such column.
fn weightless(
    furnace: &Furnace,
    column: usize,
    random: &mut Random,
) -> Vec<(&'static str, Vec<u8>)> {
    let [alone, before_8, before_18] = REFUSED;
    let mut furnace = furnace.clone();
    match furnace.columns.get_mut(column) {
        Some(column) => column.weight = 0,
        None => furnace
            .columns
            .iter_mut()
            .for_each(|column| column.weight = 0),
    }
    let commands = of_furnace(&furnace, random);
    let tape = commands.concat();
    let mut all = vec![(alone, tape.clone())];
    for behind in [&[0x00][..], &[0xff], &[0x51, 0xff]] {
        all.push((before_8, [&tape, behind].concat()));
    }
    let weight_0 = |command: &Command| command[0] == COLUMN && command[8] == 0;
    for place in 0..commands.len() {
        // One weight of 0 stays.
        let others = [&commands[..place], &commands[place + 1..]].concat();
        let required = [COLUMN, START].contains(&commands[place][0]);
        if required && others.iter().any(weight_0) {
            all.push((before_18, others.concat()));
        }
    }
    all
}

/// All calls on tapes with two of the commands 50 and 51, neighbours or not, the second with operands of
/// any value, weights of 0 or none.
fn add_two_searches(comparison: &mut Comparison, random: &mut Random) {
    for first in [Correction::Gain, Correction::Banded] {
        for second in [Correction::Gain, Correction::Banded] {
            for weight in [0, 1] {
                for rounds in [0, 1, 10_001] {
                    let tape = two_searches([first, second], weight, rounds, random);
                    for call in Call::ALL {
                        let lending = Lending::new(TWO_SEARCHES, &tape, &[0; 3], &[0; 2]);
                        comparison.also(call, &lending);
                    }
                }
            }
        }
    }
}

/// A tape with both commands, the second with these rounds at any place behind the first.
fn two_searches(
    [first, second]: [Correction; 2],
    weight: Whole,
    rounds: Whole,
    random: &mut Random,
) -> Vec<u8> {
    let mut furnace = sized(1, 1, 1);
    furnace.correction = first;
    furnace.columns[0].weight = weight;
    let mut commands = of_furnace(&furnace, random);
    let of_first = search_with(first, 1, 1, 0);
    let place = commands.iter().position(|command| *command == of_first);
    let place = place.expect("the tape has the first");
    let behind = place + 1 + random.below(commands.len() - 1 - place);
    commands.insert(behind, search_with(second, 1, rounds, 0));
    commands.concat()
}

impl Comparison {
    /// The banded steps of a seed: its tapes with residuals, which step they ask for, and what their
    /// rounds come to.
    pub fn add_banded_of(&mut self, seed: u64) {
        // The residuals' draws are the generator's, these are the comparison's.
        let mut random = Random::new(!seed);
        for lent in lendings(seed) {
            self.add_residuals(&lent);
            if let Ok(furnace) = read(&lent.tape) {
                self.add_drawn(&lent.tape, &furnace, &mut random);
            }
        }
    }

    /// The banded step of a tape with residuals.
    fn add_residuals(&mut self, lent: &Residuals) {
        let lending = Lending {
            residuals: Some(&lent.residuals),
            floats: [lent.pivots, lent.correction],
            ..Lending::new("generated residuals", &lent.tape, &[], &[])
        };
        self.read_step(&lending);
        let (answer, left) = self.call(Call::BandedCorrection, &lending);
        if let Answer::Corrected(answer) = answer {
            let floats = |bits: &[u64]| bits.iter().map(|d| f64::from_bits(*d)).collect();
            let (pivots, d): (Vec<f64>, Vec<f64>) =
                (floats(&left.pivots), floats(&left.correction));
            self.counts.add_correction(lent, answer, &pivots, &d);
        }
    }

    /// Solves a tape for the banded step that has few rounds, and where it is open its variants.
    fn add_drawn(&mut self, tape: &[u8], furnace: &Furnace, random: &mut Random) {
        if furnace.rounds > MOST_ROUNDS {
            return;
        }
        self.add_also(DRAWN_BANDED);
        let lent = any_lent(furnace, random);
        let (solved, _) = self.solve(tape, &lent);
        self.counts.add_banded_solve(&Ok(furnace.clone()), solved);
        if let Err(Refusal::Open { .. }) = solved {
            self.add_open(furnace, random);
        }
    }
}

#[cfg(test)]
mod tests {
    use std::collections::BTreeSet;

    use super::*;

    #[test]
    fn furnaces_come_to_each_end() {
        let all = furnaces(&mut Random::new(SEED));
        let ends = all.iter().map(end);
        assert_eq!(BTreeSet::from_iter(ends), BTreeSet::from(ENDS));
        for furnace in &all[..4] {
            assert!(furnace
                .a
                .iter()
                .flatten()
                .all(|entry| entry.abs() == 16_384));
            assert_eq!((furnace.horizon, end(furnace)), (12, ENDS[0]));
        }
        let most = &all[5];
        let sizes = (most.states, most.inputs, most.horizon);
        assert_eq!((sizes, end(most)), ((6, 4, 12), ENDS[0]));
    }

    #[test]
    fn halves_are_halves_and_show() {
        let mut random = Random::new(SEED);
        for whole in HALVES.flat_map(|whole| [whole, -whole]) {
            let furnace = with_half(whole);
            let elimination = Elimination::of_tape(&furnace).expect("a banded step");
            let e = furnace.drift[0];
            assert_eq!(elimination.correction(&[e]), [whole as f64 + 0.5]);
            // The next y is that of the halves upward, in some variant that is proved.
            let variants = crate::tune::variants(&furnace, &mut random);
            let shown = variants.into_iter().any(|(_, variant)| {
                let tape = of_furnace(&variant, &mut random).concat();
                let (mut plan, mut multipliers) = ([0; 2], [0]);
                let solved = reference::solve(&tape, &mut plan, &mut multipliers);
                solved.is_ok() && multipliers == [whole as i32 + 1]
            });
            assert!(shown, "{whole}");
        }
    }

    #[test]
    fn residuals_reach_their_range() {
        let all = all_residuals(4, &mut Random::new(SEED));
        let sizes = all.iter().flatten().map(|residual| residual.unsigned_abs());
        let sizes = BTreeSet::from_iter(sizes);
        for power in 1..=40 {
            let size = 1 << power;
            for size in [size - 1, size, size + 1] {
                assert!(sizes.contains(&size), "{size}");
            }
        }
        assert!(sizes.contains(&(1 << 63)));
        let is_in_range = |list: &&Vec<i64>| {
            let mut sizes = list.iter().map(|residual| residual.unsigned_abs());
            sizes.all(|size| size <= 1 << 40)
        };
        let accepted = all.iter().filter(is_in_range).count();
        assert_eq!(
            (all.len(), accepted),
            (1 + 41 * 4 + 4 * 8 + 1, 1 + 41 * 4 - 1 + 4 * 4)
        );
    }

    #[test]
    fn weights_of_0_are_refused_as_named() {
        let mut random = Random::new(SEED);
        let mut furnace = largest(&mut random);
        furnace.correction = Correction::Banded;
        for column in 0..=10 {
            for (name, tape) in weightless(&furnace, column, &mut random) {
                let refusal = read(&tape).expect_err("a weight of 0 is refused");
                let expected = if name == REFUSED[2] { 7 } else { 18 };
                assert_eq!(refusal.number(), expected, "{name}");
                let end = refusal.carried().expect("an offset");
                assert_eq!(tape[end], 0xff);
                assert_eq!(name == REFUSED[1], end + 1 < tape.len());
            }
        }
    }

    #[test]
    fn two_searches_are_one_too_many() {
        let mut random = Random::new(SEED);
        let both = [Correction::Banded, Correction::Gain];
        for weight in [0, 1] {
            let tape = two_searches(both, weight, 1, &mut random);
            let refusal = read(&tape).expect_err("a 50 after a 51");
            let offset = refusal.carried().expect("an offset");
            assert_eq!((refusal.number(), tape[offset]), (6, 0x50));
        }
    }
}
