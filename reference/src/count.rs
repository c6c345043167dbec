//! Counts of what the generated cases lead to, by call.

mod banded;
mod given;
mod import;
mod quotient;
mod range;
mod record;
mod report;

pub use banded::BANDED;
pub use given::GIVEN;
pub use import::IMPORTS;
pub use quotient::QUOTIENTS;
pub use range::RANGES;
pub use record::RECORDS;
pub use report::REPORTS;

use std::collections::BTreeMap;

use crate::calls::{judge_multipliers, judge_plan, read, Shown, Solved};
use crate::generate::{case, Case, Kind};
use crate::marks::Sizes;
use crate::model::{Furnace, Whole};
use crate::quotient::solve_both;
use crate::record::Record;
use crate::refusal::Refusal;
use crate::report::Report;
use crate::shapes::{all_weights_0, curves, some_weight_0, Shape, SHAPES};
use crate::tape::{
    operand_bytes, END, MOST_INPUTS, MOST_ROUNDS, MOST_STATES, MOST_STEPS, STEP_REFERENCE,
};

/// Rounds are counted in groups, each with its last number and its name. The last group is the
/// largest R alone.
const GROUPS: [(u32, &str); 10] = [
    (1, "1"),
    (2, "2"),
    (5, "3-5"),
    (20, "6-20"),
    (100, "21-100"),
    (200, "101-200"),
    (999, "201-999"),
    (2_999, "1000-2999"),
    (9_999, "3000-9999"),
    (MOST_ROUNDS as u32, "10000"),
];

/// Counted with the shapes: an answer in the last round that R allows.
const LAST_ROUND: &str = "in round R";

/// Counted with the shapes: an answer for a curve that took more than the first rounds.
const LATER_WITH_CURVE: &str = "a curve, 3 rounds or more";

/// Counted with the shapes: an answer for a weight of 0 that took more than the first rounds.
const LATER_WITH_WEIGHT_0: &str = "weight 0, 3 rounds or more";

/// The headings of what rounds come to with weights of 0, and whether a furnace counts there.
const WEIGHTS_0: [Shape; 2] = [
    ("solve, some weight 0", some_weight_0),
    ("solve, all weights 0", all_weights_0),
];

/// The names under [`WEIGHTS_0`]. With all weights 0 a gap is minus the floor.
const ENDS: [&str; 4] = ["proved, gap 0", "proved, gap above 0", "impossible", "open"];

/// The heading of tapes that [`read`] accepts, by their curves.
const CURVES: &str = "read, curves";

/// The heading of refusals that a command 31 brings about, which [`Counts::add_steps`] counts.
pub const STEPS: &str = "read, refused for a 31";

/// Counts by heading, then by name, in the order in which they are printed.
#[derive(Clone, Debug, Default, PartialEq, Eq)]
pub struct Counts {
    headings: Vec<(String, Vec<String>)>,
    counts: BTreeMap<(String, String), u64>,
}

/// The headings of document 01's calls.
pub const CALLS: [&str; 4] = ["read", "judge plan", "judge multipliers", "solve"];

impl Counts {
    /// The headings and names of all calls, with counts of 0.
    pub fn of_calls() -> Counts {
        let mut counts = Counts::default();
        counts.expect("tape", Kind::ALL.map(|kind| format!("{kind:?}")));
        counts.expect("read", answers(&["accepted"], &TAPE_REFUSALS));
        let curves = ["on no column", "on some columns", "on all columns"];
        counts.expect(CURVES, curves.map(str::to_string));
        counts.expect("judge plan", tape_answers(&["gap"], &[9, 10, 11, 12, 13]));
        counts.expect("judge multipliers", tape_answers(&["shown"], &[9, 12, 14]));
        counts.expect("solve", tape_answers(&["proved", "impossible"], &[9, 15]));
        for answer in ["proved", "impossible"] {
            let heading = |what: &str| format!("{answer}, {what}");
            // Round 0 has multipliers 0, whose floor is at most the ceiling: 'impossible' never
            // comes after 1 round.
            let groups = &GROUPS[usize::from(answer == "impossible")..];
            counts.expect(
                &heading("rounds"),
                groups.iter().map(|(_, name)| name.to_string()),
            );
            let shapes = SHAPES.iter().map(|(name, _)| *name);
            let shapes = shapes.chain([LATER_WITH_CURVE, LATER_WITH_WEIGHT_0, LAST_ROUND]);
            counts.expect(&heading("shape"), shapes.map(str::to_string));
            counts.expect(&heading("n"), up_to(MOST_STATES));
            counts.expect(&heading("m"), up_to(MOST_INPUTS));
            counts.expect(&heading("N"), up_to(MOST_STEPS));
        }
        for (heading, _) in WEIGHTS_0 {
            counts.expect(heading, ENDS.map(str::to_string));
        }
        counts
    }

    /// Adds a heading with its names.
    pub fn expect(&mut self, heading: &str, names: impl IntoIterator<Item = String>) {
        let names: Vec<String> = names.into_iter().collect();
        for name in &names {
            let key = (heading.to_string(), name.clone());
            self.counts.insert(key, 0);
        }
        self.headings.push((heading.to_string(), names));
    }

    /// Counts one. A name that no heading expects is a mistake of this program.
    pub fn add(&mut self, heading: &str, name: &str) {
        let key = (heading.to_string(), name.to_string());
        *self
            .counts
            .get_mut(&key)
            .unwrap_or_else(|| panic!("{heading}: {name} was not expected")) += 1;
    }

    /// Counts an answer or a refusal of a call.
    fn add_answer(&mut self, heading: &str, answer: Result<&str, Refusal>) {
        match answer {
            Ok(name) => self.add(heading, name),
            Err(refusal) => self.add(heading, &refused(refusal.number())),
        }
    }

    /// Counts a solve's answer by rounds, sizes and shapes.
    fn add_rounds(&mut self, answer: &str, rounds: u32, furnace: &Furnace) {
        let group = GROUPS.iter().take_while(|(last, _)| *last < rounds).count();
        self.add(&format!("{answer}, rounds"), GROUPS[group].1);
        self.add(&format!("{answer}, n"), &furnace.states.to_string());
        self.add(&format!("{answer}, m"), &furnace.inputs.to_string());
        self.add(&format!("{answer}, N"), &furnace.horizon.to_string());
        let shape = format!("{answer}, shape");
        for (name, has) in SHAPES {
            if has(furnace) {
                self.add(&shape, name);
            }
        }
        if curves(furnace) > 0 && rounds >= 3 {
            self.add(&shape, LATER_WITH_CURVE);
        }
        if some_weight_0(furnace) && rounds >= 3 {
            self.add(&shape, LATER_WITH_WEIGHT_0);
        }
        if rounds == furnace.rounds {
            self.add(&shape, LAST_ROUND);
        }
    }

    /// Counts a generated tape by its kind.
    pub fn add_tape(&mut self, kind: Kind) {
        self.add("tape", &format!("{kind:?}"));
    }

    /// Counts an answer of [`read`].
    pub fn add_read(&mut self, answer: &Result<Furnace, Refusal>) {
        let accepted = answer.as_ref().map(|_| "accepted");
        self.add_answer("read", accepted.map_err(|refusal| *refusal));
        if let Ok(furnace) = answer {
            let name = match curves(furnace) {
                0 => "on no column",
                count if count == furnace.columns.len() => "on all columns",
                _ => "on some columns",
            };
            self.add(CURVES, name);
        }
    }

    /// Counts a tape's refusal where a command 31 brings it about. [`Counts::of_calls`] has no
    /// [`STEPS`]: whoever counts here expects [`step_refusals`] under it.
    pub fn add_steps(&mut self, tape: &[u8], answer: &Result<Furnace, Refusal>) {
        match answer {
            Err(refusal) if is_for_a_step(tape, *refusal) => {
                self.add(STEPS, &refused(refusal.number()));
            }
            _ => (),
        }
    }

    /// Counts an answer of [`judge_plan`].
    pub fn add_gap(&mut self, answer: Result<Whole, Refusal>) {
        self.add_answer("judge plan", answer.map(|_| "gap"));
    }

    /// Counts an answer of [`judge_multipliers`].
    pub fn add_shown(&mut self, answer: Result<Shown, Refusal>) {
        self.add_answer("judge multipliers", answer.map(|_| "shown"));
    }

    /// Counts an answer of [`solve`](crate::solve), given what [`read`] says of the same tape.
    pub fn add_solved(
        &mut self,
        answer: Result<Solved, Refusal>,
        furnace: &Result<Furnace, Refusal>,
    ) {
        if let (Some(end), Ok(furnace)) = (end(answer), furnace) {
            for (heading, _) in WEIGHTS_0.iter().filter(|(_, has)| has(furnace)) {
                self.add(heading, end);
            }
        }
        let answer = answer.map(|solved| match solved {
            Solved::Proved { rounds, .. } => ("proved", rounds),
            Solved::Impossible { rounds } => ("impossible", rounds),
        });
        self.add_answer("solve", answer.map(|(name, _)| name));
        if let (Ok((name, rounds)), Ok(furnace)) = (answer, furnace) {
            self.add_rounds(name, rounds, furnace);
        }
    }

    /// Runs one case through all calls and counts the answers.
    fn add_case(&mut self, case: &Case) {
        let tape = &case.tape.bytes;
        self.add_tape(case.tape.kind);
        let furnace = read(tape);
        self.add_read(&furnace);
        self.add_steps(tape, &furnace);
        self.add_search(tape, &furnace);
        for lent in &case.judged {
            let judged = judge_plan(tape, &lent.plan, &lent.multipliers);
            self.add_gap(judged);
            self.add_report(&furnace, &lent.plan, Report::of_answer(judged));
            self.add_ranges(&furnace, &lent.multipliers, judged);
            let shown = judge_multipliers(tape, &lent.multipliers);
            self.add_shown(shown);
            if let Ok(furnace) = &furnace {
                self.add_judged_quotients(furnace, &lent.multipliers, judged, shown);
            }
        }
        // The last slices lent have the right lengths.
        let mut record = None;
        for lent in &case.solved {
            let mut plan = lent.plan.clone();
            let mut multipliers = lent.multipliers.clone();
            let (solved, rounded_down) = solve_both(tape, &mut plan, &mut multipliers);
            self.add_solved(solved, &furnace);
            self.add_solved_quotients(solved, &rounded_down);
            self.add_banded_solve(&furnace, solved);
            self.add_slip_ranges(&furnace, &multipliers, solved);
            let sizes = furnace.as_ref().ok().map(Sizes::of);
            let of_solve = |sizes| Record::of_solve(sizes, solved, &plan, &multipliers).ok();
            record = sizes.and_then(of_solve);
        }
        self.add_records(tape, record.as_ref());
    }

    /// Fails where a count is 0.
    pub fn require_all(&self) -> Result<(), String> {
        self.require(|_| true)
    }

    /// Fails where a count under one of the headings is 0.
    pub fn require(&self, wanted: impl Fn(&str) -> bool) -> Result<(), String> {
        let mut zeros = Vec::new();
        for (heading, names) in &self.headings {
            for name in names {
                if wanted(heading) && self.count(heading, name) == 0 {
                    zeros.push(format!("{heading}: {name}"));
                }
            }
        }
        if zeros.is_empty() {
            return Ok(());
        }
        Err(format!("these counts are 0: {}", zeros.join("; ")))
    }

    /// The count of a name under a heading.
    pub fn count(&self, heading: &str, name: &str) -> u64 {
        self.counts[&(heading.to_string(), name.to_string())]
    }

    /// All counts as a text: each heading, and its counts in a line.
    pub fn text(&self) -> String {
        self.text_of(|_| true)
    }

    /// The counts under some headings as a text.
    pub fn text_of(&self, wanted: impl Fn(&str) -> bool) -> String {
        let mut text = String::new();
        for (heading, names) in &self.headings {
            if wanted(heading) {
                let counts = names.iter();
                let counts = counts.map(|name| format!("{name}: {}", self.count(heading, name)));
                let counts: Vec<String> = counts.collect();
                text += &format!("{heading}\n    {}\n", counts.join(", "));
            }
        }
        text
    }
}

/// What the rounds of a solve come to, of [`ENDS`]; nothing where none was entered.
fn end(answer: Result<Solved, Refusal>) -> Option<&'static str> {
    let [exact, wide, impossible, open] = ENDS;
    match answer {
        Ok(Solved::Proved { gap: 0, .. }) => Some(exact),
        Ok(Solved::Proved { .. }) => Some(wide),
        Ok(Solved::Impossible { .. }) => Some(impossible),
        Err(Refusal::Open { .. }) => Some(open),
        Err(_) => None,
    }
}

/// The name under which a refusal is counted.
pub fn refused(number: u32) -> String {
    format!("refused {number}")
}

/// The names of a call's answers and refusals.
pub fn answers(words: &[&str], refusals: &[u32]) -> Vec<String> {
    let words = words.iter().map(|word| word.to_string());
    words
        .chain(refusals.iter().map(|number| refused(*number)))
        .collect()
}

/// The refusals of a tape.
const TAPE_REFUSALS: [u32; 9] = [1, 2, 3, 4, 5, 6, 7, 8, 18];

/// The names of a call's answers, of a tape's refusals and of its own ones.
fn tape_answers(words: &[&str], refusals: &[u32]) -> Vec<String> {
    answers(words, &[&TAPE_REFUSALS, refusals].concat())
}

/// The names under [`STEPS`].
pub fn step_refusals() -> Vec<String> {
    answers(&[], &[1, 3, 4, 5, 6, 7])
}

/// Does a command 31 bring the tape's refusal about?
fn is_for_a_step(tape: &[u8], refusal: Refusal) -> bool {
    match refusal {
        Refusal::Cut { offset }
        | Refusal::Misplaced { offset }
        | Refusal::NoSuchPlace { offset }
        | Refusal::OutOfRange { offset }
        | Refusal::Twice { offset } => tape.get(offset) == Some(&STEP_REFERENCE),
        Refusal::Absent { .. } => {
            let without = read(&without_steps(tape));
            !matches!(without, Err(Refusal::Absent { .. }))
        }
        _ => false,
    }
}

/// A tape whose commands are whole up to FF, without its commands 31.
fn without_steps(tape: &[u8]) -> Vec<u8> {
    let commands = whole_commands(tape);
    let end: usize = commands.iter().map(|command| command.len()).sum();
    let kept = commands.into_iter();
    let kept = kept.filter(|command| command[0] != STEP_REFERENCE);
    let kept: Vec<&[u8]> = kept.chain([&tape[end..]]).collect();
    kept.concat()
}

/// The commands from the front, up to FF or to the first that is not whole.
fn whole_commands(tape: &[u8]) -> Vec<&[u8]> {
    let mut commands = Vec::new();
    let mut rest = tape;
    while let Some(command) = whole_command(rest) {
        commands.push(command);
        rest = &rest[command.len()..];
    }
    commands
}

/// The first command; none where it is FF, unknown or not whole.
fn whole_command(tape: &[u8]) -> Option<&[u8]> {
    let command = *tape.first()?;
    let operands = operand_bytes(command).filter(|_| command != END)?;
    tape.get(..1 + operands)
}

/// The numbers from 1 to `most` as names.
fn up_to(most: usize) -> Vec<String> {
    (1..=most).map(|number| number.to_string()).collect()
}

/// Runs the cases of `count` seeds from `first_seed` on.
pub fn count_cases(count: u64, first_seed: u64) -> Counts {
    let mut counts = Counts::of_calls();
    counts.expect(STEPS, step_refusals());
    counts.expect_reports();
    counts.expect_given();
    counts.expect_imports();
    counts.expect_records();
    counts.expect_quotients();
    counts.expect_ranges();
    counts.expect_banded();
    for place in 0..count {
        let seed = first_seed.wrapping_add(place);
        counts.add_case(&case(seed));
        counts.add_given_of(seed);
        counts.add_imports(seed);
        counts.add_duties(seed);
        counts.add_lendings(seed);
    }
    counts
}
