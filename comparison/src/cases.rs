//! The case of a seed through all calls.

use reference::calls::Solved;
use reference::count::refused;
use reference::generate::commands::of_furnace;
use reference::generate::lent::any_values;
use reference::generate::{case, Lent, Random};
use reference::marks::Sizes;
use reference::model::Furnace;
use reference::record::Record;
use reference::refusal::Refusal;

use crate::calls::{Answer, Call, Left, Lending};
use crate::comparison::{
    Comparison, ALL_CURVES, CUT, JUDGED, NO_CURVE, REFERENCES, SOME_CURVES, STEP,
};
use crate::guard::GUARD;
use crate::tune;

/// One generated tape in so many is printed by the slip program too: a process costs more than
/// many calls.
const SLIP_ONE_IN: u64 = 10;

impl Comparison {
    /// A seed's case through all calls.
    pub fn add_case(&mut self, seed: u64) {
        let case = case(seed);
        let tape = &case.tape.bytes;
        self.counts.add_tape(case.tape.kind);
        let lending = Lending::new("a generated tape", tape, &[], &[]);
        let (Answer::Read(furnace), _) = self.call(Call::Read, &lending) else {
            unreachable!("reading gives its own answer");
        };
        self.counts.add_read(&furnace);
        self.counts.add_steps(tape, &furnace);
        self.counts.add_search(tape, &furnace);
        self.read_references(&lending);
        self.read_step(&lending);
        for lent in &case.judged {
            self.judge(tape, &furnace, lent);
        }
        // The slices' draws are the case's, these are the comparison's.
        let mut random = Random::new(!seed);
        let mut open = false;
        let mut record = None;
        for lent in &case.solved {
            let (solved, left) = self.solve(tape, lent);
            self.counts.add_solved(solved, &furnace);
            self.counts.add_banded_solve(&furnace, solved);
            self.call(Call::BandedCorrection, &Lending::of(lent, tape));
            // The ranges of what a solve leaves are those of its slip.
            self.counts
                .add_slip_ranges(&furnace, &left.multipliers, solved);
            open |= matches!(solved, Err(Refusal::Open { .. }));
            // The last slices lent have the right lengths.
            record = record_of(&furnace, solved, &left);
        }
        self.record(tape, record.as_ref());
        self.cut(tape, &case.solved[0], &mut random);
        if let (true, Ok(furnace)) = (open, &furnace) {
            self.add_open(furnace, &mut random);
        }
        if seed.is_multiple_of(SLIP_ONE_IN) {
            self.print(&[tape]);
        }
    }

    /// Reads a tape's references by step.
    fn read_references(&mut self, lending: &Lending) {
        if let (Answer::References(furnace), _) = self.call(Call::ReadReferences, lending) {
            self.counts.add(REFERENCES, &references_name(&furnace));
        }
    }

    /// Reads which step a tape asks for.
    pub fn read_step(&mut self, lending: &Lending) {
        if let (Answer::Step(step), _) = self.call(Call::ReadStep, lending) {
            let name =
                step.map_or_else(|refusal| refused(refusal.number()), |step| step.to_string());
            self.counts.add(STEP, &name);
        }
    }

    /// Solves the variants of an open tape.
    pub fn add_open(&mut self, open: &Furnace, random: &mut Random) {
        let variants = tune::variants(open, random);
        let ended = variants.iter().any(|(name, _)| *name != tune::ROUNDS_CUT);
        self.open_unchanged += u64::from(!ended);
        for (name, furnace) in variants {
            let tape = of_furnace(&furnace, random).concat();
            let (plan, multipliers) = (furnace.plan_length(), furnace.multipliers_length());
            let mut lent = any_values(plan, multipliers, random);
            lent.origin = name;
            let (solved, _) = self.solve(&tape, &lent);
            self.counts.add(name, &solve_name(solved));
        }
    }

    /// Judges a plan with its multipliers, without a report, with one and with ranges, and the
    /// multipliers alone.
    fn judge(&mut self, tape: &[u8], furnace: &Result<Furnace, Refusal>, lent: &Lent) {
        let mut lending = Lending::of(lent, tape);
        if let (Answer::Gap(gap), _) = self.call(Call::JudgePlan, &lending) {
            self.counts.add_gap(gap);
            lending.judged = Some(gap);
        }
        if let (Answer::Reported(report), _) = self.call(Call::JudgeReport, &lending) {
            self.counts.add_report(furnace, &lent.plan, report);
        }
        self.call(Call::Ranges, &lending);
        if let Some(judged) = lending.judged {
            self.counts.add_ranges(furnace, &lent.multipliers, judged);
        }
        if let (Answer::Shown(shown), _) = self.call(Call::JudgeMultipliers, &lending) {
            self.counts.add_shown(shown);
        }
    }

    /// Solves, and judges what the solve left, whatever its answer, also with ranges.
    pub fn solve(&mut self, tape: &[u8], lent: &Lent) -> (Result<Solved, Refusal>, Left) {
        let (answer, left) = self.call(Call::Solve, &Lending::of(lent, tape));
        let lending = Lending::new(JUDGED, tape, &left.plan, &left.multipliers);
        self.also(Call::JudgePlan, &lending);
        self.also(Call::Ranges, &lending);
        self.also(Call::JudgeMultipliers, &lending);
        match answer {
            Answer::Solved(solved) => (solved, left),
            _ => unreachable!("solving gives its own answer"),
        }
    }

    /// All calls with a front of the tape; what follows it in memory is the tape's rest.
    fn cut(&mut self, tape: &[u8], lent: &Lent, random: &mut Random) {
        let (front, rest) = tape.split_at(random.below(tape.len() + 1));
        let behind = [rest, &[0; GUARD]].concat();
        for call in Call::ALL {
            let lending = Lending {
                origin: CUT,
                behind: &behind,
                ..Lending::of(lent, front)
            };
            self.also(call, &lending);
        }
    }
}

/// The record that a solve's answer and what it left make, where they make one.
fn record_of(
    furnace: &Result<Furnace, Refusal>,
    solved: Result<Solved, Refusal>,
    left: &Left,
) -> Option<Record> {
    let sizes = Sizes::of(furnace.as_ref().ok()?);
    Record::of_solve(sizes, solved, &left.plan, &left.multipliers).ok()
}

/// The name of a reading of references in the counts: how many columns have a curve.
fn references_name(furnace: &Result<Furnace, Refusal>) -> String {
    let curves = match furnace {
        Ok(furnace) => &furnace.curves,
        Err(refusal) => return refused(refusal.number()),
    };
    let count = curves.iter().flatten().count();
    match count {
        0 => NO_CURVE,
        _ if count < curves.len() => SOME_CURVES,
        _ => ALL_CURVES,
    }
    .to_string()
}

/// The name of a solve's answer in the counts.
fn solve_name(solved: Result<Solved, Refusal>) -> String {
    match solved {
        Ok(Solved::Proved { .. }) => "proved".to_string(),
        Ok(Solved::Impossible { .. }) => "impossible".to_string(),
        Err(refusal) => refused(refusal.number()),
    }
}
