//! One call on both sides: by the planner on slices with guard cells or with nothing beside them,
//! and by the second program.

use std::fmt;

use fibergravel::calls;
use reference::cases::{read_numbers, reference_numbers};
use reference::generate::Lent;
use reference::range::RANGES_LENGTH;
use reference::record::{Kind, LABORATORY_LENGTH};
use reference::{
    banded_correction, judge_multipliers, judge_plan, ranges, read, read_step, record, solve,
    Furnace, Record, Refusal, Report, Shown, Solved, Whole,
};

use crate::guard::{float_bits, marks, Beside, Guarded, GUARD};

/// The ten calls that take a tape.
#[derive(Clone, Copy, Debug, PartialEq, Eq)]
pub enum Call {
    /// Reads a tape.
    Read,
    /// Reads a tape's references by step.
    ReadReferences,
    /// Reads which step a tape asks for.
    ReadStep,
    /// Judges a plan with multipliers.
    JudgePlan,
    /// Judges a plan with multipliers, and reports where it fails.
    JudgeReport,
    /// Judges a plan with multipliers, and gives the ranges of its first duties.
    Ranges,
    /// Judges multipliers for impossibility.
    JudgeMultipliers,
    /// Solves.
    Solve,
    /// Solves, and writes the record for both readers.
    Record,
    /// Shows the floats of the banded step.
    BandedCorrection,
}

impl Call {
    /// The ten.
    pub const ALL: [Call; 10] = [
        Call::Read,
        Call::ReadReferences,
        Call::ReadStep,
        Call::JudgePlan,
        Call::JudgeReport,
        Call::Ranges,
        Call::JudgeMultipliers,
        Call::Solve,
        Call::Record,
        Call::BandedCorrection,
    ];

    /// How many numbers the call's `out` has.
    fn out_length(self) -> usize {
        match self {
            Call::Read => calls::READ_LENGTH,
            Call::ReadReferences => calls::READ_REFERENCES_LENGTH,
            Call::ReadStep => calls::READ_STEP_LENGTH,
            Call::JudgePlan => calls::JUDGE_PLAN_LENGTH,
            Call::JudgeReport => calls::JUDGE_REPORT_LENGTH,
            Call::Ranges => calls::RANGES_LENGTH,
            Call::JudgeMultipliers => 0,
            Call::Solve => calls::SOLVE_LENGTH,
            Call::Record => calls::RECORD_LENGTH,
            Call::BandedCorrection => calls::BANDED_CORRECTION_LENGTH,
        }
    }
}

/// What a call is lent. [`Call::Read`], [`Call::ReadReferences`] and [`Call::ReadStep`] take the tape
/// alone, [`Call::JudgeMultipliers`] no plan, [`Call::Record`] and [`Call::BandedCorrection`] neither a
/// plan nor multipliers.
#[derive(Clone, Copy, Debug)]
pub struct Lending<'a> {
    /// Where it comes from, in a few words.
    pub origin: &'a str,
    /// The tape's bytes.
    pub tape: &'a [u8],
    /// The bytes that stand behind the tape in memory. No answer may depend on them.
    pub behind: &'a [u8],
    /// The lent plan.
    pub plan: &'a [i32],
    /// The lent multipliers.
    pub multipliers: &'a [i32],
    /// How many bytes [`Call::Record`] is lent for the laboratory and for the service. They hold
    /// marks.
    pub readers: [usize; 2],
    /// The residuals for [`Call::BandedCorrection`]. Where there are none, they are made of the
    /// multipliers.
    pub residuals: Option<&'a [i64]>,
    /// How many places [`Call::BandedCorrection`] is lent for pivots and for d. They hold marks.
    pub floats: [usize; 2],
    /// The record of the tape, where a solve has led to it already. Rounds of the second program are
    /// dear, and need not be run again.
    pub record: Option<&'a Record>,
    /// What [`Call::JudgePlan`] answers to the same slices, where it is known. The second program
    /// need not judge them again for [`Call::JudgeReport`], nor for [`Call::Ranges`] what is refused.
    pub judged: Option<Result<Whole, Refusal>>,
}

/// A multiplier of 32 bits times this is a residual within 2^40.
const OF_MULTIPLIER: i64 = 1 << 9;

/// FF behind a tape, which an end before FF would take for its own.
const ENDS: [u8; GUARD] = [0xff; GUARD];

impl<'a> Lending<'a> {
    /// A tape and slices with [`ENDS`] behind the tape. A record has place for as many numbers as
    /// are lent, and pivots and d for as many as there are multipliers.
    pub fn new(
        origin: &'a str,
        tape: &'a [u8],
        plan: &'a [i32],
        multipliers: &'a [i32],
    ) -> Lending<'a> {
        Lending {
            origin,
            tape,
            behind: &ENDS,
            plan,
            multipliers,
            readers: [
                LABORATORY_LENGTH,
                LABORATORY_LENGTH + 3 + 4 * (plan.len() + multipliers.len()),
            ],
            residuals: None,
            floats: [multipliers.len(); 2],
            record: None,
            judged: None,
        }
    }

    /// A tape and generated slices.
    pub fn of(lent: &'a Lent, tape: &'a [u8]) -> Lending<'a> {
        Lending::new(lent.origin, tape, &lent.plan, &lent.multipliers)
    }

    /// What is lent for the laboratory and for the service; nothing by other calls.
    pub fn for_readers(&self, call: Call) -> [Vec<u8>; 2] {
        match call {
            Call::Record => self.readers.map(marks),
            _ => [Vec::new(), Vec::new()],
        }
    }

    /// The residuals that are lent; none by other calls.
    pub fn residuals(&self, call: Call) -> Vec<i64> {
        let of_multipliers = || {
            let multipliers = self.multipliers.iter();
            multipliers.map(|y| OF_MULTIPLIER * i64::from(*y)).collect()
        };
        match call {
            Call::BandedCorrection => self.residuals.map_or_else(of_multipliers, <[i64]>::to_vec),
            _ => Vec::new(),
        }
    }

    /// What is lent for pivots and for d; nothing by other calls.
    pub fn for_floats(&self, call: Call) -> [Vec<f64>; 2] {
        match call {
            Call::BandedCorrection => self.floats.map(marks),
            _ => [Vec::new(), Vec::new()],
        }
    }
}

impl fmt::Display for Lending<'_> {
    fn fmt(&self, f: &mut fmt::Formatter) -> fmt::Result {
        writeln!(f, "{}", self.origin)?;
        writeln!(f, "tape {}", hex(self.tape))?;
        writeln!(f, "behind the tape {}", hex(self.behind))?;
        writeln!(f, "plan lent {:?}", self.plan)?;
        writeln!(f, "multipliers lent {:?}", self.multipliers)?;
        let [laboratory, service] = self.readers;
        writeln!(f, "bytes lent for a record {laboratory} and {service}")?;
        let residuals = self.residuals(Call::BandedCorrection);
        writeln!(f, "residuals lent {residuals:?}")?;
        let [pivots, correction] = self.floats;
        write!(f, "places lent for pivots and d {pivots} and {correction}")
    }
}

/// Longer inputs, which only the slip program gets, are printed in part.
const MOST_PRINTED: usize = 1_300;

/// Bytes as hexadecimal digits.
fn hex(bytes: &[u8]) -> String {
    let printed = bytes.len().min(MOST_PRINTED);
    let digits = bytes[..printed].iter().map(|byte| format!("{byte:02X}"));
    let mut text: String = digits.collect();
    if printed < bytes.len() {
        text += &format!(".. ({} bytes)", bytes.len());
    }
    text
}

/// What a call left: its answer and all numbers that were lent.
#[derive(Clone, Debug, PartialEq, Eq)]
pub struct Left {
    /// 0, or the refusal's number + 256 × what it carries.
    pub answer: u64,
    /// `out`, which holds marks before the call.
    pub out: Vec<i64>,
    /// The lent plan.
    pub plan: Vec<i32>,
    /// The lent multipliers.
    pub multipliers: Vec<i32>,
    /// What was lent for the laboratory.
    pub laboratory: Vec<u8>,
    /// What was lent for the service.
    pub service: Vec<u8>,
    /// The bits of what was lent for pivots.
    pub pivots: Vec<u64>,
    /// The bits of what was lent for d.
    pub correction: Vec<u64>,
    /// Is all else as it was: the tape, the residuals and the cells beside everything that was lent?
    pub rest_holds: bool,
}

/// The planner's side, with guard cells or nothing beside each slice.
pub fn by_planner(call: Call, lending: &Lending, beside: Beside) -> Left {
    let tape = match beside {
        Beside::Guards => Guarded::between(&ENDS, lending.tape, lending.behind),
        Beside::Nothing => Guarded::between(&[], lending.tape, &[]),
    };
    let mut plan = Guarded::marked(lending.plan, beside);
    let mut multipliers = Guarded::marked(lending.multipliers, beside);
    let readers = lending.for_readers(call);
    let [mut laboratory, mut service] = readers.map(|lent| Guarded::marked(&lent, beside));
    let residuals = Guarded::marked(&lending.residuals(call), beside);
    let floats = lending.for_floats(call);
    let [mut pivots, mut correction] = floats.map(|lent| Guarded::marked(&lent, beside));
    let slices = Slices {
        plan: plan.lent_mut(),
        multipliers: multipliers.lent_mut(),
        laboratory: laboratory.lent_mut(),
        service: service.lent_mut(),
        residuals: residuals.lent(),
        pivots: pivots.lent_mut(),
        correction: correction.lent_mut(),
    };
    let (answer, out) = made(call, tape.lent(), slices, beside);
    Left {
        answer,
        rest_holds: tape.all_hold()
            && plan.guards_hold()
            && multipliers.guards_hold()
            && laboratory.guards_hold()
            && service.guards_hold()
            && residuals.all_hold()
            && pivots.guards_hold()
            && correction.guards_hold()
            && out.guards_hold(),
        out: out.lent().to_vec(),
        plan: plan.lent().to_vec(),
        multipliers: multipliers.lent().to_vec(),
        laboratory: laboratory.lent().to_vec(),
        service: service.lent().to_vec(),
        pivots: float_bits(pivots.lent()),
        correction: float_bits(correction.lent()),
    }
}

/// What the calls are lent beside the tape and `out`.
struct Slices<'a> {
    plan: &'a mut [i32],
    multipliers: &'a mut [i32],
    laboratory: &'a mut [u8],
    service: &'a mut [u8],
    residuals: &'a [i64],
    pivots: &'a mut [f64],
    correction: &'a mut [f64],
}

/// Makes a call of the planner, and gives its answer and its `out`.
fn made(call: Call, tape: &[u8], slices: Slices, beside: Beside) -> (u64, Guarded<i64>) {
    let Slices {
        plan,
        multipliers,
        laboratory,
        service,
        residuals,
        pivots,
        correction,
    } = slices;
    match call {
        Call::Read => with_out(beside, |out| calls::read(tape, out)),
        Call::ReadReferences => with_out(beside, |out| calls::read_references(tape, out)),
        Call::ReadStep => with_out(beside, |out| calls::read_step(tape, out)),
        Call::JudgePlan => with_out(beside, |out| {
            calls::judge_plan(tape, plan, multipliers, out)
        }),
        Call::JudgeReport => with_out(beside, |out| {
            calls::judge_report(tape, plan, multipliers, out)
        }),
        Call::Ranges => with_out(beside, |out| calls::ranges(tape, plan, multipliers, out)),
        Call::JudgeMultipliers => with_out(beside, |_: &mut [i64; 0]| {
            calls::judge_multipliers(tape, multipliers)
        }),
        Call::Solve => with_out(beside, |out| calls::solve(tape, plan, multipliers, out)),
        Call::Record => with_out(beside, |out| calls::record(tape, laboratory, service, out)),
        Call::BandedCorrection => with_out(beside, |out| {
            calls::banded_correction(tape, residuals, pivots, correction, out)
        }),
    }
}

/// Calls with an `out` of marks, and gives the answer and `out`.
fn with_out<const COUNT: usize>(
    beside: Beside,
    call: impl FnOnce(&mut [i64; COUNT]) -> u64,
) -> (u64, Guarded<i64>) {
    let mut out = Guarded::marked(&marks(COUNT), beside);
    let lent = out.lent_mut().try_into().expect("COUNT cells are lent");
    (call(lent), out)
}

/// An answer of the second program.
#[derive(Clone, Debug, PartialEq, Eq)]
pub enum Answer {
    /// Of [`Call::Read`].
    Read(Result<Furnace, Refusal>),
    /// Of [`Call::ReadReferences`]: the furnace with the curves.
    References(Result<Furnace, Refusal>),
    /// Of [`Call::ReadStep`].
    Step(Result<Whole, Refusal>),
    /// Of [`Call::JudgePlan`].
    Gap(Result<Whole, Refusal>),
    /// Of [`Call::JudgeReport`].
    Reported(Result<Report, Refusal>),
    /// Of [`Call::Ranges`]: the ends.
    Ranged(Result<[Whole; RANGES_LENGTH], Refusal>),
    /// Of [`Call::JudgeMultipliers`].
    Shown(Result<Shown, Refusal>),
    /// Of [`Call::Solve`].
    Solved(Result<Solved, Refusal>),
    /// Of [`Call::Record`].
    Recorded(Result<Kind, Refusal>),
    /// Of [`Call::BandedCorrection`].
    Corrected(Result<Whole, Refusal>),
}

/// The second program's side.
pub fn by_reference(call: Call, lending: &Lending) -> (Answer, Left) {
    let tape = lending.tape;
    let mut plan = lending.plan.to_vec();
    let mut multipliers = lending.multipliers.to_vec();
    let [mut laboratory, mut service] = lending.for_readers(call);
    let [mut pivots, mut correction] = lending.for_floats(call);
    let answer = match call {
        Call::Read => Answer::Read(read(tape)),
        Call::ReadReferences => Answer::References(read(tape)),
        Call::ReadStep => Answer::Step(read_step(tape)),
        Call::JudgePlan => Answer::Gap(judge_plan(tape, &plan, &multipliers)),
        Call::JudgeReport => {
            let judged = || judge_plan(tape, &plan, &multipliers);
            Answer::Reported(Report::of_answer(lending.judged.unwrap_or_else(judged)))
        }
        Call::Ranges => Answer::Ranged(match lending.judged {
            Some(Err(refusal)) => Err(refusal),
            _ => ranges(tape, &plan, &multipliers),
        }),
        Call::JudgeMultipliers => Answer::Shown(judge_multipliers(tape, &multipliers)),
        Call::Solve => Answer::Solved(solve(tape, &mut plan, &mut multipliers)),
        Call::Record => Answer::Recorded(match lending.record {
            Some(known) => known.write(&mut laboratory, &mut service),
            None => record(tape, &mut laboratory, &mut service),
        }),
        Call::BandedCorrection => Answer::Corrected(banded_correction(
            tape,
            &lending.residuals(call),
            &mut pivots,
            &mut correction,
        )),
    };
    let (number, out) = match numbers(&answer) {
        Ok(out) => (0, out),
        Err(refusal) => (refused(refusal), marks(call.out_length())),
    };
    let left = Left {
        answer: number,
        out,
        plan,
        multipliers,
        laboratory,
        service,
        pivots: float_bits(&pivots),
        correction: float_bits(&correction),
        rest_holds: true,
    };
    (answer, left)
}

/// The number that a call answers with a refusal.
pub fn refused(refusal: Refusal) -> u64 {
    u64::from(refusal.number()) + 256 * refusal.carried().unwrap_or(0) as u64
}

/// What `out` holds after a result.
fn numbers(answer: &Answer) -> Result<Vec<i64>, Refusal> {
    match answer {
        Answer::Read(read) => {
            let furnace = read.as_ref().map_err(|refusal| *refusal)?;
            Ok(narrow_all(read_numbers(furnace)))
        }
        Answer::References(read) => {
            let furnace = read.as_ref().map_err(|refusal| *refusal)?;
            Ok(narrow_all(reference_numbers(furnace)))
        }
        Answer::Gap(number) | Answer::Step(number) | Answer::Corrected(number) => {
            Ok(vec![narrow((*number)?)])
        }
        Answer::Reported(report) => Ok((*report)?.numbers().map(narrow).to_vec()),
        Answer::Ranged(ends) => Ok((*ends)?.map(narrow).to_vec()),
        Answer::Shown(shown) => {
            let Shown = (*shown)?;
            Ok(Vec::new())
        }
        Answer::Solved(solved) => Ok(match (*solved)? {
            Solved::Proved { rounds, gap, first } => {
                let mut out = vec![1, i64::from(rounds), narrow(gap)];
                out.extend(first.map(i64::from));
                out
            }
            Solved::Impossible { rounds } => vec![2, i64::from(rounds), 0, 0, 0, 0, 0],
        }),
        Answer::Recorded(kind) => Ok(vec![i64::from((*kind)?.number())]),
    }
}

/// Document 01: no sum passes 5 × 10^18.
pub fn narrow(number: Whole) -> i64 {
    i64::try_from(number).expect("a number of an answer fits 64 bits")
}

/// Each of the numbers by [`narrow`].
pub fn narrow_all(numbers: Vec<Whole>) -> Vec<i64> {
    numbers.into_iter().map(narrow).collect()
}
