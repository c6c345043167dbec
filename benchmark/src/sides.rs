//! One tape solved by both sides, and what they leave compared.

use std::hint::black_box;
use std::time::{Duration, Instant};

use fibergravel::{Refusal, Solved};
use plain::{Answer, Furnace};

/// What a slice holds before a call. No plan and no multiplier is as large.
const MARK: i32 = i32::MAX;

/// What a solve is lent beside the tape.
#[derive(Clone, Debug, PartialEq, Eq)]
struct Slices {
    plan: Vec<i32>,
    multipliers: Vec<i32>,
}

impl Slices {
    /// Puts a mark in each place.
    fn mark(&mut self) {
        self.plan.fill(MARK);
        self.multipliers.fill(MARK);
    }
}

/// A tape, with slices for each side.
pub struct Case {
    tape: Vec<u8>,
    /// R, which is how many rounds an open tape enters.
    most_rounds: i64,
    by_planner: Slices,
    by_plain: Slices,
}

/// What both sides answered, and how long it took them.
pub struct Compared {
    /// The answer.
    pub answer: Answer,
    /// Rounds entered.
    pub rounds: i64,
    /// The planner's time.
    pub planner: Duration,
    /// The plain program's time.
    pub plain: Duration,
}

impl Case {
    /// A tape that the plain program takes.
    pub fn new(tape: Vec<u8>) -> Case {
        let furnace = plain::read(&tape).expect("a legal tape with command 50");
        let slices = Slices {
            plan: vec![MARK; furnace.plan_length()],
            multipliers: vec![MARK; furnace.multipliers_length()],
        };
        Case {
            tape,
            most_rounds: furnace.rounds,
            by_planner: slices.clone(),
            by_plain: slices,
        }
    }

    /// The furnace as the plain program reads it.
    pub fn furnace(&self) -> Furnace {
        plain::read(&self.tape).expect("a legal tape with command 50")
    }

    /// Has both sides solve the tape, in the order asked for. Fails where they differ.
    pub fn solve(&mut self, planner_first: bool) -> Result<Compared, String> {
        self.by_planner.mark();
        self.by_plain.mark();
        let (found, planner, expected, plain);
        if planner_first {
            (found, planner) = self.solve_by_planner();
            (expected, plain) = self.solve_by_plain();
        } else {
            (expected, plain) = self.solve_by_plain();
            (found, planner) = self.solve_by_planner();
        }
        let answer = expected.ok_or_else(|| self.difference("the plain program took no tape"))?;
        if answer_of(found) != Some(answer) || self.by_planner != self.by_plain {
            let answers = format!("the planner answered {found:?}, the plain program {answer:?}");
            return Err(self.difference(&answers));
        }
        if let Ok(Solved::Proved { first, .. }) = found {
            if !self
                .by_planner
                .plan
                .iter()
                .zip(first)
                .all(|(u, duty)| *u == duty)
            {
                return Err(self.difference("the first duties are not the plan's"));
            }
        }
        Ok(Compared {
            answer,
            rounds: self.rounds(answer),
            planner,
            plain,
        })
    }

    /// The planner's answer and its time.
    fn solve_by_planner(&mut self) -> (Result<Solved, Refusal>, Duration) {
        let Slices { plan, multipliers } = &mut self.by_planner;
        let begin = Instant::now();
        let tape = black_box(&self.tape[..]);
        let answer = black_box(fibergravel::solve(tape, plan, multipliers));
        (answer, begin.elapsed())
    }

    /// The plain program's answer and its time.
    fn solve_by_plain(&mut self) -> (Option<Answer>, Duration) {
        let Slices { plan, multipliers } = &mut self.by_plain;
        let begin = Instant::now();
        let tape = black_box(&self.tape[..]);
        let answer = black_box(plain::solve(tape, plan, multipliers));
        (answer, begin.elapsed())
    }

    /// Rounds entered.
    fn rounds(&self, answer: Answer) -> i64 {
        match answer {
            Answer::Proved { rounds, .. } | Answer::Impossible { rounds } => rounds,
            Answer::Open => self.most_rounds,
        }
    }

    /// A difference with the tape and what was left.
    fn difference(&self, what: &str) -> String {
        let digits: String = self.tape.iter().map(|byte| format!("{byte:02X}")).collect();
        format!(
            "{what}\ntape {digits}\nby the planner {:?}\nby the plain program {:?}",
            self.by_planner, self.by_plain
        )
    }
}

/// The planner's answer in the plain program's words; none for a refusal other than 'open'.
fn answer_of(solved: Result<Solved, Refusal>) -> Option<Answer> {
    match solved {
        Ok(Solved::Proved { rounds, gap, .. }) => Some(Answer::Proved { rounds, gap }),
        Ok(Solved::Impossible { rounds }) => Some(Answer::Impossible { rounds }),
        Err(Refusal::Open { .. }) => Some(Answer::Open),
        _ => None,
    }
}
