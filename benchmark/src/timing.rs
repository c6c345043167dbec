//! Times of both sides over tapes, taken in turn tape by tape.

use std::time::Duration;

use plain::Answer;

use crate::progress::Progress;
use crate::sides::{Case, Compared};

/// How often each tape is solved by each side.
pub const PASSES: usize = 7;

/// The answers to some tapes, and the rounds that led to them.
#[derive(Clone, Copy, Debug, Default)]
pub struct Counts {
    /// Tapes proved.
    pub proved: usize,
    /// Tapes shown to be impossible.
    pub impossible: usize,
    /// Tapes left open.
    pub open: usize,
    /// Tapes that entered so many rounds as the caller asks for.
    pub long: usize,
    /// All rounds entered.
    pub rounds: i64,
}

impl Counts {
    /// Counts a tape.
    fn add(&mut self, compared: &Compared, many_rounds: i64) {
        match compared.answer {
            Answer::Proved { .. } => self.proved += 1,
            Answer::Impossible { .. } => self.impossible += 1,
            Answer::Open => self.open += 1,
        }
        self.long += usize::from(compared.rounds >= many_rounds);
        self.rounds += compared.rounds;
    }

    /// How many tapes were counted.
    pub fn tapes(&self) -> usize {
        self.proved + self.impossible + self.open
    }
}

/// What the passes over some tapes took.
pub struct Times {
    /// What was answered.
    pub counts: Counts,
    /// The sum over the tapes of the planner's least time.
    pub planner: Duration,
    /// The sum over the tapes of the plain program's least time.
    pub plain: Duration,
    /// The least ratio of a single pass, and the most.
    pub spread: (f64, f64),
}

impl Times {
    /// The planner's time by the plain program's.
    pub fn ratio(&self) -> f64 {
        ratio(self.planner, self.plain)
    }

    /// The nanoseconds that a round took the planner and the plain program.
    pub fn per_round(&self) -> (f64, f64) {
        let rounds = self.counts.rounds as f64;
        let of = |time: Duration| time.as_secs_f64() * 1e9 / rounds;
        (of(self.planner), of(self.plain))
    }
}

/// The quotient of two times.
fn ratio(planner: Duration, plain: Duration) -> f64 {
    planner.as_secs_f64() / plain.as_secs_f64()
}

/// Solves all cases once by both sides. Who goes first alternates from case to case and, as `pass`
/// says, from pass to pass. Fails where the sides differ.
fn one_pass(cases: &mut [Case], pass: usize) -> Result<Vec<Compared>, String> {
    let places = cases.iter_mut().enumerate();
    let solves = places.map(|(place, case)| {
        let compared = case.solve((place + pass) % 2 == 0);
        compared.map_err(|difference| format!("tape {place}: {difference}"))
    });
    solves.collect()
}

/// Solves all cases once by both sides, and counts the answers. Fails where the sides differ.
pub fn compare(cases: &mut [Case], many_rounds: i64) -> Result<Counts, String> {
    let mut counts = Counts::default();
    for compared in one_pass(cases, 0)? {
        counts.add(&compared, many_rounds);
    }
    Ok(counts)
}

/// Times all cases in [`PASSES`] passes. Fails where the sides differ in one.
pub fn time(
    cases: &mut [Case],
    many_rounds: i64,
    progress: &mut Progress,
) -> Result<Times, String> {
    let mut counts = Counts::default();
    let mut least = vec![(Duration::MAX, Duration::MAX); cases.len()];
    let mut spread = (f64::INFINITY, 0.0_f64);
    for pass in 0..PASSES {
        progress.tell(&format!("pass {} of {PASSES}", pass + 1));
        counts = Counts::default();
        let (mut planner, mut plain) = (Duration::ZERO, Duration::ZERO);
        for (compared, least) in one_pass(cases, pass)?.iter().zip(&mut least) {
            counts.add(compared, many_rounds);
            planner += compared.planner;
            plain += compared.plain;
            least.0 = least.0.min(compared.planner);
            least.1 = least.1.min(compared.plain);
        }
        let ratio = ratio(planner, plain);
        spread = (spread.0.min(ratio), spread.1.max(ratio));
    }
    Ok(Times {
        counts,
        planner: least.iter().map(|(planner, _)| *planner).sum(),
        plain: least.iter().map(|(_, plain)| *plain).sum(),
        spread,
    })
}
