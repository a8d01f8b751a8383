//! The comparison at scale: rounds of random inputs until the time is up, each with a seed of its own, on all processors.

use crate::compare_all;
use crate::inputs::{self, PLAIN, Round};
use crate::lent;
use crate::tally::Report;
use std::panic::{AssertUnwindSafe, catch_unwind};
use std::process::ExitCode;
use std::sync::Mutex;
use std::sync::atomic::{AtomicBool, AtomicU64, Ordering};
use std::thread;
use std::time::{Duration, Instant};

/// A round of random inputs alone, with more tables and texts than the plain one. Seed 0 is the plain round's.
fn fresh(seed: u64) -> Round {
    Round { seed: seed.max(1), times: 2, fixed: false }
}

/// The lines of a round, or none where the comparison itself panicked, which has said where.
fn lines(round: Round) -> Option<Report> {
    inputs::begin(round);
    lent::begin();
    let mut report = Report::silent();
    let ended = catch_unwind(AssertUnwindSafe(|| compare_all(&mut report)));
    inputs::begin(PLAIN);
    ended.ok().map(|()| report)
}

/// What the threads share: the seed of the next round, how many rounds there were, whether to end, and the lines so far.
struct Work {
    seed: AtomicU64,
    rounds: AtomicU64,
    over: AtomicBool,
    all: Mutex<Report>,
}

impl Work {
    fn round(&self, round: Round) {
        let report = lines(round);
        self.rounds.fetch_add(1, Ordering::Relaxed);
        if report.as_ref().is_none_or(|report| report.differences() != 0) {
            println!("many: not the same in the round of seed {}", round.seed);
            self.over.store(true, Ordering::Relaxed);
        }
        report.into_iter().for_each(|report| self.all.lock().unwrap().add(report));
    }

    /// Rounds until the time is up or something differs.
    fn rounds(&self, first: Option<Round>, end: Instant) {
        first.into_iter().for_each(|round| self.round(round));
        while Instant::now() < end && !self.over.load(Ordering::Relaxed) {
            self.round(fresh(self.seed.fetch_add(1, Ordering::Relaxed)));
        }
    }
}

/// The plain round, and rounds from a seed on until so many minutes are over.
pub fn many(minutes: u64, seed: u64) -> ExitCode {
    println!("many: {minutes} minutes from seed {seed} on");
    let began = Instant::now();
    let end = began + Duration::from_secs(60 * minutes);
    let threads = thread::available_parallelism().map_or(1, usize::from);
    let work = Work { seed: AtomicU64::new(seed), rounds: AtomicU64::new(0), over: AtomicBool::new(false), all: Mutex::new(Report::silent()) };
    thread::scope(|scope| {
        for k in 0..threads {
            let work = &work;
            scope.spawn(move || work.rounds((k == 0).then_some(PLAIN), end));
        }
    });
    let all = work.all.into_inner().unwrap();
    all.print();
    let [rust, second, panics, rules] = all.cases();
    let (rounds, seconds) = (work.rounds.into_inner(), began.elapsed().as_secs());
    println!("many: {} cases in {rounds} rounds from seed {seed} on: {rust} the Rust's own, {second} on the second E and L, {panics} in which it panics, {rules} by the rules; {seconds} s on {threads} threads", rust + second + panics + rules);
    let verdict = all.verdict();
    if work.over.into_inner() { ExitCode::FAILURE } else { verdict }
}

/// The one round of a seed, whose inputs need not meet every refusal.
pub fn one(seed: u64) -> ExitCode {
    let Some(report) = lines(fresh(seed)) else { return ExitCode::FAILURE };
    report.print();
    if report.differences() == 0 { ExitCode::SUCCESS } else { ExitCode::FAILURE }
}
