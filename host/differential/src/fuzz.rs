//! Runs fresh seeds for as long as asked, on all cores, up to the first
//! difference.

use std::sync::atomic::{AtomicBool, AtomicU64, Ordering};
use std::sync::mpsc::{Receiver, RecvTimeoutError, Sender, channel};
use std::thread;
use std::time::{Duration, Instant};

use crate::Checks;
use crate::case::Limits;
use crate::options::{GATE_CASES, fresh_seed};
use crate::seed::{Outcome, Seed, threads};
use crate::tally::Tally;

/// How often it says how far it is.
const PACE: Duration = Duration::from_secs(10);

/// What the threads share.
struct Shared<'a> {
    limits: &'a Limits,
    exact: bool,
    next_seed: AtomicU64,
    cases: AtomicU64,
    stop: AtomicBool,
}

/// What became of the seeds so far.
struct Total {
    tally: Tally,
    checks: Checks,
    start: Instant,
    end: Instant,
}

/// Each seed is a check; those that the end of the time cuts short count too.
pub fn run(time: Duration, limits: &Limits, exact: bool) -> Checks {
    let first = fresh_seed();
    let shared = Shared {
        limits,
        exact,
        next_seed: AtomicU64::new(first),
        cases: AtomicU64::new(0),
        stop: AtomicBool::new(false),
    };
    let threads = threads();
    println!("{threads} threads, seeds from {first} on, {GATE_CASES} cases of each");
    let start = Instant::now();
    let mut total = Total {
        tally: Tally::new(),
        checks: Checks {
            passed: 0,
            failed: 0,
        },
        start,
        end: start + time,
    };
    let (sender, receiver) = channel();
    thread::scope(|scope| {
        for _ in 0..threads {
            let (sender, shared) = (sender.clone(), &shared);
            scope.spawn(move || work(shared, &sender));
        }
        drop(sender);
        total.watch(&shared, &receiver);
    });
    total.print();
    total.checks
}

/// Runs one fresh seed after the other until it is told to stop.
fn work(shared: &Shared, done: &Sender<Outcome>) {
    let time_left = || {
        shared.cases.fetch_add(1, Ordering::Relaxed);
        !shared.stop.load(Ordering::Relaxed)
    };
    while !shared.stop.load(Ordering::Relaxed) {
        let seed = Seed {
            seed: shared.next_seed.fetch_add(1, Ordering::Relaxed),
            limits: shared.limits,
            exact: shared.exact,
        };
        let outcome = seed.run(0..GATE_CASES, time_left);
        if done.send(outcome).is_err() {
            return;
        }
    }
}

impl Total {
    /// Takes what the threads send until all have ended, and tells them to stop at
    /// the first difference or when the time is over.
    fn watch(&mut self, shared: &Shared, done: &Receiver<Outcome>) {
        let mut next_line = self.start + PACE;
        loop {
            let now = Instant::now();
            if now >= self.end {
                shared.stop.store(true, Ordering::Relaxed);
            }
            let until = match now < self.end {
                true => next_line.min(self.end),
                false => next_line,
            };
            match done.recv_timeout(until.saturating_duration_since(now)) {
                Ok(outcome) => self.take(&outcome, shared),
                Err(RecvTimeoutError::Disconnected) => return,
                Err(RecvTimeoutError::Timeout) if Instant::now() >= next_line => {
                    self.print_line(shared.cases.load(Ordering::Relaxed));
                    next_line += PACE;
                }
                Err(RecvTimeoutError::Timeout) => {}
            }
        }
    }

    fn take(&mut self, outcome: &Outcome, shared: &Shared) {
        self.tally.add(&outcome.tally);
        match outcome.found {
            None => self.checks.passed += 1,
            Some(_) => {
                self.checks.failed += 1;
                outcome.print_difference();
                shared.stop.store(true, Ordering::Relaxed);
            }
        }
    }

    /// How far it is.
    fn print_line(&self, cases: u64) {
        let seconds = self.start.elapsed().as_secs_f64();
        let pace = cases as f64 / seconds;
        let differences = self.checks.failed;
        println!("{seconds:6.0} s: {cases} cases, {pace:.0} per second, {differences} differences");
    }

    fn print(&self) {
        self.tally.print();
        println!();
        self.print_line(self.tally.cases);
    }
}
