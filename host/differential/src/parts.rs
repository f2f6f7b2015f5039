//! The cases of one seed, shared out over the cores.

use std::collections::BTreeMap;
use std::ops::Range;
use std::sync::Mutex;
use std::sync::mpsc::{Sender, channel};
use std::thread;

use crate::seed::{Outcome, Seed, threads};

/// How many cases a core takes at a time: so few that the cores end together.
const PART: u64 = 2_000;

/// The cases that no core has taken yet.
struct Left(Mutex<Range<u64>>);

/// What became of a part of the cases.
struct Part {
    cases: Range<u64>,
    outcome: Outcome,
}

/// Runs these cases on all cores. What comes of it is what one core would say that
/// goes through them up to the first difference.
pub fn run(seed: Seed, cases: Range<u64>) -> Outcome {
    let mut whole = seed.run(cases.start..cases.start, || true);
    let mut end = cases.start;
    let mut ahead = BTreeMap::new();
    let left = Left(Mutex::new(cases));
    let (sender, receiver) = channel();
    thread::scope(|scope| {
        for _ in 0..threads() {
            let (sender, left) = (sender.clone(), &left);
            scope.spawn(move || work(seed, left, &sender));
        }
        drop(sender);
        for part in receiver {
            ahead.insert(part.cases.start, part);
            while let Some(part) = ahead.remove(&end) {
                whole.add(part.outcome);
                end = part.cases.end;
            }
        }
    });
    whole
}

/// Takes one part after the other until none is left. After a difference the others
/// need no more: all that comes before it is taken.
fn work(seed: Seed, left: &Left, done: &Sender<Part>) {
    while let Some(cases) = left.take() {
        let outcome = seed.run(cases.clone(), || true);
        if outcome.found.is_some() {
            left.give_up();
        }
        if done.send(Part { cases, outcome }).is_err() {
            return;
        }
    }
}

impl Left {
    /// The next part, unless there is none.
    fn take(&self) -> Option<Range<u64>> {
        let mut left = self.0.lock().expect("no core ends while it takes a part");
        let part = left.start..left.end.min(left.start.saturating_add(PART));
        left.start = part.end;
        (!part.is_empty()).then_some(part)
    }

    /// Leaves nothing to take.
    fn give_up(&self) {
        let mut left = self.0.lock().expect("no core ends while it takes a part");
        left.start = left.end;
    }
}
