//! The cases of one seed, up to the first difference.

use std::cell::Cell;
use std::num::NonZero;
use std::ops::Range;
use std::panic;
use std::thread::available_parallelism;

use crate::case::{Case, Limits};
use crate::difference::{Difference, Held};
use crate::random::Random;
use crate::tally::Tally;

/// How the cases of a seed are run.
#[derive(Clone, Copy)]
pub struct Seed<'a> {
    pub seed: u64,
    pub limits: &'a Limits,
    pub exact: bool,
}

/// What the cases of a seed came to.
pub struct Outcome {
    pub seed: u64,
    pub tally: Tally,
    pub found: Option<Found>,
    exact: bool,
}

/// A case over which the two differ.
pub struct Found {
    number: u64,
    what: String,
    difference: Difference,
}

thread_local! {
    /// The seed and the case that this thread is at.
    static NOW: Cell<(u64, u64)> = const { Cell::new((0, 0)) };
}

/// Where either implementation ends a thread instead of answering, says which case
/// did that.
pub fn name_panics() {
    panic::set_hook(Box::new(|info| {
        let (seed, case) = NOW.get();
        eprintln!("{info}\nagain with: --seed {seed} --case {case}");
    }));
}

/// As many threads as there are cores.
pub fn threads() -> usize {
    available_parallelism().map_or(1, NonZero::get)
}

impl Seed<'_> {
    /// Runs these cases until one differs or there is no time left, which is asked
    /// before each.
    pub fn run(self, cases: Range<u64>, mut time_left: impl FnMut() -> bool) -> Outcome {
        let mut outcome = Outcome {
            seed: self.seed,
            tally: Tally::new(),
            found: None,
            exact: self.exact,
        };
        for number in cases {
            if !time_left() {
                break;
            }
            outcome.found = self.case(number, &mut outcome.tally);
            if outcome.found.is_some() {
                break;
            }
        }
        outcome
    }

    /// Makes one case and holds the two against each other over it.
    fn case(self, number: u64, tally: &mut Tally) -> Option<Found> {
        NOW.set((self.seed, number));
        let mut random = Random::for_case(self.seed, number);
        let case = Case::make(&mut random, number, self.limits);
        let held: Held<()> = case.hold(&mut random, self.exact, tally);
        let Err(difference) = held else {
            tally.cases += 1;
            return None;
        };
        Some(Found {
            number,
            what: case.what().to_string(),
            difference,
        })
    }
}

impl Outcome {
    /// Adds what came of the cases that follow, unless one up to here differs.
    pub fn add(&mut self, next: Outcome) {
        if self.found.is_none() {
            self.tally.add(&next.tally);
            self.found = next.found;
        }
    }

    /// Prints the difference, if there is one, and how to see it again.
    pub fn print_difference(&self) {
        if let Some(found) = &self.found {
            println!("case: {}", found.what);
            found.difference.print();
            let exact = if self.exact { " --exact" } else { "" };
            println!(
                "again with: --seed {} --case {}{exact}",
                self.seed, found.number
            );
        }
    }
}
