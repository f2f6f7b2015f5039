//! Runs the seeds of a list: the gate's, or one that is named.

use std::ops::Range;

use crate::case::Limits;
use crate::seed::{Outcome, Seed};
use crate::tally::Tally;
use crate::{Checks, parts};

/// What of document 01 was met less often than this in the whole gate run was met
/// too seldom.
const LEAST: u64 = 100;

/// The seeds, the cases of each, and what has to be met.
pub struct Listed {
    pub seeds: Vec<u64>,
    pub cases: Range<u64>,
    pub met: Met,
}

#[derive(Clone, Copy, PartialEq, Eq)]
pub enum Met {
    Anything,
    /// Every number by every seed.
    Numbers,
    /// That, and everything of document 01 often enough by all together.
    Everything,
}

/// Runs the seeds, one after the other on all cores. Each is a check, and so is what
/// they met together where that matters.
pub fn run(listed: &Listed, limits: &Limits, exact: bool) -> Checks {
    let (mut passed, mut failed) = (0, 0);
    let mut all = Tally::new();
    for &seed in &listed.seeds {
        let seed = Seed {
            seed,
            limits,
            exact,
        };
        let outcome = parts::run(seed, listed.cases.clone());
        all.add(&outcome.tally);
        match passes(&outcome, listed.met) {
            true => passed += 1,
            false => failed += 1,
        }
    }
    all.print();
    if listed.met == Met::Everything {
        match often_enough(&all) {
            true => passed += 1,
            false => failed += 1,
        }
    }
    Checks { passed, failed }
}

/// Prints how a seed ended. It passes if there is no difference and every number
/// was met where that matters.
fn passes(outcome: &Outcome, must: Met) -> bool {
    outcome.print_difference();
    let never_met = outcome.tally.never_met();
    let met = match never_met.is_empty() {
        true => "every number met".into(),
        false => format!("never met: {never_met:?}"),
    };
    println!(
        "seed {}: {} cases, {met}",
        outcome.seed, outcome.tally.cases
    );
    outcome.found.is_none() && (never_met.is_empty() || must == Met::Anything)
}

/// Prints what was met too seldom. Returns whether there is nothing.
fn often_enough(all: &Tally) -> bool {
    let wrong = all.wrong(LEAST);
    println!();
    wrong.iter().for_each(|wrong| println!("{wrong}"));
    if wrong.is_empty() {
        println!("everything met at least {LEAST} times");
    }
    wrong.is_empty()
}
