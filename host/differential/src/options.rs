//! What to run: the gate's seeds and cases, those named by hand, or fresh ones for
//! a time.

use std::hash::{BuildHasher, RandomState};
use std::time::Duration;

use crate::listed::{Listed, Met};

pub const USAGE: &str =
    "usage: differential [--exact] [--cases N] [--seed S] [--case I] [--minutes M]
       differential --facts
  no arguments   the gate run: fixed seeds, then a fresh one, each of which must
                 meet every number; together they must meet everything of
                 document 01 often enough
  --cases N      N cases of each seed; the limits come first
  --seed S       this seed alone
  --case I       case I alone, to look at a difference again
  --minutes M    fresh seeds for M minutes, up to the first difference
  --exact        every buffer in an allocation of its own length, for a memory
                 checker, and fewer seeds and cases
  --facts        prints crates/demands/specs/DamageCases.antt";

/// The seeds that every gate run takes.
const FIXED_SEEDS: [u64; 4] = [1, 2, 3, 4];
/// Cases of each seed in the gate run.
pub const GATE_CASES: u64 = 312_600;
/// The same when a memory checker looks on, which takes one fixed seed.
const EXACT_CASES: u64 = 11_300;
/// The longest run, in minutes.
const MOST_MINUTES: f64 = 100_000.0;

pub struct Options {
    pub run: Run,
    pub exact: bool,
}

pub enum Run {
    Listed(Listed),
    Time(Duration),
    Facts,
}

/// The arguments as they stand.
#[derive(Default)]
struct Given {
    seed: Option<u64>,
    cases: Option<u64>,
    case: Option<u64>,
    minutes: Option<f64>,
    exact: bool,
    facts: bool,
}

impl Options {
    /// Reads the arguments, or says which one it can't use.
    pub fn read(arguments: impl Iterator<Item = String>) -> Result<Options, String> {
        let given = Given::read(arguments)?;
        let by_hand = given.seed.is_some() || given.cases.is_some() || given.case.is_some();
        let run = match given.minutes {
            _ if given.facts && (by_hand || given.exact || given.minutes.is_some()) => {
                return Err("--facts stands alone".into());
            }
            _ if given.facts => Run::Facts,
            Some(_) if by_hand => return Err("--minutes takes seeds and cases of its own".into()),
            Some(minutes) => Run::Time(Duration::from_secs_f64(60.0 * minutes)),
            None => Run::Listed(given.listed(by_hand)),
        };
        Ok(Options {
            run,
            exact: given.exact,
        })
    }
}

impl Given {
    fn read(mut arguments: impl Iterator<Item = String>) -> Result<Given, String> {
        let mut given = Given::default();
        while let Some(argument) = arguments.next() {
            let mut value = || arguments.next().ok_or(format!("{argument} needs a number"));
            match argument.as_str() {
                "--exact" => given.exact = true,
                "--facts" => given.facts = true,
                "--seed" => given.seed = Some(number(&argument, &value()?)?),
                "--cases" => given.cases = Some(number(&argument, &value()?)?),
                "--case" => given.case = Some(number(&argument, &value()?)?),
                "--minutes" => given.minutes = Some(minutes(&value()?)?),
                _ => return Err(format!("unknown argument {argument}")),
            }
        }
        Ok(given)
    }

    fn listed(&self, by_hand: bool) -> Listed {
        let (usual, fixed) = match self.exact {
            true => (EXACT_CASES, 1),
            false => (GATE_CASES, FIXED_SEEDS.len()),
        };
        Listed {
            seeds: match self.seed {
                Some(seed) => vec![seed],
                None => [&FIXED_SEEDS[..fixed], &[fresh_seed()]].concat(),
            },
            cases: match self.case {
                Some(case) => case..case.saturating_add(1),
                None => 0..self.cases.unwrap_or(usual),
            },
            met: match (by_hand, self.exact) {
                (true, _) => Met::Anything,
                (false, true) => Met::Numbers,
                (false, false) => Met::Everything,
            },
        }
    }
}

fn number(argument: &str, value: &str) -> Result<u64, String> {
    value
        .parse()
        .map_err(|_| format!("{argument} needs a number, not {value}"))
}

fn minutes(value: &str) -> Result<f64, String> {
    let minutes = value.parse().ok();
    let minutes = minutes.filter(|minutes| (0.0..=MOST_MINUTES).contains(minutes));
    minutes.ok_or(format!("--minutes needs a number of minutes, not {value}"))
}

/// A seed that differs from run to run.
pub fn fresh_seed() -> u64 {
    RandomState::new().hash_one(0u64)
}
