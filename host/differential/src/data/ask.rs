//! Paths to ask about: to parts of every kind, one step past, and far beyond.

use super::fill::Part;
use super::scalar::Value;
use crate::random::Random;

/// A path, and what stands at its end where the generator knows it.
#[derive(Clone)]
pub struct Ask {
    pub path: Vec<u32>,
    pub code: Option<u8>,
    pub stated: Option<Found>,
}

/// What a path leads to.
#[derive(Clone, Copy, Debug, PartialEq, Eq)]
pub enum Found {
    Part {
        start: usize,
        length: usize,
        value: Value,
    },
    /// The step of this number leads nowhere.
    Nowhere(u32),
}

impl Ask {
    pub fn unknown(path: Vec<u32>) -> Ask {
        Ask {
            path,
            code: None,
            stated: None,
        }
    }

    /// The path of a part.
    pub fn part(part: &Part) -> Ask {
        Ask {
            path: part.path.clone(),
            code: Some(part.code),
            stated: Some(Found::Part {
                start: part.start,
                length: part.length,
                value: part.value,
            }),
        }
    }

    /// A step that the part does not have, then any others.
    pub fn past(part: &Part, step: u32, others: &[u32]) -> Ask {
        Ask {
            path: [&part.path[..], &[step], others].concat(),
            code: None,
            stated: Some(Found::Nowhere(part.path.len() as u32)),
        }
    }
}

/// Paths into well-formed data: the whole, some parts, and steps past one.
pub fn known(random: &mut Random, parts: &[Part]) -> Vec<Ask> {
    let whole = &parts[parts.len() - 1];
    let mut asks = vec![Ask::part(whole)];
    for _ in 0..3 {
        asks.push(Ask::part(&parts[random.below(parts.len())]));
    }
    let part = &parts[random.below(parts.len())];
    let length = match random.below(40) {
        0 => random.between(1000, 5000),
        1..20 => random.below(10),
        _ => 0,
    };
    let others: Vec<u32> = (0..length).map(|_| random.below(3) as u32).collect();
    let far = part.steps.max(random.next() as u32);
    asks.push(Ask::past(part, part.steps, &[]));
    asks.push(Ask::past(part, far, &others));
    asks.push(Ask::past(part, u32::MAX, &others));
    asks
}

/// The same paths, of which nothing is known.
pub fn unknown(random: &mut Random, parts: &[Part]) -> Vec<Ask> {
    let known = known(random, parts).into_iter();
    known.map(|ask| Ask::unknown(ask.path)).collect()
}

/// Short paths of small steps, for data of any kind.
pub fn small(random: &mut Random) -> Vec<Ask> {
    let mut asks = vec![Ask::unknown(Vec::new())];
    for length in [1, 1, 2, 4, 9] {
        let steps = (0..length).map(|_| random.below(3) as u32);
        asks.push(Ask::unknown(steps.collect()));
    }
    asks
}
