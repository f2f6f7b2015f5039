//! Stamps at the ends of their numbers and about where a half is full, each less
//! every other.

use super::time::{Pair, Time};

/// A stamp, and the pairs of it and every other.
pub struct Limit {
    pub first: Time,
    pub others: Vec<Time>,
}

/// Where the seconds end, change sign or fill their low half.
pub const SECONDS: [i64; 14] = [
    i64::MIN,
    i64::MIN + 1,
    -(1 << 32) - 1,
    -(1 << 32),
    -1,
    0,
    1,
    (1 << 31) - 1,
    1 << 31,
    (1 << 32) - 1,
    1 << 32,
    i64::MAX / 2,
    i64::MAX - 1,
    i64::MAX,
];

/// The same of the fraction.
pub const FRACTIONS: [u64; 8] = [
    0,
    1,
    (1 << 32) - 1,
    1 << 32,
    (1 << 63) - 1,
    1 << 63,
    u64::MAX - 1,
    u64::MAX,
];

pub fn all() -> Vec<Limit> {
    let seconds = SECONDS.into_iter();
    let times: Vec<Time> = seconds
        .flat_map(|seconds| FRACTIONS.map(|fraction| Time { seconds, fraction }))
        .collect();
    let limit = |&first: &Time| Limit {
        first,
        others: times.clone(),
    };
    times.iter().map(limit).collect()
}

impl Limit {
    pub fn pairs(&self) -> Vec<Pair> {
        let others = self.others.iter();
        others
            .map(|&second| Pair::new(self.first, second))
            .collect()
    }
}
