//! One case: pairs of stamps, each with the difference that is known.

use super::limits::{FRACTIONS, Limit, SECONDS};
use super::time::{Pair, Time};
use crate::kind::Kind;
use crate::random::Random;

pub struct Case {
    pub kind: Kind,
    pub what: String,
    pub pairs: Vec<Pair>,
}

/// How many pairs a case by chance has.
const PAIRS: usize = 8;

impl Case {
    /// The case of a limit.
    pub fn of_limit(limit: &Limit) -> Case {
        Case {
            kind: Kind::StampLimit,
            what: format!("{:?} less others", limit.first),
            pairs: limit.pairs(),
        }
    }

    /// A case by chance.
    pub fn any(random: &mut Random) -> Case {
        let (kind, make): (_, fn(&mut Random) -> Pair) = match random.below(3) {
            0 => (Kind::Stamps, near),
            1 => (Kind::Summed, summed),
            _ => (Kind::Apart, apart),
        };
        Case {
            kind,
            what: kind.words().into(),
            pairs: (0..PAIRS).map(|_| make(random)).collect(),
        }
    }
}

/// Any two stamps.
fn near(random: &mut Random) -> Pair {
    let [first, second] = [(); 2].map(|()| time(random));
    Pair::new(first, second)
}

/// A stamp and one that is later or earlier by a time that is known.
fn summed(random: &mut Random) -> Pair {
    let (second, more) = (time(random), time(random));
    match second.and(more) {
        Some(first) => Pair {
            first,
            second,
            stated: Ok(more),
        },
        None => near(random),
    }
}

/// Two stamps about as far apart as a difference can say, or in the same second.
fn apart(random: &mut Random) -> Pair {
    let second = time(random);
    let seconds = match (random.below(4), second.seconds < 0) {
        (0, _) => second.seconds,
        (_, true) => second.seconds.wrapping_add(i64::MAX),
        (_, false) => second.seconds.wrapping_add(i64::MIN),
    };
    let seconds = seconds.saturating_add(random.between(0, 4) as i64 - 2);
    let fraction = match random.below(3) {
        0 => second.fraction,
        1 => second
            .fraction
            .wrapping_add(random.between(0, 2) as u64)
            .wrapping_sub(1),
        _ => time(random).fraction,
    };
    Pair::new(Time { seconds, fraction }, second)
}

/// A stamp, each number often near an end.
fn time(random: &mut Random) -> Time {
    let seconds = match random.below(4) {
        0 => random
            .pick(&SECONDS)
            .wrapping_add(random.between(0, 4) as i64 - 2),
        1 => (random.next() as i64) >> random.below(64),
        _ => random.next() as i64,
    };
    let fraction = match random.below(4) {
        0 => random.pick(&FRACTIONS).wrapping_add(random.below(3) as u64),
        1 => random.next() >> random.below(64),
        _ => random.next(),
    };
    Time { seconds, fraction }
}
