//! A time as seconds and a fraction, and what is known of the difference of two.

use reference::{Answer, Stamp};

use crate::answers::request;

/// Seconds and a fraction to be added to them, in units of 2^-64 second.
#[derive(Clone, Copy, Debug, PartialEq, Eq)]
pub struct Time {
    pub seconds: i64,
    pub fraction: u64,
}

/// The difference, or its refusal.
pub type Stated = Result<Time, Answer>;

/// Two stamps of which it is known what the first less the second is.
pub struct Pair {
    pub first: Time,
    pub second: Time,
    pub stated: Stated,
}

impl Time {
    pub fn stamp(self) -> Stamp {
        Stamp {
            seconds_high: (self.seconds >> 32) as i32,
            seconds_low: self.seconds as i32,
            fraction_high: (self.fraction >> 32) as u32,
            fraction_low: self.fraction as u32,
        }
    }

    /// The data of the stamp.
    pub fn bytes(self) -> Vec<u8> {
        [self.seconds.to_be_bytes(), self.fraction.to_be_bytes()].concat()
    }

    /// This and a time more, unless there is no such stamp.
    pub fn and(self, more: Time) -> Option<Time> {
        let (fraction, carried) = self.fraction.overflowing_add(more.fraction);
        let seconds = wide(self.seconds) + wide(more.seconds) + i128::from(carried);
        let seconds = i64::try_from(seconds).ok()?;
        Some(Time { seconds, fraction })
    }
}

fn wide(seconds: i64) -> i128 {
    i128::from(seconds)
}

impl Pair {
    /// The difference as it is done by hand: the fractions, then the seconds with
    /// what was borrowed.
    pub fn new(first: Time, second: Time) -> Pair {
        let pair = |stated| Pair {
            first,
            second,
            stated,
        };
        let (fraction, borrowed) = first.fraction.overflowing_sub(second.fraction);
        let seconds = wide(first.seconds) - wide(second.seconds) - i128::from(borrowed);
        match i64::try_from(seconds) {
            Ok(seconds) => pair(Ok(Time { seconds, fraction })),
            Err(_) => pair(Err(request(32, 0))),
        }
    }

    /// Whether a second is borrowed.
    pub fn borrows(&self) -> bool {
        self.first.fraction < self.second.fraction
    }

    /// The seconds of the difference, which need not fit.
    pub fn seconds(&self) -> i128 {
        wide(self.first.seconds) - wide(self.second.seconds) - i128::from(self.borrows())
    }
}
