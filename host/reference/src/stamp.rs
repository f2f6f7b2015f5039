//! The exact difference of two time stamps.

use crate::walk::Refusal;
use crate::{Answer, refused};

/// A time stamp as its data gives it: the halves of a signed count of seconds, and
/// those of a fraction in units of 2^-64 second.
#[derive(Clone, Copy, Debug, Default, PartialEq, Eq)]
pub struct Stamp {
    pub seconds_high: i32,
    pub seconds_low: i32,
    pub fraction_high: u32,
    pub fraction_low: u32,
}

/// What the difference returns; seconds and fraction are 0 after a refusal.
#[derive(Clone, Copy, Debug, Default, PartialEq, Eq)]
pub struct Difference {
    pub answer: Answer,
    pub seconds: i64,
    pub fraction: u64,
}

impl Stamp {
    /// The stamp as source document 001 has it: one signed number of 128 bits, in
    /// units of 2^-64 second. The low half of the seconds counts by its bits.
    fn units(self) -> i128 {
        let seconds = i128::from(self.seconds_high) << 32 | i128::from(self.seconds_low as u32);
        let fraction = i128::from(self.fraction_high) << 32 | i128::from(self.fraction_low);
        seconds << 64 | fraction
    }
}

/// The first stamp less the second. The fraction is from 0 up to one second, so the
/// seconds are rounded down. Accepted: the place is 0. Refused: 32 with input 4 where
/// the seconds don't fit 64 signed bits, which is where the whole doesn't fit 128.
pub fn stamp_difference(first: Stamp, second: Stamp) -> Difference {
    let (number, place) = (32, 0);
    match first.units().checked_sub(second.units()) {
        Some(units) => Difference {
            answer: Answer::default(),
            seconds: (units >> 64) as i64,
            fraction: units as u64,
        },
        None => Difference {
            answer: refused(Refusal { number, place }, 4),
            ..Difference::default()
        },
    }
}
