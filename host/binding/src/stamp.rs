//! The question about two time stamps.

use crate::raw::{self, Difference};

/// A time stamp as its data gives it: the halves of a signed count of seconds since
/// 1904-01-01 00:00 universal time, and those of a fraction in units of 2^-64 second.
/// The low half of the seconds counts by its bits.
#[derive(Clone, Copy, Debug, Default, PartialEq, Eq)]
pub struct Stamp {
    pub seconds_high: i32,
    pub seconds_low: i32,
    pub fraction_high: u32,
    pub fraction_low: u32,
}

/// Takes the second time stamp from the first. Accepted: the place is 0, and the
/// fraction is from 0 up to one second. Refused: 32 with input 4 where the seconds
/// don't fit 64 signed bits.
pub fn stamp_difference(first: Stamp, second: Stamp) -> Difference {
    // SAFETY: numbers alone are passed, and any will do.
    unsafe {
        raw::kc_stamp_difference(
            first.seconds_high,
            first.seconds_low,
            first.fraction_high,
            first.fraction_low,
            second.seconds_high,
            second.seconds_low,
            second.fraction_high,
            second.fraction_low,
        )
    }
}
