//! Time stamps, and the time between two of them.

use super::Refusal;
use crate::stamp_difference;

/// A time stamp: seconds since 1904-01-01 00:00 universal time, and a fraction to be
/// added to them, in units of 2^-64 second. A later one is greater.
///
/// ```
/// use kerbcanopy::accepted::{Descriptor, Refusal, Stamp};
///
/// fn main() -> Result<(), Refusal> {
///     // A time stamp: code 54, subtype 6, and the cluster of its four integers.
///     let stamp = Descriptor::new(
///         b"\x00\x1C\x00\x54\x00\x06\x00\x16\x00\x50\x00\x04\
///           \x00\x04\x00\x03\x00\x04\x00\x03\x00\x04\x00\x07\x00\x04\x00\x07",
///     )?;
///     let sent = b"\x00\x00\x00\x00\xDA\x74\x5A\x80\xC0\x00\x00\x00\x00\x00\x00\x00";
///     let taken = stamp.data(sent)?.view(&[])?.try_into().expect("16 bytes");
///     let taken = Stamp::from_be_bytes(taken);
///     assert_eq!(taken, Stamp { seconds: 0xDA74_5A80, fraction: 3 << 62 });
///
///     let plated = Stamp { seconds: 0xDA74_5A7F, fraction: 0 };
///     let since = taken.difference(plated)?;
///     assert_eq!((since.seconds, since.fraction), (1, 3 << 62));
///     let until = plated.difference(taken)?;
///     assert_eq!((until.seconds, until.fraction), (-2, 1 << 62));
///     Ok(())
/// }
/// ```
#[derive(Clone, Copy, Debug, Default, PartialEq, Eq, PartialOrd, Ord, Hash)]
pub struct Stamp {
    pub seconds: i64,
    pub fraction: u64,
}

/// The time between two stamps: seconds, which may be negative, and a fraction to be
/// added to them, in units of 2^-64 second.
#[derive(Clone, Copy, Debug, Default, PartialEq, Eq, PartialOrd, Ord, Hash)]
pub struct Difference {
    pub seconds: i64,
    pub fraction: u64,
}

impl Stamp {
    /// The stamp whose data these bytes are.
    pub fn from_be_bytes(data: [u8; 16]) -> Stamp {
        let whole = i128::from_be_bytes(data);
        Stamp {
            seconds: (whole >> 64) as i64,
            fraction: whole as u64,
        }
    }

    /// The data of the stamp.
    pub fn to_be_bytes(self) -> [u8; 16] {
        (i128::from(self.seconds) << 64 | i128::from(self.fraction)).to_be_bytes()
    }

    /// This stamp less the second, exactly. Refused: 32 with input 4 where the
    /// seconds don't fit.
    ///
    /// ```
    /// # use kerbcanopy::accepted::Stamp;
    /// let [last, first] = [i64::MAX, i64::MIN].map(|seconds| Stamp { seconds, fraction: 0 });
    /// assert_eq!(last.difference(first).unwrap_err().number, 32);
    /// ```
    pub fn difference(self, second: Stamp) -> Result<Difference, Refusal> {
        let given = stamp_difference(self.into(), second.into());
        Refusal::unless(given.answer)?;
        Ok(Difference {
            seconds: given.seconds,
            fraction: given.fraction,
        })
    }
}

impl From<crate::Stamp> for Stamp {
    fn from(halves: crate::Stamp) -> Stamp {
        let low = halves.seconds_low.cast_unsigned();
        Stamp {
            seconds: i64::from(halves.seconds_high) << 32 | i64::from(low),
            fraction: u64::from(halves.fraction_high) << 32 | u64::from(halves.fraction_low),
        }
    }
}

impl From<Stamp> for crate::Stamp {
    fn from(stamp: Stamp) -> crate::Stamp {
        crate::Stamp {
            seconds_high: (stamp.seconds >> 32) as i32,
            seconds_low: stamp.seconds as i32,
            fraction_high: (stamp.fraction >> 32) as u32,
            fraction_low: stamp.fraction as u32,
        }
    }
}
