//! The version of the library that is linked.

use std::fmt;

use crate::raw;

/// The three numbers of a version; a later one is greater. Before 1.0 the second
/// goes up with any change of a layout, a number, a place or an entry's meaning,
/// the third with what only adds.
#[derive(Clone, Copy, Debug, PartialEq, Eq, PartialOrd, Ord, Hash)]
pub struct Version {
    pub major: u16,
    pub minor: u8,
    pub patch: u8,
}

impl fmt::Display for Version {
    fn fmt(&self, f: &mut fmt::Formatter<'_>) -> fmt::Result {
        write!(f, "{}.{}.{}", self.major, self.minor, self.patch)
    }
}

/// Which version the linked library is, as it says itself. It is this crate's, but
/// where `KERBCANOPY_LIB_DIR` named another one when the program was built.
///
/// ```
/// let version = kerbcanopy::version();
/// assert_eq!(version.to_string(), env!("CARGO_PKG_VERSION"));
/// ```
pub fn version() -> Version {
    let [high, low, minor, patch] = raw::kc_version().to_be_bytes();
    Version {
        major: u16::from_be_bytes([high, low]),
        minor,
        patch,
    }
}
