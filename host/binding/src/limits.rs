//! The most bytes that are accepted, for callers who need not lend more.

/// A longer descriptor is refused with 1.
pub const DESCRIPTOR_LIMIT: usize = 4_096;
/// Longer data is refused with 20.
pub const DATA_LIMIT: usize = 65_536;
/// A longer blank book is refused with 63.
pub const BOOK_LIMIT: usize = 65_536;
