//! The two orders in which the bytes of a number can stand.

/// Reads the words that a walk depends on.
pub(crate) trait Order: Copy {
    fn half(self, bytes: [u8; 2]) -> u16;
    fn word(self, bytes: [u8; 4]) -> u32;
}

/// The first byte counts most: data as it is lent.
#[derive(Clone, Copy)]
pub(crate) struct Big;

/// The last byte counts most.
#[derive(Clone, Copy)]
pub(crate) struct Little;

impl Order for Big {
    #[inline(always)]
    fn half(self, bytes: [u8; 2]) -> u16 {
        u16::from_be_bytes(bytes)
    }

    #[inline(always)]
    fn word(self, bytes: [u8; 4]) -> u32 {
        u32::from_be_bytes(bytes)
    }
}

impl Order for Little {
    #[inline(always)]
    fn half(self, bytes: [u8; 2]) -> u16 {
        u16::from_le_bytes(bytes)
    }

    #[inline(always)]
    fn word(self, bytes: [u8; 4]) -> u32 {
        u32::from_le_bytes(bytes)
    }
}

/// How many elements an array of these size words has.
#[inline(always)]
pub(crate) fn element_count(order: impl Order, words: &[[u8; 4]]) -> u64 {
    (words.iter()).fold(1, |count, word| times(count, order.word(*word)))
}

/// A count of elements times one more size. Four sizes may not fit 64 bits; then
/// the count is the highest that does, which is more than any data holds, and a
/// size of 0 still makes it 0.
#[inline(always)]
pub(crate) fn times(count: u64, size: u32) -> u64 {
    count.saturating_mul(u64::from(size))
}
