//! The questions about data under a descriptor. Each judges the descriptor
//! (1 to 12, input 1), then the whole data (20 to 23 or 25, input 3), then the rest.

use crate::raw::{self, Answer, Part, Value};

/// Walks the data. Accepted: the place is the piece count.
pub fn check_data(descriptor: &[u8], data: &[u8]) -> Answer {
    // SAFETY: each pointer and length are those of one live slice.
    unsafe {
        raw::kc_check_data(
            descriptor.as_ptr(),
            descriptor.len(),
            data.as_ptr(),
            data.len(),
        )
    }
}

/// Finds a part of the data: each step is a member number in a cluster, a flat
/// element number in an array, or 0 in a time stamp. Accepted: the place is 0. A step
/// that leads nowhere is 30 with input 4; a refusal's part is empty at the front.
pub fn view(descriptor: &[u8], data: &[u8], path: &[u32]) -> Part {
    // SAFETY: each pointer and length are those of one live slice.
    unsafe {
        raw::kc_view(
            descriptor.as_ptr(),
            descriptor.len(),
            data.as_ptr(),
            data.len(),
            path.as_ptr(),
            path.len(),
        )
    }
}

/// Reads the number at the end of a path; a Boolean's byte is true but for 00. It
/// refuses what a view does, then 31 with input 4 where there is no single number; a
/// refusal has no value.
pub fn read_value(descriptor: &[u8], data: &[u8], path: &[u32]) -> Value {
    // SAFETY: each pointer and length are those of one live slice.
    unsafe {
        raw::kc_read_value(
            descriptor.as_ptr(),
            descriptor.len(),
            data.as_ptr(),
            data.len(),
            path.as_ptr(),
            path.len(),
        )
    }
}

/// Writes the little-endian form. Accepted: the place is the length written, and
/// `out` beyond it keeps its bytes. Where the room is too small it is 50 with
/// input 4 and the length needed; a refusal writes nothing.
pub fn to_little_endian(descriptor: &[u8], data: &[u8], out: &mut [u8]) -> Answer {
    // SAFETY: each pointer and length are those of one live slice, and the
    // borrow of `out` keeps it apart from the others.
    unsafe {
        raw::kc_to_little_endian(
            descriptor.as_ptr(),
            descriptor.len(),
            data.as_ptr(),
            data.len(),
            out.as_mut_ptr(),
            out.len(),
        )
    }
}

/// Writes the data whose little-endian form is lent. Its answers are those of
/// [`to_little_endian`], with the words of the data read reversed.
pub fn from_little_endian(descriptor: &[u8], data: &[u8], out: &mut [u8]) -> Answer {
    // SAFETY: each pointer and length are those of one live slice, and the
    // borrow of `out` keeps it apart from the others.
    unsafe {
        raw::kc_from_little_endian(
            descriptor.as_ptr(),
            descriptor.len(),
            data.as_ptr(),
            data.len(),
            out.as_mut_ptr(),
            out.len(),
        )
    }
}
