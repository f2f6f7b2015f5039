//! The questions about descriptors.

use crate::raw::{self, Answer, Checked};

/// What compare returns; `equal` is false after a refusal.
#[derive(Clone, Copy, Debug, PartialEq, Eq)]
pub struct Compared {
    pub answer: Answer,
    pub equal: bool,
}

/// Reads a descriptor into the table. Accepted: the place is the row count.
/// Refused: 1 to 12, input 1, and the table is all zero.
pub fn check_descriptor(descriptor: &[u8]) -> Checked {
    // SAFETY: the pointer and length are those of one live slice.
    unsafe { raw::kc_check_descriptor(descriptor.as_ptr(), descriptor.len()) }
}

/// Says whether two descriptors are equal, reserved bytes apart. A refusal
/// (1 to 12) has input 1 or 2.
///
/// # Panics
///
/// If the library hands back a truth value that is neither 0 nor 1.
pub fn compare(first: &[u8], second: &[u8]) -> Compared {
    // SAFETY: each pointer and length are those of one live slice.
    let compared =
        unsafe { raw::kc_compare(first.as_ptr(), first.len(), second.as_ptr(), second.len()) };
    assert!(
        compared.equal <= 1,
        "kc_compare: equal is {}",
        compared.equal
    );
    Compared {
        answer: compared.answer,
        equal: compared.equal == 1,
    }
}

/// Writes the descriptor with every reserved byte zero. Accepted: the place is
/// the length written, and `out` beyond it keeps its bytes. Refused: 1 to 12
/// with input 1, or 50 with input 4 and the length needed; nothing is written.
pub fn normal_form(descriptor: &[u8], out: &mut [u8]) -> Answer {
    // SAFETY: each pointer and length are those of one live slice, and the
    // borrow of `out` keeps the two apart.
    unsafe {
        raw::kc_normal_form(
            descriptor.as_ptr(),
            descriptor.len(),
            out.as_mut_ptr(),
            out.len(),
        )
    }
}
