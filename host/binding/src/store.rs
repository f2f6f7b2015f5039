//! The questions about a blank book. Each judges the whole book first: 63 with input 4.

use crate::raw::{self, Answer, Part};

/// Judges a book. Accepted: the place is 0. Refused: 63 with input 4. Its place is 0
/// for a book of under 4 or over 65,536 bytes; the capacity where the contents don't
/// fit or more entries are in use than there are; else the first bad entry.
pub fn store_check(store: &[u8]) -> Answer {
    // SAFETY: the pointer and length are those of one live slice.
    unsafe { raw::kc_store_check(store.as_ptr(), store.len()) }
}

/// Adds a record: its body behind the last one, its entry behind the last in use, and
/// one to the count; nothing else changes. Accepted: the place is 0. Refused: 63 as in
/// [`store_check`]; the record's own, 1 to 12 with input 1, 20 to 23 or 25 with
/// input 3, 41 with input 1, 42 to 44 with input 2; then with input 4 60 and the entry
/// that has the identifier, 61 where no entry is free, 62 and the body's length where
/// it doesn't fit. A refusal changes nothing.
pub fn store_add(store: &mut [u8], descriptor: &[u8], data: &[u8]) -> Answer {
    // SAFETY: each pointer and length are those of one live slice, and the
    // borrow of `store` keeps it apart from the others.
    unsafe {
        raw::kc_store_add(
            store.as_mut_ptr(),
            store.len(),
            descriptor.as_ptr(),
            descriptor.len(),
            data.as_ptr(),
            data.len(),
        )
    }
}

/// Finds the body, descriptor and data, of the record with this identifier. Accepted:
/// the place is 0. Refused: 63 as in [`store_check`], or 64 with input 4 where no entry
/// has it; a refusal's part is empty at the front.
pub fn store_find(store: &[u8], identifier: u32) -> Part {
    // SAFETY: the pointer and length are those of one live slice.
    unsafe { raw::kc_store_find(store.as_ptr(), store.len(), identifier) }
}

/// Writes the identifiers in entry order. Accepted: the place is the count, and
/// `identifiers` beyond it keeps its numbers. Refused: 63 as in [`store_check`], or 50
/// with input 4 and the count where there are too few places; nothing is written.
pub fn store_list(store: &[u8], identifiers: &mut [u32]) -> Answer {
    // SAFETY: each pointer and length are those of one live slice, and the
    // borrow of `identifiers` keeps the two apart.
    unsafe {
        raw::kc_store_list(
            store.as_ptr(),
            store.len(),
            identifiers.as_mut_ptr(),
            identifiers.len(),
        )
    }
}
