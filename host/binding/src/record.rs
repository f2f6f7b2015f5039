//! The question about a record in a reader's shape.

use crate::raw::{self, Answer};

/// Writes the bytes of the reader's members joined, in the reader's order, each
/// from the one member of the writer that has its name and an equal type.
/// Accepted: the place is the length written, and `out` beyond it keeps its bytes.
/// Refused: 1 to 12 with input 1 for the writer or 2 for the reader, 20 to 23 or 25
/// with input 3; then 40 with input 2, 41 with input 1, 42 to 44 with input 2; last
/// 50 with input 4 and the length needed. A refusal writes nothing.
pub fn read_record(writer: &[u8], reader: &[u8], data: &[u8], out: &mut [u8]) -> Answer {
    // SAFETY: each pointer and length are those of one live slice, and the
    // borrow of `out` keeps it apart from the others.
    unsafe {
        raw::kc_read_record(
            writer.as_ptr(),
            writer.len(),
            reader.as_ptr(),
            reader.len(),
            data.as_ptr(),
            data.len(),
            out.as_mut_ptr(),
            out.len(),
        )
    }
}
