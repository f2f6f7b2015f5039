//! Bytes written as they are.

/// Some machines are slow to copy many bytes at once, so a long copy is made of
/// short ones.
const STRETCH: usize = 2048;

/// A short copy, in bytes.
const SHORT: usize = 32;

/// Copies bytes into room of their length.
#[inline(always)]
pub(crate) fn copy(data: &[u8], out: &mut [u8]) {
    for (data, out) in data.chunks(STRETCH).zip(out.chunks_mut(STRETCH)) {
        out.copy_from_slice(data);
    }
}

/// Copies that many bytes from front to front. A copy of one length is quicker,
/// and what it writes too much is written again by what follows.
#[inline(always)]
pub(crate) fn copy_front(data: &[u8], out: &mut [u8], length: usize) {
    match (data.first_chunk::<SHORT>(), out.first_chunk_mut::<SHORT>()) {
        (Some(data), Some(out)) if length <= SHORT => *out = *data,
        _ => copy(&data[..length], &mut out[..length]),
    }
}
