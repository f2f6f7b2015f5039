//! What rests on where the reserved bytes stand: the normal form's bytes, and
//! whether two accepted descriptors agree in all others.

use crate::walk::Visitor;
use crate::{MOST_ROWS, Row};

/// The starts of the descriptors met, in order of first byte. A reserved byte
/// stands two bytes behind each.
pub(crate) struct Starts([u16; MOST_ROWS]);

impl Default for Starts {
    fn default() -> Self {
        Starts([0; MOST_ROWS])
    }
}

impl Starts {
    pub(crate) fn first(&self, rows: usize) -> &[u16] {
        &self.0[..rows]
    }
}

impl Visitor for Starts {
    #[inline(always)]
    fn row(&mut self, index: usize, row: Row) {
        self.0[index] = row.start;
    }

    #[inline(always)]
    fn name(&mut self, _index: usize, _place: u16, _length: u16) {}
}

/// Copies the descriptor and zeroes its reserved bytes. Both have one length.
pub(crate) fn write(descriptor: &[u8], starts: &[u16], out: &mut [u8]) {
    out.copy_from_slice(descriptor);
    for &start in starts {
        out[usize::from(start) + 2] = 0;
    }
}

/// Whether two accepted descriptors are the same bytes apart from the reserved
/// ones. The first stands at `at` among the bytes in which it has these starts.
/// Up to the first difference elsewhere both have the same tree, so the second's
/// own starts aren't needed.
pub(crate) fn agree(first: &[u8], second: &[u8], starts: &[u16], at: usize) -> bool {
    if first.len() != second.len() {
        return false;
    }
    let mut starts = starts.iter();
    let mut reserved = |place: usize| {
        starts
            .find(|&&start| usize::from(start) + 2 >= at + place)
            .is_some_and(|&start| usize::from(start) + 2 == at + place)
    };
    let (first_words, first_rest) = first.as_chunks::<8>();
    let (second_words, second_rest) = second.as_chunks::<8>();
    for (index, (one, other)) in first_words.iter().zip(second_words).enumerate() {
        let mut unlike = u64::from_le_bytes(*one) ^ u64::from_le_bytes(*other);
        while unlike != 0 {
            let byte = unlike.trailing_zeros() / 8;
            if !reserved(8 * index + byte as usize) {
                return false;
            }
            unlike &= !(0xFF << (8 * byte));
        }
    }
    let rest_at = first.len() - first_rest.len();
    (first_rest.iter().zip(second_rest).enumerate())
        .all(|(index, (one, other))| one == other || reserved(rest_at + index))
}
