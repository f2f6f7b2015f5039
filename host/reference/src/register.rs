//! The entries of a blank book by their identifiers.

use crate::entry::{Entry, EntryBytes};

/// How many slots the identifiers are spread over: more than a book has entries, so
/// there is always a free one, and more than twice as many as can be in order, which
/// take 36 bytes each.
const SLOTS: usize = 4096;

/// For each slot the entry in it, counted from 1; 0 is none. An entry whose slot is
/// taken stands in the next free one.
pub(crate) struct Register([u16; SLOTS]);

/// The first slot for an identifier. Neighbours are spread far apart.
#[inline(always)]
fn slot(identifier: u32) -> usize {
    (identifier.wrapping_mul(0x9E37_79B9) >> 20) as usize
}

impl Register {
    /// No entry yet.
    #[inline(always)]
    pub(crate) fn new() -> Self {
        Register([0; SLOTS])
    }

    /// Adds one of these entries. Returns whether its identifier is no earlier one's.
    #[inline(always)]
    pub(crate) fn add(&mut self, entries: &[EntryBytes], identifier: u32, entry: usize) -> bool {
        match self.search(entries, identifier) {
            Ok(_) => false,
            Err(slot) => {
                self.0[slot] = entry as u16 + 1;
                true
            }
        }
    }

    /// The entry with this identifier among those added.
    #[inline(always)]
    pub(crate) fn find(&self, entries: &[EntryBytes], identifier: u32) -> Option<usize> {
        self.search(entries, identifier).ok()
    }

    /// The entry with this identifier, else the free slot for it.
    #[inline(always)]
    fn search(&self, entries: &[EntryBytes], identifier: u32) -> Result<usize, usize> {
        let mut slot = slot(identifier);
        loop {
            let taken = usize::from(self.0[slot]);
            if taken == 0 {
                return Err(slot);
            }
            if Entry::read(&entries[taken - 1]).identifier == identifier {
                return Ok(taken - 1);
            }
            slot = (slot + 1) % SLOTS;
        }
    }
}
