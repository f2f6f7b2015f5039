//! The search for a reader's members by their names.

use crate::MOST_ROWS;
use crate::members::Members;

/// What a search for a reader's member among the writer's comes to.
#[derive(Clone, Copy)]
pub(crate) enum Search {
    Missing,
    Doubled,
    /// Found once: the writer's member.
    Found(usize),
}

/// The reader's members by name, and what was found for each.
pub(crate) struct Index<'a> {
    reader: Members<'a>,
    /// The last member of each slot, counted from 1; 0 is none.
    last: [u8; SLOTS],
    /// The member before this one in its slot, counted likewise.
    before: [u8; MOST_ROWS],
    /// The writer's member that was found for this one, counted likewise, or more
    /// than any where several were.
    found: [u16; MOST_ROWS],
}

/// How many slots the names are spread over.
const SLOTS: usize = 256;

/// Stands for more than one member.
const SEVERAL: u16 = u16::MAX;

/// The slot of a name: a mixture of its first and last characters.
#[inline(always)]
fn slot(name: &[u8]) -> usize {
    let ends = match (name.first_chunk(), name.last_chunk()) {
        (Some(first), Some(last)) => {
            u64::from(u32::from_le_bytes(*first)) << 32 | u64::from(u32::from_le_bytes(*last))
        }
        _ => (name.iter()).fold(0, |ends, &byte| ends << 8 | u64::from(byte)),
    };
    (ends.wrapping_mul(0x9E37_79B9_7F4A_7C15) >> 56) as usize
}

impl<'a> Index<'a> {
    /// No member of the reader yet.
    #[inline(always)]
    pub(crate) fn new(reader: Members<'a>) -> Self {
        Index {
            reader,
            last: [0; SLOTS],
            before: [0; MOST_ROWS],
            found: [0; MOST_ROWS],
        }
    }

    /// Adds a member of the reader. Returns whether its name is there and no
    /// earlier member's.
    #[inline(always)]
    pub(crate) fn add(&mut self, member: usize) -> bool {
        let name = self.reader.name(member);
        if name.is_empty() {
            return false;
        }
        let slot = slot(name);
        let fresh = self.named(slot, name).is_none();
        self.before[member] = self.last[slot];
        self.last[slot] = member as u8 + 1;
        fresh
    }

    /// Marks the reader's member of this name, if there is one, as found at this
    /// member of the writer, or as found again.
    #[inline(always)]
    pub(crate) fn meet(&mut self, name: &[u8], member: usize) {
        if name.is_empty() {
            return;
        }
        if let Some(wanted) = self.named(slot(name), name) {
            self.found[wanted] = match self.found[wanted] {
                0 => member as u16 + 1,
                _ => SEVERAL,
            };
        }
    }

    /// What was found for this member of the reader.
    #[inline(always)]
    pub(crate) fn found(&self, member: usize) -> Search {
        match self.found[member] {
            0 => Search::Missing,
            SEVERAL => Search::Doubled,
            found => Search::Found(usize::from(found) - 1),
        }
    }

    /// The reader's member of this name, which belongs in this slot.
    #[inline(always)]
    fn named(&self, slot: usize, name: &[u8]) -> Option<usize> {
        let mut next = self.last[slot];
        while next != 0 {
            let member = usize::from(next) - 1;
            if self.reader.name(member) == name {
                return Some(member);
            }
            next = self.before[member];
        }
        None
    }
}
