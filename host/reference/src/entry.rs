//! The entries of a blank book: "identifier, body start in the book, descriptor
//! length, data length, each 32 bits".

use crate::order::{Big, Order};

/// An entry as it stands in the book.
pub(crate) type EntryBytes = [u8; 16];

/// An entry that isn't in use: "unused ones are zero".
pub(crate) const UNUSED: EntryBytes = [0; 16];

#[derive(Clone, Copy)]
pub(crate) struct Entry {
    pub(crate) identifier: u32,
    pub(crate) start: u32,
    pub(crate) descriptor: u32,
    pub(crate) data: u32,
}

impl Entry {
    #[inline(always)]
    pub(crate) fn read(bytes: &EntryBytes) -> Entry {
        let (words, _) = bytes.as_chunks();
        let [identifier, start, descriptor, data] = [0, 1, 2, 3].map(|word| Big.word(words[word]));
        Entry {
            identifier,
            start,
            descriptor,
            data,
        }
    }

    pub(crate) fn write(self, bytes: &mut EntryBytes) {
        let numbers = [self.identifier, self.start, self.descriptor, self.data];
        for (word, number) in bytes.as_chunks_mut().0.iter_mut().zip(numbers) {
            *word = number.to_be_bytes();
        }
    }

    /// The descriptor and the data, if they end inside the book. No sum is taken, so
    /// none can wrap.
    #[inline(always)]
    pub(crate) fn body(self, book: &[u8]) -> Option<(&[u8], &[u8])> {
        let body = book.get(self.start as usize..)?;
        let (descriptor, behind) = body.split_at_checked(self.descriptor as usize)?;
        let data = behind.get(..self.data as usize)?;
        Some((descriptor, data))
    }
}
