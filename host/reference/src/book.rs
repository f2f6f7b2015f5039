//! A blank book judged: 63 where it isn't well formed.

use crate::blank::LastWriter;
use crate::entry::{Entry, EntryBytes, UNUSED};
use crate::register::Register;
use crate::walk::Refusal;
use crate::{Answer, refused};

/// The longest book that is read, in bytes.
const MOST_BOOK: usize = 65536;

/// The capacity and the count, in bytes: what stands before the entries.
const HEAD: usize = 4;

/// What a well-formed book says of itself.
#[derive(Clone, Copy)]
pub(crate) struct Book<'a> {
    pub(crate) capacity: usize,
    /// The entries in use.
    pub(crate) entries: &'a [EntryBytes],
    /// Where the last body ends, or the contents where there is none.
    pub(crate) end: usize,
}

/// Judges a book, and keeps what further questions need.
pub(crate) struct Reading<'a> {
    writer: LastWriter<'a>,
    register: Register,
}

impl<'a> Reading<'a> {
    #[inline(always)]
    pub(crate) fn new() -> Self {
        Reading {
            writer: LastWriter::new(),
            register: Register::new(),
        }
    }

    /// Judges the whole book: 63, input 4, at 0, at its capacity or at its first bad
    /// entry.
    #[inline(never)]
    pub(crate) fn book(&mut self, store: &'a [u8]) -> Result<Book<'a>, Answer> {
        let (capacity, count) = head(store)?;
        let end = HEAD + size_of::<EntryBytes>() * capacity;
        let contents = match store.get(HEAD..end) {
            Some(contents) if count <= capacity => contents.as_chunks().0,
            _ => return Err(ill_formed(capacity)),
        };
        let (entries, unused) = contents.split_at(count);
        let mut book = Book {
            capacity,
            entries,
            end,
        };
        for entry in 0..count {
            match self.entry(store, book, entry) {
                Some(end) => book.end = end,
                None => return Err(ill_formed(entry)),
            }
        }
        match unused.iter().position(|entry| *entry != UNUSED) {
            Some(entry) => Err(ill_formed(count + entry)),
            None => Ok(book),
        }
    }

    /// Judges an entry in use: its body starts where the one before ended and ends
    /// inside the book, both its parts are accepted, and its identifier is that of the
    /// record and no earlier entry's. Returns where the body ends.
    #[inline(always)]
    fn entry(&mut self, store: &'a [u8], book: Book, number: usize) -> Option<usize> {
        let entry = Entry::read(&book.entries[number]);
        if entry.start as usize != book.end {
            return None;
        }
        let (descriptor, data) = entry.body(store)?;
        let identifier = self.writer.identifier(descriptor, data).ok()?;
        if identifier != entry.identifier {
            return None;
        }
        let fresh = self.register.add(book.entries, identifier, number);
        fresh.then_some(book.end + descriptor.len() + data.len())
    }

    /// The entry of the judged book that has this identifier.
    pub(crate) fn find(&self, book: Book, identifier: u32) -> Option<usize> {
        self.register.find(book.entries, identifier)
    }

    /// The identifier of a record that isn't in the book, or the record's own refusal.
    pub(crate) fn identifier(&mut self, descriptor: &'a [u8], data: &[u8]) -> Result<u32, Answer> {
        self.writer.identifier(descriptor, data)
    }
}

/// The capacity and the count in use.
fn head(store: &[u8]) -> Result<(usize, usize), Answer> {
    match store.first_chunk() {
        Some(&[capacity_high, capacity_low, count_high, count_low]) if store.len() <= MOST_BOOK => {
            let capacity = u16::from_be_bytes([capacity_high, capacity_low]);
            let count = u16::from_be_bytes([count_high, count_low]);
            Ok((usize::from(capacity), usize::from(count)))
        }
        _ => Err(ill_formed(0)),
    }
}

/// Writes an entry behind those in use, of which there are `count`, and counts it.
pub(crate) fn write_entry(store: &mut [u8], count: usize, entry: Entry) {
    let contents = store[HEAD..].as_chunks_mut().0;
    entry.write(&mut contents[count]);
    store[2..HEAD].copy_from_slice(&(count as u16 + 1).to_be_bytes());
}

fn ill_formed(place: usize) -> Answer {
    refused(Refusal { number: 63, place }, 4)
}
