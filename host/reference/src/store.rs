//! What can be asked of a blank book: "check a book, add a record, find one's whole
//! body by identifier as a part of the book, list identifiers in entry order". Each
//! question first judges the whole book.

use crate::book::{Book, Reading, write_entry};
use crate::copy::copy;
use crate::entry::Entry;
use crate::walk::Refusal;
use crate::{Answer, Part, accepted, refused};

/// Judges a book. Accepted: the place is 0. Refused: 63 with input 4. The place is 0
/// for a book of under 4 or over 65,536 bytes; the capacity where the contents don't
/// fit or more entries are in use than there are; else the first bad entry.
pub fn store_check(store: &[u8]) -> Answer {
    match Reading::new().book(store) {
        Ok(_) => accepted(0),
        Err(refusal) => refusal,
    }
}

/// Adds a record: its body behind the last one, its entry behind the last in use, and
/// one to the count. Accepted: the place is 0. Refused, and nothing is written: 63 as
/// in [`store_check`]; the record's own, 1 to 12 with input 1, 20 to 23 or 25 with
/// input 3, 41 with input 1 and 42 to 44 with input 2; then with input 4 60 and the
/// entry that has the identifier, 61 where no entry is free, and 62 with the body's
/// length where that doesn't fit.
pub fn store_add(store: &mut [u8], descriptor: &[u8], data: &[u8]) -> Answer {
    match judge_addition(store, descriptor, data) {
        Ok(addition) => {
            addition.write(store, descriptor, data);
            accepted(0)
        }
        Err(refusal) => refusal,
    }
}

/// Finds the body, descriptor and data, of the record with this identifier. Accepted:
/// the place is 0. Refused: 63 as in [`store_check`], or 64 with input 4 where no
/// entry has the identifier.
pub fn store_find(store: &[u8], identifier: u32) -> Part {
    match find_entry(store, identifier) {
        Ok(entry) => Part {
            answer: accepted(0),
            start: entry.start as usize,
            length: entry.descriptor as usize + entry.data as usize,
        },
        Err(answer) => Part {
            answer,
            ..Part::default()
        },
    }
}

/// Writes the identifiers in entry order. Accepted: the place is the count, and
/// `identifiers` beyond it keeps its numbers. Refused, and nothing is written: 63 as
/// in [`store_check`], or 50 with input 4 and the count where there are too few places.
pub fn store_list(store: &[u8], identifiers: &mut [u32]) -> Answer {
    let entries = match Reading::new().book(store) {
        Ok(book) => book.entries,
        Err(refusal) => return refusal,
    };
    let Some(written) = identifiers.get_mut(..entries.len()) else {
        return of_request(50, entries.len());
    };
    for (identifier, entry) in written.iter_mut().zip(entries) {
        *identifier = Entry::read(entry).identifier;
    }
    accepted(entries.len())
}

/// 63 or 64, else the entry.
fn find_entry(store: &[u8], identifier: u32) -> Result<Entry, Answer> {
    let mut reading = Reading::new();
    let book = reading.book(store)?;
    match reading.find(book, identifier) {
        Some(entry) => Ok(Entry::read(&book.entries[entry])),
        None => Err(of_request(64, 0)),
    }
}

/// Where an accepted record goes.
struct Addition {
    /// How many entries stand before its own.
    count: usize,
    /// Where its body starts.
    start: usize,
    identifier: u32,
}

/// All that can be refused of an addition, in the order of document 02.
fn judge_addition(store: &[u8], descriptor: &[u8], data: &[u8]) -> Result<Addition, Answer> {
    let mut reading = Reading::new();
    let book = reading.book(store)?;
    let identifier = reading.identifier(descriptor, data)?;
    if let Some(entry) = reading.find(book, identifier) {
        return Err(of_request(60, entry));
    }
    let Book {
        capacity,
        entries,
        end,
    } = book;
    if entries.len() == capacity {
        return Err(of_request(61, 0));
    }
    // Both are within document 01's limits by now, so the sum can't wrap.
    let length = descriptor.len() + data.len();
    if length > store.len() - end {
        return Err(of_request(62, length));
    }
    Ok(Addition {
        count: entries.len(),
        start: end,
        identifier,
    })
}

impl Addition {
    fn write(self, store: &mut [u8], descriptor: &[u8], data: &[u8]) {
        let entry = Entry {
            identifier: self.identifier,
            start: self.start as u32,
            descriptor: descriptor.len() as u32,
            data: data.len() as u32,
        };
        let body = &mut store[self.start..];
        let (first, behind) = body.split_at_mut(descriptor.len());
        first.copy_from_slice(descriptor);
        copy(data, &mut behind[..data.len()]);
        write_entry(store, self.count, entry);
    }
}

/// A refusal of the request.
fn of_request(number: u32, place: usize) -> Answer {
    refused(Refusal { number, place }, 4)
}
