//! A well-formed book as the generator knows it: its bytes, and what every question
//! about it gives.

use reference::Answer;

use super::record::Record;
use crate::answers::{accepted, request};

/// The bytes before the entries, and those of an entry.
pub const HEAD: usize = 4;
pub const ENTRY: usize = 16;

/// The longest book.
pub const MOST: usize = 65536;

#[derive(Clone)]
pub struct Known {
    pub bytes: Vec<u8>,
    pub capacity: usize,
    pub entries: Vec<Entry>,
}

/// An entry in use.
#[derive(Clone, Copy)]
pub struct Entry {
    pub identifier: u32,
    pub start: usize,
    pub descriptor: usize,
    pub data: usize,
}

impl Entry {
    /// Where its body ends.
    pub fn end(&self) -> usize {
        self.start + self.descriptor + self.data
    }

    fn bytes(&self) -> Vec<u8> {
        let lengths = [self.start, self.descriptor, self.data].map(|number| number as u32);
        let words = [&[self.identifier][..], &lengths].concat();
        words.iter().flat_map(|word| word.to_be_bytes()).collect()
    }
}

/// Where an entry stands.
pub fn place_of(entry: usize) -> usize {
    HEAD + ENTRY * entry
}

impl Known {
    /// No entry in use, and these bytes behind the contents.
    pub fn empty(capacity: usize, free: &[u8]) -> Known {
        let head = [capacity as u16, 0].map(u16::to_be_bytes).concat();
        let entries = vec![0; ENTRY * capacity];
        Known {
            bytes: [&head, &entries, free].concat(),
            capacity,
            entries: Vec::new(),
        }
    }

    /// These records, and these bytes behind the last.
    pub fn of(capacity: usize, records: &[Record], free: &[u8]) -> Known {
        let bodies = records.iter().map(Record::length).sum();
        let mut known = Known::empty(capacity, &[&vec![0xC3; bodies], free].concat());
        records.iter().for_each(|record| known.put(record));
        known
    }

    /// Where the last body ends.
    pub fn end(&self) -> usize {
        let last = self.entries.last();
        last.map_or(place_of(self.capacity), Entry::end)
    }

    /// How many bytes are free.
    pub fn free(&self) -> usize {
        self.bytes.len() - self.end()
    }

    /// What adding a record gives, in the order of document 02.
    pub fn judge(&self, record: &Record) -> Answer {
        let identifier = match record.stated {
            Ok(identifier) => identifier,
            Err(refusal) => return refusal,
        };
        let length = record.length();
        match self.position(identifier) {
            Some(entry) => request(60, entry as u32),
            None if self.entries.len() == self.capacity => request(61, 0),
            None if length > self.free() => request(62, length as u32),
            None => accepted(0),
        }
    }

    /// Adds a record that is accepted.
    pub fn put(&mut self, record: &Record) {
        let entry = Entry {
            identifier: record.stated.unwrap_or_default(),
            start: self.end(),
            descriptor: record.descriptor.len(),
            data: record.data.len(),
        };
        let place = place_of(self.entries.len());
        self.bytes[place..place + ENTRY].copy_from_slice(&entry.bytes());
        let body = [&record.descriptor[..], &record.data].concat();
        self.bytes[entry.start..entry.end()].copy_from_slice(&body);
        self.entries.push(entry);
        self.bytes[2..HEAD].copy_from_slice(&(self.entries.len() as u16).to_be_bytes());
    }

    fn position(&self, identifier: u32) -> Option<usize> {
        let mut entries = self.entries.iter();
        entries.position(|entry| entry.identifier == identifier)
    }

    /// What finding an identifier gives: the answer, the body's start and its length.
    pub fn find(&self, identifier: u32) -> (Answer, usize, usize) {
        match self.position(identifier) {
            Some(number) => {
                let entry = self.entries[number];
                (accepted(0), entry.start, entry.end() - entry.start)
            }
            None => (request(64, 0), 0, 0),
        }
    }

    pub fn identifiers(&self) -> Vec<u32> {
        let entries = self.entries.iter();
        entries.map(|entry| entry.identifier).collect()
    }
}
