//! Blank books put together by hand.

use super::{cluster, named, plain};

/// A record, and the identifier that its entry gives.
#[derive(Clone)]
pub struct Record {
    pub identifier: u32,
    pub descriptor: Vec<u8>,
    pub data: Vec<u8>,
}

impl Record {
    /// The descriptor and the data as they stand in a book.
    pub fn body(&self) -> Vec<u8> {
        [&self.descriptor[..], &self.data].concat()
    }
}

/// The member that holds an identifier.
pub fn blank() -> Vec<u8> {
    named(plain(0x07), "blank")
}

/// The shortest record there is: an identifier and nothing else, 20 bytes.
pub fn short(identifier: u32) -> Record {
    Record {
        identifier,
        descriptor: cluster(&[blank()]),
        data: identifier.to_be_bytes().to_vec(),
    }
}

/// A book of these records, whether they belong in it or not, with these free bytes.
pub fn book(capacity: u16, records: &[Record], free: &[u8]) -> Vec<u8> {
    let count = records.len() as u16;
    let contents = 4 + 16 * usize::from(capacity);
    let mut book = [capacity.to_be_bytes(), count.to_be_bytes()].concat();
    let mut start = contents;
    for record in records {
        let (descriptor, data) = (record.descriptor.len(), record.data.len());
        book.extend(record.identifier.to_be_bytes());
        for number in [start, descriptor, data] {
            book.extend((number as u32).to_be_bytes());
        }
        start += descriptor + data;
    }
    book.resize(contents, 0);
    records.iter().for_each(|record| book.extend(record.body()));
    book.extend(free);
    book
}
