//! Blank books put together by hand.

use super::descriptors::{cluster, descriptor, named};

/// A record, with the identifier that its data says.
#[derive(Clone, Debug)]
pub struct Record {
    pub identifier: u32,
    pub descriptor: Vec<u8>,
    pub data: Vec<u8>,
}

/// A descriptor of the identifier alone.
pub fn blank() -> Vec<u8> {
    cluster(&[named(descriptor(0x07, &[]), b"blank")])
}

/// A record of its identifier alone, 20 bytes in all.
pub fn record(identifier: u32) -> Record {
    Record {
        identifier,
        descriptor: blank(),
        data: identifier.to_be_bytes().to_vec(),
    }
}

/// A book of so many entries and bytes with these records.
pub fn book(capacity: u16, length: usize, records: &[Record]) -> Vec<u8> {
    let mut contents = Vec::new();
    contents.extend(capacity.to_be_bytes());
    contents.extend((records.len() as u16).to_be_bytes());
    let end = 4 + 16 * usize::from(capacity);
    let mut bodies = Vec::new();
    for record in records {
        let sizes = [
            end + bodies.len(),
            record.descriptor.len(),
            record.data.len(),
        ];
        contents.extend(record.identifier.to_be_bytes());
        contents.extend(sizes.iter().flat_map(|size| (*size as u32).to_be_bytes()));
        bodies.extend([&record.descriptor[..], &record.data].concat());
    }
    contents.resize(end, 0);
    contents.extend(bodies);
    contents.resize(length, 0);
    contents
}

/// A book of plain records, with these identifiers.
pub fn plain(capacity: u16, length: usize, identifiers: &[u32]) -> Vec<u8> {
    let records: Vec<Record> = identifiers.iter().copied().map(record).collect();
    book(capacity, length, &records)
}
