//! A blank book judged straight from document 02: every entry is compared with all
//! before it, every body is read anew, and sums are taken where none can wrap.

use reference::{Answer, Part};

use super::record::read_record;

/// "The reader's shape `0010 0050 0001 000A 0007 0562 6C61 6E6B`".
const SHAPE: [u8; 16] = *b"\x00\x10\x00\x50\x00\x01\x00\x0A\x00\x07\x05blank";

/// What an entry says, whether it is in order or not.
#[derive(Clone, Copy)]
struct Entry {
    identifier: u64,
    start: u64,
    descriptor: u64,
    data: u64,
}

impl Entry {
    fn end(self) -> u64 {
        self.start + self.descriptor + self.data
    }
}

fn answer(number: u32, input: u32, place: u64) -> Answer {
    Answer {
        number,
        input,
        place: place as u32,
    }
}

/// The big-endian number that these bytes are.
fn number(bytes: &[u8]) -> u64 {
    (bytes.iter()).fold(0, |number, byte| number << 8 | u64::from(*byte))
}

fn capacity(book: &[u8]) -> u64 {
    number(&book[..2])
}

fn count(book: &[u8]) -> u64 {
    number(&book[2..4])
}

fn bytes_of(book: &[u8], entry: u64) -> &[u8] {
    &book[4 + 16 * entry as usize..][..16]
}

fn entry(book: &[u8], entry: u64) -> Entry {
    let bytes = bytes_of(book, entry);
    Entry {
        identifier: number(&bytes[..4]),
        start: number(&bytes[4..8]),
        descriptor: number(&bytes[8..12]),
        data: number(&bytes[12..]),
    }
}

/// Where the last of so many bodies ends.
fn end_of(book: &[u8], bodies: u64) -> u64 {
    match bodies {
        0 => 4 + 16 * capacity(book),
        _ => entry(book, bodies - 1).end(),
    }
}

/// The identifier of a record, or the record's own refusal.
pub fn identifier(descriptor: &[u8], data: &[u8]) -> Result<u32, Answer> {
    let (answer, bytes) = read_record(descriptor, &SHAPE, data, 4);
    match answer.number {
        0 => Ok(number(&bytes) as u32),
        _ => Err(answer),
    }
}

/// Whether an entry of a book is in order, where those before it are, which have these
/// identifiers.
fn in_order(book: &[u8], place: u64, earlier: &[u64]) -> bool {
    if place >= count(book) {
        return bytes_of(book, place).iter().all(|byte| *byte == 0);
    }
    let own = entry(book, place);
    if own.start != end_of(book, place) || own.end() > book.len() as u64 {
        return false;
    }
    let body = &book[own.start as usize..own.end() as usize];
    let (descriptor, data) = body.split_at(own.descriptor as usize);
    let read = identifier(descriptor, data).map(u64::from);
    read == Ok(own.identifier) && !earlier.contains(&own.identifier)
}

/// 63.
fn judge(book: &[u8]) -> Result<(), Answer> {
    if book.len() < 4 || book.len() > 65536 {
        return Err(answer(63, 4, 0));
    }
    let capacity = capacity(book);
    if 4 + 16 * capacity > book.len() as u64 || count(book) > capacity {
        return Err(answer(63, 4, capacity));
    }
    let mut earlier = vec![];
    for place in 0..capacity {
        if !in_order(book, place, &earlier) {
            return Err(answer(63, 4, place));
        }
        earlier.push(entry(book, place).identifier);
    }
    Ok(())
}

/// The entry in use with this identifier.
fn entry_with(book: &[u8], identifier: u32) -> Option<u64> {
    (0..count(book)).find(|place| entry(book, *place).identifier == u64::from(identifier))
}

pub fn check(book: &[u8]) -> Answer {
    judge(book).err().unwrap_or_default()
}

pub fn find(book: &[u8], identifier: u32) -> Part {
    let found = judge(book).and_then(|()| {
        let place = entry_with(book, identifier).ok_or(answer(64, 4, 0))?;
        Ok(entry(book, place))
    });
    match found {
        Ok(entry) => Part {
            answer: Answer::default(),
            start: entry.start as usize,
            length: (entry.descriptor + entry.data) as usize,
        },
        Err(answer) => Part {
            answer,
            start: 0,
            length: 0,
        },
    }
}

/// The answer in so many places, and the numbers that are given.
pub fn list(book: &[u8], places: usize) -> (Answer, Vec<u32>) {
    if let Err(refusal) = judge(book) {
        return (refusal, vec![]);
    }
    let count = count(book);
    if (places as u64) < count {
        return (answer(50, 4, count), vec![]);
    }
    let identifiers = (0..count).map(|place| entry(book, place).identifier as u32);
    (answer(0, 0, count), identifiers.collect())
}

/// All that can be refused of an addition. Returns the identifier.
fn judge_addition(book: &[u8], descriptor: &[u8], data: &[u8]) -> Result<u32, Answer> {
    judge(book)?;
    let identifier = identifier(descriptor, data)?;
    if let Some(place) = entry_with(book, identifier) {
        return Err(answer(60, 4, place));
    }
    if count(book) == capacity(book) {
        return Err(answer(61, 4, 0));
    }
    let length = (descriptor.len() + data.len()) as u64;
    if end_of(book, count(book)) + length > book.len() as u64 {
        return Err(answer(62, 4, length));
    }
    Ok(identifier)
}

/// The answer, and the book afterwards.
pub fn add(book: &[u8], descriptor: &[u8], data: &[u8]) -> (Answer, Vec<u8>) {
    let identifier = match judge_addition(book, descriptor, data) {
        Ok(identifier) => identifier,
        Err(refusal) => return (refusal, book.to_vec()),
    };
    let (count, end) = (count(book), end_of(book, count(book)) as usize);
    let record = [descriptor, data].concat();
    let numbers = [
        identifier,
        end as u32,
        descriptor.len() as u32,
        data.len() as u32,
    ];
    let mut added = book.to_vec();
    added[2..4].copy_from_slice(&(count as u16 + 1).to_be_bytes());
    for (index, number) in numbers.iter().enumerate() {
        let place = 4 + 16 * count as usize + 4 * index;
        added[place..place + 4].copy_from_slice(&number.to_be_bytes());
    }
    added[end..end + record.len()].copy_from_slice(&record);
    (Answer::default(), added)
}
