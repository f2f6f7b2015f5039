//! What is wrong with a book that the library refuses with 63. The library says in
//! which entry; what is wrong there is found by its rules, one after another, and a
//! record's own fault is asked of the library again.

use kerbcanopy::{Answer, BOOK_LIMIT};

use super::{Book, HEAD, READER, entry_at};
use crate::words::counted;

/// The first thing that is wrong.
#[derive(Clone, Copy, Debug, PartialEq, Eq)]
pub enum Fault {
    /// The book has too few or too many bytes.
    Length(usize),
    /// The contents that the capacity asks for don't fit.
    Contents { capacity: usize, length: usize },
    /// More entries are in use than there are.
    Count { count: usize, capacity: usize },
    /// The entry of this number.
    Entry(usize, Wrong),
}

/// What is wrong with an entry.
#[derive(Clone, Copy, Debug, PartialEq, Eq)]
pub enum Wrong {
    /// Its body starts elsewhere than it has to.
    Start { start: usize, expected: usize },
    /// Its body ends behind the book's end.
    End { end: usize, length: usize },
    /// Its record is refused; the byte is that place in the book.
    Record { answer: Answer, byte: usize },
    /// It has another identifier than its record.
    Identifier { own: u32, record: u32 },
    /// An earlier entry has the same identifier.
    Twice { first: usize, identifier: u32 },
    /// It is not in use, and this byte is not zero.
    Unused { byte: usize },
}

impl Fault {
    /// The fault at the place of the library's refusal.
    pub fn of(bytes: &[u8], place: usize) -> Option<Fault> {
        let length = bytes.len();
        let Some(book) = Book::of(bytes).filter(|_| length <= BOOK_LIMIT) else {
            return Some(Fault::Length(length));
        };
        let (capacity, count) = (book.capacity, book.count);
        if book.contents_end() > length {
            return Some(Fault::Contents { capacity, length });
        }
        if count > capacity {
            return Some(Fault::Count { count, capacity });
        }
        let wrong = match place < count {
            true => in_use(&book, place),
            false => unused(&book, place),
        };
        wrong.map(|wrong| Fault::Entry(place, wrong))
    }

    /// The byte of the book to look at.
    pub fn byte(&self) -> usize {
        match *self {
            Fault::Length(length) if length < HEAD => length,
            Fault::Length(_) | Fault::Contents { .. } => 0,
            Fault::Count { .. } => 2,
            Fault::Entry(entry, wrong) => match wrong {
                Wrong::Identifier { .. } | Wrong::Twice { .. } => entry_at(entry),
                Wrong::Start { .. } => entry_at(entry) + 4,
                Wrong::End { .. } => entry_at(entry) + 8,
                Wrong::Record { byte, .. } | Wrong::Unused { byte } => byte,
            },
        }
    }

    /// What is wrong, in figures.
    pub fn words(&self) -> String {
        match *self {
            Fault::Length(length) if length < HEAD => {
                let length = counted(length, "byte");
                format!("{length}, and a book has at least {HEAD}")
            }
            Fault::Length(_) => format!("over {BOOK_LIMIT} bytes"),
            Fault::Contents { capacity, length } => {
                let needed = entry_at(capacity);
                format!("a capacity of {capacity} needs {needed} bytes, {length} are there")
            }
            Fault::Count { count, capacity } => {
                let used = counted(count, "entry");
                format!("{used} in use, the capacity is {capacity}")
            }
            Fault::Entry(entry, wrong) => wrong.words(entry),
        }
    }
}

impl Wrong {
    fn words(self, entry: usize) -> String {
        match self {
            Wrong::Start { start, expected } => {
                let before = match entry {
                    0 => "the contents end",
                    _ => "the one before ends",
                };
                format!("entry {entry}: its body starts at {start}, {before} at {expected}")
            }
            Wrong::End { end, length } => {
                format!("entry {entry}: its body ends at {end}, the book at {length}")
            }
            Wrong::Record { answer, .. } => {
                format!("entry {entry}: its record is {}", refused(answer))
            }
            Wrong::Identifier { own, record } => {
                format!("entry {entry} has identifier {own}, its record says {record}")
            }
            Wrong::Twice { first, identifier } => {
                format!("entries {first} and {entry} both have identifier {identifier}")
            }
            Wrong::Unused { byte } => {
                format!("unused entry {entry} is not zero, its first other byte is {byte}")
            }
        }
    }
}

/// What is wrong with an entry in use: where its body stands, then the record in it,
/// then its identifier.
fn in_use(book: &Book, number: usize) -> Option<Wrong> {
    let entry = book.entry(number)?;
    let (start, expected) = (entry.start, book.body_at(number));
    if start != expected {
        return Some(Wrong::Start { start, expected });
    }
    let (end, length) = (entry.end(), book.bytes.len());
    if end > length {
        return Some(Wrong::End { end, length });
    }
    let (descriptor, data) = book.bytes[start..end].split_at(entry.descriptor);
    let mut record = [0; 4];
    let answer = kerbcanopy::read_record(descriptor, READER, data, &mut record);
    if answer.number != 0 {
        let byte = start + within(answer, descriptor);
        return Some(Wrong::Record { answer, byte });
    }
    let (own, record) = (entry.identifier, u32::from_be_bytes(record));
    if own != record {
        return Some(Wrong::Identifier { own, record });
    }
    let first = book.entries().position(|other| other.identifier == own)?;
    (first < number).then_some(Wrong::Twice {
        first,
        identifier: own,
    })
}

/// How far behind a body's start the place of its record's refusal is. A reader's place
/// is no byte: what is wrong is the descriptor then.
fn within(answer: Answer, descriptor: &[u8]) -> usize {
    match answer.input {
        1 => answer.place as usize,
        3 => descriptor.len() + answer.place as usize,
        _ => 0,
    }
}

/// An entry that is not in use has only zeros.
fn unused(book: &Book, number: usize) -> Option<Wrong> {
    let start = entry_at(number);
    let behind = book.bytes.get(start..book.contents_end())?;
    let byte = behind.iter().position(|byte| *byte != 0)?;
    Some(Wrong::Unused { byte: start + byte })
}

/// A record's own refusal, by its number and where it stands in the record.
fn refused(answer: Answer) -> String {
    let Answer {
        number,
        input,
        place,
    } = answer;
    let meaning = kerbcanopy::meaning(number);
    let place = match input {
        1 => format!(" at {place} of its descriptor"),
        3 => format!(" at {place} of its data"),
        _ => String::new(),
    };
    format!("refused with {number}{place}: {meaning}")
}
