//! The blank books that are timed.

use crate::inputs::descriptors::{array, cluster, number, states, text};
use crate::inputs::records::Member;

/// The longest book.
pub const LONGEST: usize = 65536;

/// Records one behind the other, and the book of them.
pub struct Book {
    pub what: String,
    pub bytes: Vec<u8>,
    records: Vec<Member>,
    length: usize,
}

/// The identifier of the record of this number: blanks are numbered as they come.
fn identifier(number: usize) -> u32 {
    1_000_000 + number as u32
}

impl Book {
    /// A book of this length with an entry for each of the records.
    fn new(what: impl Into<String>, records: Vec<Member>, length: usize) -> Book {
        Book {
            what: what.into(),
            bytes: bytes(records.len(), &records, length),
            records,
            length,
        }
    }

    pub fn count(&self) -> usize {
        self.records.len()
    }

    pub fn first(&self) -> u32 {
        identifier(0)
    }

    pub fn last(&self) -> u32 {
        identifier(self.count() - 1)
    }

    /// An identifier that it doesn't have.
    pub fn missing(&self) -> u32 {
        identifier(self.count())
    }

    /// The book before its last record was added, and that record.
    pub fn but_last(&self) -> (Vec<u8>, &Member) {
        let (last, others) = self.records.split_last().expect("it has records");
        (bytes(self.count(), others, self.length), last)
    }

    /// A copy whose last record's identifier isn't its entry's.
    pub fn ill_formed(&self) -> Vec<u8> {
        let mut bytes = self.bytes.clone();
        bytes[4 + 16 * (self.count() - 1)] ^= 1;
        bytes
    }
}

/// A book of this length: so many entries, and the records of those in use.
fn bytes(capacity: usize, records: &[Member], length: usize) -> Vec<u8> {
    let mut book = vec![0; 4 + 16 * capacity];
    book[..2].copy_from_slice(&(capacity as u16).to_be_bytes());
    book[2..4].copy_from_slice(&(records.len() as u16).to_be_bytes());
    for (index, (descriptor, data)) in records.iter().enumerate() {
        let [start, first, second] = [book.len(), descriptor.len(), data.len()];
        let words = [start, first, second].map(|word| word as u32);
        let words = [&[identifier(index)][..], &words].concat();
        let entry: Vec<u8> = words.iter().flat_map(|word| word.to_be_bytes()).collect();
        book[4 + 16 * index..][..16].copy_from_slice(&entry);
        book.extend(descriptor);
        book.extend(data);
    }
    book.resize(length, 0);
    book
}

/// A record of which all numbers have their width.
fn fixed(number_of: usize) -> Member {
    let members = [
        number(0x0A, "bath"),
        number(0x07, "blank"),
        number(0x09, "anode"),
        number(0x21, "rinsed"),
    ];
    let data = [
        &[0x40, 0x39, 0, 0, 0, 0, 0, 0][..],
        &identifier(number_of).to_be_bytes(),
        &[0x41, 0xA4, 0, 0, 1],
    ];
    (cluster("", &members), data.concat())
}

/// A record with an enumeration, a string and an array.
fn varied(number_of: usize) -> Member {
    let members = [
        states(""),
        text(""),
        array("", number(0x06, "")),
        number(0x07, "blank"),
    ];
    let operator = &b"copper"[..number_of % 7];
    let data = [
        &[0, (number_of % 3) as u8, 0, 0, 0, operator.len() as u8][..],
        operator,
        &[0, 0, 0, 2, 0, 25, 0, number_of as u8],
        &identifier(number_of).to_be_bytes(),
    ];
    (cluster("", &members), data.concat())
}

/// The shortest record there is.
fn short(number_of: usize) -> Member {
    let descriptor = cluster("", &[number(0x07, "blank")]);
    (descriptor, identifier(number_of).to_be_bytes().into())
}

/// Makes the record of a number.
type Make = fn(usize) -> Member;

/// Books of 500 records: of one rig, of one whose data varies in length, and of the two
/// by turns.
pub fn kept() -> [Book; 3] {
    let by_turns = |index: usize| match index % 2 {
        0 => fixed(index),
        _ => varied(index),
    };
    let kinds: [(&str, Make); 3] = [
        ("500 of one rig", fixed),
        ("500 of varied length", varied),
        ("500 of two rigs", by_turns),
    ];
    kinds.map(|(what, record)| Book::new(what, (0..500).map(record).collect(), LONGEST))
}

/// As many of the shortest records as fit into a book of this length.
pub fn shortest(length: usize) -> Book {
    let count = (length - 4) / (16 + 20);
    let what = "1,820 of the shortest";
    Book::new(what, (0..count).map(short).collect(), length)
}

/// As many entries as fit into the longest book, none of them in use.
pub fn empty() -> Vec<u8> {
    bytes(4095, &[], LONGEST)
}
