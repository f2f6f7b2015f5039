//! A blank book as its bytes say it: the head, the entries, the bodies, and what is
//! free. Whether the bytes are one, the library says.

pub mod fault;
pub mod file;
pub mod told;

use kerbcanopy::BOOK_LIMIT;

/// How many bytes stand before the entries: the capacity and the count in use.
pub const HEAD: usize = 4;
/// How many bytes an entry has: four numbers of 32 bits.
pub const ENTRY: usize = 16;

/// The shape that a record's identifier is read in: a cluster of one unsigned 32-bit
/// integer named "blank".
pub const READER: &[u8; 16] = b"\x00\x10\x00\x50\x00\x01\x00\x0A\x00\x07\x05blank";

/// Any bytes that have a head.
#[derive(Clone, Copy, Debug)]
pub struct Book<'a> {
    pub bytes: &'a [u8],
    pub capacity: usize,
    /// How many entries are in use.
    pub count: usize,
}

#[derive(Clone, Copy, Debug, PartialEq, Eq)]
pub struct Entry {
    pub identifier: u32,
    /// Where the body starts in the book.
    pub start: usize,
    /// The lengths of the body's two parts.
    pub descriptor: usize,
    pub data: usize,
}

impl Entry {
    fn of(bytes: &[u8; ENTRY]) -> Entry {
        let number = |at: usize| {
            let bytes = [bytes[at], bytes[at + 1], bytes[at + 2], bytes[at + 3]];
            u32::from_be_bytes(bytes)
        };
        Entry {
            identifier: number(0),
            start: number(4) as usize,
            descriptor: number(8) as usize,
            data: number(12) as usize,
        }
    }

    /// Where the body ends.
    pub fn end(&self) -> usize {
        let lengths = self.descriptor.saturating_add(self.data);
        self.start.saturating_add(lengths)
    }
}

impl<'a> Book<'a> {
    /// The book of these bytes; none where they are too few for a head.
    pub fn of(bytes: &'a [u8]) -> Option<Book<'a>> {
        let &[capacity_high, capacity_low, count_high, count_low] = bytes.first_chunk()?;
        Some(Book {
            bytes,
            capacity: u16::from_be_bytes([capacity_high, capacity_low]).into(),
            count: u16::from_be_bytes([count_high, count_low]).into(),
        })
    }

    /// Where the entries end, used or not, and the first body starts.
    pub fn contents_end(&self) -> usize {
        entry_at(self.capacity)
    }

    /// The entry of this number, used or not; none where it doesn't stand there whole.
    pub fn entry(&self, number: usize) -> Option<Entry> {
        let bytes = self.bytes.get(entry_at(number)..)?;
        bytes.first_chunk().map(Entry::of)
    }

    /// The entries in use, as far as they stand there.
    pub fn entries(&self) -> impl Iterator<Item = Entry> {
        (0..self.count).map_while(|number| self.entry(number))
    }

    /// Where the body of this entry has to start: where the one before ends.
    pub fn body_at(&self, number: usize) -> usize {
        let before = number.checked_sub(1).and_then(|before| self.entry(before));
        before.map_or(self.contents_end(), |before| before.end())
    }

    /// Where the last body ends; what stands behind it is free.
    pub fn used(&self) -> usize {
        self.body_at(self.count)
    }

    pub fn free(&self) -> usize {
        self.bytes.len().saturating_sub(self.used())
    }
}

/// Where the entry of this number starts.
pub fn entry_at(number: usize) -> usize {
    HEAD + ENTRY * number
}

/// A book of so many entries and bytes without a record, or why there is none.
pub fn blank(capacity: usize, bytes: usize) -> Result<Vec<u8>, String> {
    let mut book = vec![0; bytes.min(BOOK_LIMIT + 1)];
    if let (Ok(capacity), Some(head)) = (u16::try_from(capacity), book.first_chunk_mut()) {
        *head = capacity.to_be_bytes();
        if kerbcanopy::store_check(&book).number == 0 {
            return Ok(book);
        }
    }
    let most = (BOOK_LIMIT - HEAD) / ENTRY;
    Err(if bytes > BOOK_LIMIT {
        format!("a book has at most {BOOK_LIMIT} bytes, and {bytes} are asked for")
    } else if capacity > most {
        format!("a book has at most {most} entries, and {capacity} are asked for")
    } else {
        let least = entry_at(capacity);
        format!(
            "with a capacity of {capacity} a book has at least {least} bytes, {HEAD} and {ENTRY} for each entry, and {bytes} are asked for"
        )
    })
}

#[cfg(test)]
mod tests {
    use super::*;

    #[test]
    fn a_book_without_records_is_one_where_its_contents_fit() {
        for (capacity, bytes) in [(0, 4), (0, 65536), (1, 20), (4, 68), (4095, 65536)] {
            let book = blank(capacity, bytes).expect("it is a book");
            assert_eq!(book.len(), bytes);
            let seen = Book::of(&book).expect("it has a head");
            assert_eq!((seen.capacity, seen.count), (capacity, 0));
            assert_eq!(
                (seen.used(), seen.free()),
                (entry_at(capacity), bytes - entry_at(capacity))
            );
            assert!(book[2..].iter().all(|byte| *byte == 0));
        }
    }

    #[test]
    fn why_there_is_no_such_book() {
        for (capacity, bytes, why) in [
            (0, 0, "at least 4 bytes"),
            (0, 3, "at least 4 bytes"),
            (1, 19, "with a capacity of 1 a book has at least 20 bytes"),
            (4095, 65523, "at least 65524 bytes"),
            (4096, 65536, "at most 4095 entries, and 4096 are"),
            (65536, 4, "at most 4095 entries"),
            (usize::MAX, usize::MAX, "at most 65536 bytes"),
            (0, 65537, "at most 65536 bytes, and 65537 are"),
        ] {
            let told = blank(capacity, bytes).expect_err("it is none");
            assert!(told.contains(why), "{told}");
        }
    }

    #[test]
    fn the_library_reads_an_identifier_by_this_shape() {
        let mut book = blank(1, 64).expect("it is a book");
        let answer = kerbcanopy::store_add(&mut book, READER, &[0, 0, 0, 9]);
        assert_eq!(answer.number, 0);
        let entry = Entry {
            identifier: 9,
            start: 20,
            descriptor: 16,
            data: 4,
        };
        let book = Book::of(&book).expect("it has a head");
        assert_eq!(book.entries().collect::<Vec<_>>(), [entry]);
        assert_eq!((book.used(), book.free()), (40, 24));
    }
}
