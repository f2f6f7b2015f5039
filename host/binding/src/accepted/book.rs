//! A blank book that was accepted.

use super::{Data, Refusal};
use crate::{store_add, store_check, store_find, store_list};

/// The bytes that an entry takes in a book.
const ENTRY: usize = 16;

/// A blank book that the library has accepted: one file for a run of blanks.
///
/// ```
/// use kerbcanopy::accepted::{Book, Descriptor, Refusal};
///
/// fn main() -> Result<(), Refusal> {
///     // A capacity of two entries, none of them in use, and room for bodies.
///     let mut bytes = [0; 100];
///     bytes[1] = 2;
///     let mut book = Book::new(bytes)?;
///
///     // A cluster of one unsigned "blank", and what the rig sent.
///     let rig = Descriptor::new(b"\x00\x10\x00\x50\x00\x01\x00\x0A\x00\x07\x05blank")?;
///     let sent = [0, 0, 0, 9];
///     book.add(rig.data(&sent)?)?;
///     assert_eq!(book.identifiers(), [9]);
///     assert_eq!(book.find(9)?, [rig.as_bytes(), &sent].concat());
///     Ok(())
/// }
/// ```
#[derive(Clone, Debug, PartialEq, Eq)]
pub struct Book {
    bytes: Box<[u8]>,
}

impl Book {
    /// Reads any bytes as a book. Refused: 63 with input 4. Its place is 0 for under 4
    /// or over 65,536 bytes; the capacity where the contents don't fit or more entries
    /// are in use than there are; else the first bad entry.
    pub fn new(bytes: impl Into<Box<[u8]>>) -> Result<Book, Refusal> {
        let bytes = bytes.into();
        Refusal::unless(store_check(&bytes))?;
        Ok(Book { bytes })
    }

    /// The bytes as they came, and what was added since.
    pub fn as_bytes(&self) -> &[u8] {
        &self.bytes
    }

    /// Adds a record: its body behind the last one, and its entry behind the last in
    /// use. Refused, and nothing changes: 41 with input 1 where the record is no
    /// cluster, 42 to 44 with input 2 where it has no single member "blank" that is an
    /// unsigned number of 32 bits; then with input 4 60 where the identifier is there
    /// already, 61 where no entry is free and 62 where the body doesn't fit.
    ///
    /// ```
    /// # use kerbcanopy::accepted::{Book, Descriptor};
    /// let rig = Descriptor::new(b"\x00\x10\x00\x50\x00\x01\x00\x0A\x00\x07\x05blank")?;
    /// let mut full = Book::new([0, 0, 0, 0])?;
    /// assert_eq!(full.add(rig.data(&[0, 0, 0, 9])?).unwrap_err().number, 61);
    /// # Ok::<(), kerbcanopy::accepted::Refusal>(())
    /// ```
    pub fn add(&mut self, record: Data<'_>) -> Result<(), Refusal> {
        let descriptor = record.descriptor().as_bytes();
        Refusal::unless(store_add(&mut self.bytes, descriptor, record.as_bytes()))?;
        Ok(())
    }

    /// The body, descriptor and data, of the record with this identifier. Refused: 64
    /// with input 4 where the book has none.
    ///
    /// ```
    /// # use kerbcanopy::accepted::Book;
    /// let empty = Book::new([0, 0, 0, 0])?;
    /// assert_eq!(empty.find(9).unwrap_err().number, 64);
    /// # Ok::<(), kerbcanopy::accepted::Refusal>(())
    /// ```
    pub fn find(&self, identifier: u32) -> Result<&[u8], Refusal> {
        let part = store_find(&self.bytes, identifier);
        Refusal::unless(part.answer)?;
        Ok(&self.bytes[part.start..part.start + part.length])
    }

    /// The identifiers in entry order.
    pub fn identifiers(&self) -> Vec<u32> {
        let mut out = vec![0; self.bytes.len() / ENTRY];
        let count = self.identifiers_into(&mut out);
        out.truncate(count.expect("an accepted book has no more entries than fit into it"));
        out
    }

    /// Writes the identifiers in entry order to the front of `out`, and gives their
    /// count; `out` beyond it keeps its numbers. Refused: 50 with input 4 where `out`
    /// is too small, and nothing is written.
    pub fn identifiers_into(&self, out: &mut [u32]) -> Result<usize, Refusal> {
        Refusal::unless(store_list(&self.bytes, out))
    }
}

impl AsRef<[u8]> for Book {
    fn as_ref(&self) -> &[u8] {
        &self.bytes
    }
}
