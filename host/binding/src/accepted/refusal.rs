//! A refusal as an error.

use std::error::Error;
use std::fmt;

use crate::{Answer, meaning};

/// What the library refuses.
///
/// ```
/// use kerbcanopy::accepted::Descriptor;
///
/// let refusal = Descriptor::new(b"\x00\x05\x00\x03\x00").unwrap_err();
/// assert_eq!((refusal.number, refusal.input, refusal.place), (4, 1, 0));
/// assert_eq!(
///     refusal.to_string(),
///     "refused with 4: the size is odd, under 4, or runs past the end of what it stands in \
///      (input 1, the first or the writer's descriptor; place 0)"
/// );
/// ```
#[derive(Clone, Copy, Debug, PartialEq, Eq, Hash)]
pub struct Refusal {
    /// Why: 1 to 12 for a descriptor, 20 to 23 and 25 for data, 30 and 31 for a path,
    /// 32 for a difference, 40 to 44 for a record in a reader's shape, 50 for room, 60
    /// to 64 for a blank book.
    pub number: u32,
    /// What is at fault: 1 the first or the writer's descriptor, 2 the second or
    /// the reader's, 3 the data, 4 the request.
    pub input: u32,
    /// Where. Of the descriptor at fault:
    ///
    /// - its first byte for 2, 3, 4, 6 and 7;
    /// - its low code byte for 5;
    /// - its end, which is its start and its size together, for 8;
    /// - its count word for 9;
    /// - the first wrong word or the fill byte for 10; but the inner array's low
    ///   code byte for an array in an array, and a time stamp's first byte where it
    ///   holds anything but its cluster;
    /// - the first byte after its body and the descriptors in it, for 11.
    ///
    /// A word's place is its first byte. For 12 it is the descriptor's size, for 21
    /// to 23 the first byte of the piece at fault, for 25 the first byte left over,
    /// for 30 the step, for 40 and 42 to 44 the reader's member, for 50 the length or
    /// count needed, for 60 the entry that has the identifier, for 62 the body's
    /// length. For 63 it is 0 where the book's length is at fault, the capacity where
    /// the contents don't fit or more entries are in use than there are, and else the
    /// first bad entry. For all others it is 0.
    pub place: u32,
}

impl Refusal {
    /// What the number means.
    pub fn meaning(&self) -> &'static str {
        meaning(self.number)
    }

    /// The place of an answer that accepts, else the refusal.
    pub(super) fn unless(answer: Answer) -> Result<usize, Refusal> {
        match answer.number {
            0 => Ok(answer.place as usize),
            number => Err(Refusal {
                number,
                input: answer.input,
                place: answer.place,
            }),
        }
    }
}

impl fmt::Display for Refusal {
    fn fmt(&self, to: &mut fmt::Formatter<'_>) -> fmt::Result {
        let Refusal {
            number,
            input,
            place,
        } = self;
        let what = match input {
            1 => "the first or the writer's descriptor",
            2 => "the second or the reader's descriptor",
            3 => "the data",
            _ => "the request",
        };
        let meaning = self.meaning();
        write!(
            to,
            "refused with {number}: {meaning} (input {input}, {what}; place {place})"
        )
    }
}

impl Error for Refusal {}
