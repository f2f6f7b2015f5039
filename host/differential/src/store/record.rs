//! Records for a book, with what is known of each.

use reference::Answer;

/// The reader's shape that a book reads every identifier with, as document 02 has it.
pub const SHAPE: [u8; 16] = *b"\x00\x10\x00\x50\x00\x01\x00\x0A\x00\x07\x05blank";

/// The same with a text behind it.
const LONG: [u8; 24] =
    *b"\x00\x18\x00\x50\x00\x02\x00\x0A\x00\x07\x05blank\x00\x08\x00\x30\xFF\xFF\xFF\xFF";

/// A descriptor and data, neither of which need be in order.
#[derive(Clone)]
pub struct Record {
    pub descriptor: Vec<u8>,
    pub data: Vec<u8>,
    /// The identifier, or the record's own refusal.
    pub stated: Result<u32, Answer>,
}

impl Record {
    /// A record of which is known what the question about a record in a reader's shape
    /// says.
    pub fn read(descriptor: Vec<u8>, data: Vec<u8>) -> Record {
        let stated = read(&descriptor, &data);
        Record {
            descriptor,
            data,
            stated,
        }
    }

    /// The record of the shortest rig, whose one member is the identifier.
    pub fn shortest(identifier: u32) -> Record {
        Record {
            descriptor: SHAPE.to_vec(),
            data: identifier.to_be_bytes().to_vec(),
            stated: Ok(identifier),
        }
    }

    /// A record of an identifier and a text whose body takes this many bytes, of which
    /// there must be enough for that.
    pub fn long(identifier: u32, length: usize) -> Record {
        let descriptor = LONG.to_vec();
        let characters = length.saturating_sub(LONG.len() + 8);
        let text = (characters as u32).to_be_bytes();
        let data = [
            &identifier.to_be_bytes(),
            &text,
            &vec![b'x'; characters][..],
        ]
        .concat();
        Record {
            descriptor,
            data,
            stated: Ok(identifier),
        }
    }

    /// How many bytes its body takes.
    pub fn length(&self) -> usize {
        self.descriptor.len() + self.data.len()
    }
}

/// What the reader's shape gives of a record.
pub fn read(descriptor: &[u8], data: &[u8]) -> Result<u32, Answer> {
    let mut identifier = [0; 4];
    let answer = reference::read_record(descriptor, &SHAPE, data, &mut identifier);
    match answer.number {
        0 => Ok(u32::from_be_bytes(identifier)),
        _ => Err(answer),
    }
}
