//! Counts the bytes of Booleans: request 2 of document 02 takes any, and any but
//! zero is true.

use super::Tally;
use super::met::Coded;
use super::table::{Cell, Table};

/// The bytes that are told apart.
const BYTES: [&str; 5] = ["0", "1", "2", "3 to 254", "255"];

/// Where they are met: from [`Coded::DataTop`] to [`Coded::Given`].
const COLUMNS: [&str; 5] = ["data top", "member", "element", "value", "given"];

/// No Booleans yet.
pub fn bytes() -> Table {
    let [rows, columns] = [BYTES, COLUMNS].map(|labels| labels.map(String::from).to_vec());
    Table::new("byte of a Boolean", rows, columns, |_, _| Cell::Must)
}

impl Tally {
    /// Counts the byte of a Boolean that was met like this.
    pub fn flag(&mut self, byte: u8, coded: Coded) {
        let row = match byte {
            0..=2 => usize::from(byte),
            3..=254 => 3,
            255 => 4,
        };
        let column = coded as usize - Coded::DataTop as usize;
        self.flags.count(row, column);
    }
}
