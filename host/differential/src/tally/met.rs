//! What the cases met, in tables: by entry, number and input; by kind of case; by
//! depth; by code.

use super::table::{Cell, Table};
use crate::entry::ENTRIES;
use crate::kind::{Area, KINDS, Known};

/// Every number with the input at fault.
pub const ANSWERS: [(u32, u32); 44] = [
    (0, 0),
    (1, 1),
    (2, 1),
    (3, 1),
    (4, 1),
    (5, 1),
    (6, 1),
    (7, 1),
    (8, 1),
    (9, 1),
    (10, 1),
    (11, 1),
    (12, 1),
    (1, 2),
    (2, 2),
    (3, 2),
    (4, 2),
    (5, 2),
    (6, 2),
    (7, 2),
    (8, 2),
    (9, 2),
    (10, 2),
    (11, 2),
    (12, 2),
    (20, 3),
    (21, 3),
    (22, 3),
    (23, 3),
    (25, 3),
    (30, 4),
    (31, 4),
    (32, 4),
    (40, 2),
    (41, 1),
    (42, 2),
    (43, 2),
    (44, 2),
    (50, 4),
    (60, 4),
    (61, 4),
    (62, 4),
    (63, 4),
    (64, 4),
];

/// Every number that the questions can answer.
pub const NUMBERS: [u32; 32] = [
    0, 1, 2, 3, 4, 5, 6, 7, 8, 9, 10, 11, 12, 20, 21, 22, 23, 25, 30, 31, 32, 40, 41, 42, 43, 44,
    50, 60, 61, 62, 63, 64,
];

/// What the cases are about.
pub const AREAS: [Area; 5] = [
    Area::Descriptor,
    Area::Data,
    Area::Record,
    Area::Interval,
    Area::Store,
];

/// The numbers that the first question about a case is counted by.
pub fn numbers(area: Area) -> &'static [u32] {
    match area {
        Area::Descriptor => &NUMBERS[..13],
        Area::Data => &NUMBERS[..18],
        Area::Record => &NUMBERS[..27],
        Area::Interval => &[0, 32],
        Area::Store => &[0, 63],
    }
}

/// Every code that is carried.
pub const CODES: [u8; 28] = [
    0x01, 0x02, 0x03, 0x04, 0x05, 0x06, 0x07, 0x08, 0x09, 0x0A, 0x0B, 0x0C, 0x0D, 0x0E, 0x15, 0x16,
    0x17, 0x19, 0x1A, 0x1B, 0x1C, 0x1D, 0x1E, 0x21, 0x30, 0x40, 0x50, 0x54,
];

pub fn must(met: bool) -> Cell {
    match met {
        true => Cell::Must,
        false => Cell::Never,
    }
}

fn texts<T: ToString>(labels: impl IntoIterator<Item = T>) -> Vec<String> {
    labels.into_iter().map(|label| label.to_string()).collect()
}

/// Every answer that an entry can give, and a row for those that none can.
pub fn answers() -> Table {
    let row = |&(number, input): &(u32, u32)| format!("{number} of {input}");
    let mut rows: Vec<String> = ANSWERS.iter().map(row).collect();
    rows.push("any other".into());
    let columns = texts(ENTRIES.map(|(_, word)| word));
    Table::new("number of input", rows, columns, |row, column| {
        let can = |&(number, input): &(u32, u32)| ENTRIES[column].0.can_answer(number, input);
        must(ANSWERS.get(row).is_some_and(can))
    })
}

/// The answers to the first question about a case, by its kind.
pub fn kinds(area: Area) -> Table {
    let kinds = KINDS.iter().filter(|kind| kind.area == area);
    let kinds: Vec<&Known> = kinds.collect();
    let columns = texts(kinds.iter().map(|kind| kind.short));
    let title = match area {
        Area::Descriptor => "descriptors by kind",
        Area::Data => "data by kind",
        Area::Record => "records by kind",
        Area::Interval => "stamps by kind",
        Area::Store => "books by kind",
    };
    let numbers = numbers(area);
    Table::new(title, texts(numbers), columns, |row, column| {
        match kinds[column].meets.contains(&numbers[row]) {
            true => Cell::Must,
            false => Cell::May,
        }
    })
}

/// What is counted by depth.
#[derive(Clone, Copy)]
pub enum Deep {
    /// The deepest row of an accepted descriptor.
    Accepted,
    /// A descriptor refused with this number, 2 to 11.
    Refused(u32),
    /// The deepest piece of accepted data.
    Data,
    /// A piece refused with this number, 21 to 23.
    Piece(u32),
    View,
    Value,
    /// The part that has no such step.
    NoStep,
    NoValue,
}

impl Deep {
    pub fn row(self) -> usize {
        match self {
            Deep::Accepted => 0,
            Deep::Refused(number) => number as usize - 1,
            Deep::Data => 11,
            Deep::Piece(number) => number as usize - 9,
            Deep::View => 15,
            Deep::Value => 16,
            Deep::NoStep => 17,
            Deep::NoValue => 18,
        }
    }
}

/// Depths 1 to 9.
pub fn depths() -> Table {
    let mut rows = vec!["a descriptor".to_string()];
    rows.extend((2..=11).map(|number| format!("a descriptor with {number}")));
    rows.push("data".into());
    rows.extend((21..=23).map(|number| format!("a piece with {number}")));
    rows.extend(["view", "value", "30", "31"].map(String::from));
    Table::new("by depth", rows, texts(1..=9), |row, column| {
        let depth = column + 1;
        must(match row {
            1..=4 => true,
            5 => depth == 9,
            6 => (2..=8).contains(&depth),
            _ => depth <= 8,
        })
    })
}

/// What is counted by code.
#[derive(Clone, Copy)]
pub enum Coded {
    Top,
    Member,
    Element,
    DataTop,
    DataMember,
    DataElement,
    /// Asked for a value, which not every code has.
    Value,
    /// A reader's member that was given.
    Given,
    /// A reader's member whose type is not equal.
    Unequal,
}

pub fn codes() -> Table {
    let columns = [
        "top", "member", "element", "data top", "member", "element", "value", "given", "with 44",
    ];
    let rows = CODES.map(|code| format!("{code:02X}"));
    Table::new("code", rows.to_vec(), texts(columns), |row, column| {
        let in_array = column == Coded::Element as usize || column == Coded::DataElement as usize;
        must(!(in_array && CODES[row] == 0x40))
    })
}

/// The bodies that can be refused: the columns of the next table.
pub const BODIES: [&str; 8] = [
    "number",
    "enumeration",
    "quantity",
    "string",
    "array",
    "cluster",
    "time stamp",
    "array in array",
];

/// What is refused with 8 to 11.
pub fn bodies() -> Table {
    let rows = (8..=11).map(|number| format!("with {number}")).collect();
    Table::new("bodies", rows, texts(BODIES), |row, column| {
        must(match row {
            0 => (1..=6).contains(&column),
            1 => (1..=5).contains(&column) && column != 3,
            2 => (1..=7).contains(&column) && column != 5,
            _ => column <= 6,
        })
    })
}

/// The rooms that an output is written into, by the length needed.
pub const ROOMS: [&str; 5] = ["exact", "one too few", "one too many", "none", "more"];

pub fn rooms() -> Table {
    let columns = texts(ENTRIES.map(|(_, word)| word));
    Table::new("room", texts(ROOMS), columns, |_, column| {
        must(ENTRIES[column].0.writes())
    })
}
