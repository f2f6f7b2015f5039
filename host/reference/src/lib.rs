//! The questions of document 01 about a descriptor and its data, answered a
//! second time in safe Rust: descriptor check, compare and normal form; data
//! check, view, value, to little-endian and back; the record in a reader's
//! shape; and, as document 02 asks, time stamps and their difference, Booleans of
//! any byte, refusals that point at the byte, and the blank book. Nothing here
//! allocates.
#![forbid(unsafe_code)]

mod blank;
mod book;
mod copy;
mod data;
mod endian;
mod entry;
mod judge;
mod kind;
mod members;
mod normal;
mod order;
mod path;
mod plan;
mod record;
mod register;
mod reverse;
mod rows;
mod search;
mod shape;
mod stamp;
mod store;
mod tour;
mod walk;

pub use data::{MOST_DATA, check_data};
pub use endian::{from_little_endian, to_little_endian};
pub use path::{Part, Value, read_value, view};
pub use record::read_record;
pub use stamp::{Difference, Stamp, stamp_difference};
pub use store::{store_add, store_check, store_find, store_list};

use normal::Starts;
use walk::{Refusal, Visitor};

/// The longest descriptor that is read, in bytes.
pub const MOST_BYTES: usize = 4096;
/// The most rows a descriptor may have.
pub const MOST_ROWS: usize = 256;
/// The deepest descriptor that is read, the top being at depth 1.
pub const MOST_DEPTH: usize = 8;

/// Document 01's answer: the number (0 if accepted), the input at fault and a
/// place whose meaning depends on the number and the question.
#[derive(Clone, Copy, Debug, Default, PartialEq, Eq)]
pub struct Answer {
    pub number: u32,
    pub input: u32,
    pub place: u32,
}

/// One descriptor of the table. Places count from the first lent byte; a name
/// place of 0 means that there is no name.
#[derive(Clone, Copy, Debug, Default, PartialEq, Eq)]
pub struct Row {
    pub code: u16,
    pub start: u16,
    pub size: u16,
    pub depth: u16,
    pub count: u16,
    pub name_place: u16,
    pub name_length: u16,
}

impl Row {
    /// The row that stands wherever no descriptor does.
    pub const ZERO: Row = Row {
        code: 0,
        start: 0,
        size: 0,
        depth: 0,
        count: 0,
        name_place: 0,
        name_length: 0,
    };
}

/// What the descriptor check returns: the answer, and the table, which is all
/// zero after a refusal.
#[derive(Clone, Copy, Debug, PartialEq, Eq)]
pub struct Checked {
    pub answer: Answer,
    pub rows: [Row; MOST_ROWS],
}

impl Checked {
    /// No rows: the table before the first is met.
    const EMPTY: Checked = Checked {
        answer: Answer {
            number: 0,
            input: 0,
            place: 0,
        },
        rows: [Row::ZERO; MOST_ROWS],
    };
}

/// What compare returns; `equal` is false after a refusal.
#[derive(Clone, Copy, Debug, PartialEq, Eq)]
pub struct Compared {
    pub answer: Answer,
    pub equal: bool,
}

/// Reads a descriptor into the table. Accepted: the place is the row count.
/// Refused: 1 to 12, input 1, and the table is all zero.
#[inline]
pub fn check_descriptor(descriptor: &[u8]) -> Checked {
    let mut checked = Checked::EMPTY;
    fill(descriptor, &mut checked);
    checked
}

/// Fills an empty `checked` in place. It stays a call of its own so that the
/// large result is built where the caller wants it.
#[inline(never)]
fn fill(descriptor: &[u8], checked: &mut Checked) {
    let mut table = Table {
        rows: &mut checked.rows,
        used: 0,
    };
    match walk::walk(descriptor, &mut table) {
        Ok(rows) => checked.answer.place = rows as u32,
        Err(refusal) => {
            table.clear();
            checked.answer = refused(refusal, 1);
        }
    }
}

/// Says whether two descriptors are equal, reserved bytes apart. The first is
/// judged completely before the second; a refusal (1 to 12) has input 1 or 2.
pub fn compare(first: &[u8], second: &[u8]) -> Compared {
    let mut starts = Starts::default();
    let outcome = match walk::walk(first, &mut starts) {
        Err(refusal) => Err(refused(refusal, 1)),
        Ok(rows) => match walk::walk(second, &mut ()) {
            Err(refusal) => Err(refused(refusal, 2)),
            Ok(_) => Ok(normal::agree(first, second, starts.first(rows), 0)),
        },
    };
    Compared {
        answer: outcome.err().unwrap_or_default(),
        equal: outcome.unwrap_or(false),
    }
}

/// Writes the descriptor with every reserved byte zero. Accepted: the place is
/// the length written, and `out` beyond it keeps its bytes. Refused: 1 to 12
/// with input 1, or 50 with input 4 and the length needed; nothing is written.
pub fn normal_form(descriptor: &[u8], out: &mut [u8]) -> Answer {
    let mut starts = Starts::default();
    let rows = match walk::walk(descriptor, &mut starts) {
        Ok(rows) => rows,
        Err(refusal) => return refused(refusal, 1),
    };
    match room(out, descriptor.len()) {
        Ok(written) => normal::write(descriptor, starts.first(rows), written),
        Err(refusal) => return refusal,
    }
    accepted(descriptor.len())
}

/// The front of the output, as long as needed; else 50, input 4.
fn room(out: &mut [u8], length: usize) -> Result<&mut [u8], Answer> {
    let refusal = Refusal {
        number: 50,
        place: length,
    };
    out.get_mut(..length).ok_or(refused(refusal, 4))
}

fn accepted(place: usize) -> Answer {
    Answer {
        number: 0,
        input: 0,
        place: place as u32,
    }
}

fn refused(refusal: Refusal, input: u32) -> Answer {
    Answer {
        number: refusal.number,
        input,
        place: refusal.place as u32,
    }
}

/// Fills the table as descriptors are met.
struct Table<'a> {
    rows: &'a mut [Row; MOST_ROWS],
    used: usize,
}

impl Table<'_> {
    /// Takes back every row filled so far.
    fn clear(&mut self) {
        self.rows[..self.used].fill(Row::ZERO);
    }
}

impl Visitor for Table<'_> {
    #[inline(always)]
    fn row(&mut self, index: usize, row: Row) {
        self.rows[index] = row;
        self.used = index + 1;
    }

    #[inline(always)]
    fn name(&mut self, index: usize, place: u16, length: u16) {
        self.rows[index].name_place = place;
        self.rows[index].name_length = length;
    }
}
