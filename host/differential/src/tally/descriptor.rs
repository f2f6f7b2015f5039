//! Counts what the check of a descriptor met.

use reference::{Checked, MOST_BYTES, Row};

use super::Tally;
use super::lines::Of;
use super::met::{Coded, Deep};
use crate::entry::Entry;
use crate::kind::Kind;

pub fn word(bytes: &[u8], place: usize) -> usize {
    usize::from(bytes[place]) << 8 | usize::from(bytes[place + 1])
}

impl Tally {
    /// Counts a case of a descriptor.
    pub fn descriptor(&mut self, kind: Kind, bytes: &[u8], checked: &Checked) {
        self.case(kind, checked.answer);
        self.answered(Entry::CheckDescriptor, checked.answer);
        let place = checked.answer.place as usize;
        match checked.answer.number {
            0 => self.rows(bytes, &checked.rows[..place]),
            1 => self.lines.count(Of::TooLong, bytes.len()),
            12 => self.lines.count(Of::Behind, bytes.len() - place),
            number => self.refused(bytes, number, place),
        }
    }

    fn rows(&mut self, bytes: &[u8], rows: &[Row]) {
        self.lines.count(Of::Length, bytes.len());
        self.lines.count(Of::Rows, rows.len());
        let deepest = rows.iter().map(|row| row.depth).max();
        self.deep(Deep::Accepted, usize::from(deepest.unwrap_or(0)));
        let mut parents = [0; 9];
        for row in rows {
            let depth = usize::from(row.depth);
            self.coded(row.code as u8, standing(depth, parents[depth - 1]));
            parents[depth] = row.code;
            self.lines.count(Of::Start, usize::from(row.start));
            self.lines.count(Of::Size, usize::from(row.size));
            self.body(bytes, row);
            if row.name_place > 0 {
                self.name(row);
            }
        }
    }

    fn body(&mut self, bytes: &[u8], row: &Row) {
        let (count, inside) = (usize::from(row.count), usize::from(row.start) + 6);
        match row.code {
            0x15..=0x17 => self.items(bytes, count, inside),
            0x19..=0x1E => {
                self.lines.count(Of::Pairs, count);
                for pair in (0..count).map(|pair| inside + 4 * pair) {
                    self.lines.count(Of::Base, word(bytes, pair));
                    self.lines.count(Of::Exponent, word(bytes, pair + 2));
                }
            }
            0x40 => self.lines.count(Of::Dimensions, count),
            0x50 => self.lines.count(Of::Members, count),
            _ => {}
        }
    }

    /// Descriptors start at even places, so an odd end has a fill byte.
    fn items(&mut self, bytes: &[u8], count: usize, mut place: usize) {
        self.lines.count(Of::Items, count);
        for _ in 0..count {
            let length = usize::from(bytes[place]);
            self.lines.count(Of::ItemLength, length);
            place += 1 + length;
        }
        if place % 2 == 1 {
            self.lines.count(Of::FillAfter, count);
        }
    }

    fn name(&mut self, row: &Row) {
        let length = usize::from(row.name_length);
        self.lines.count(Of::NameLength, length);
        self.lines.count(Of::NamePlace, usize::from(row.name_place));
        if usize::from(row.start + row.size) == MOST_BYTES {
            self.lines.count(Of::LastName, length);
        }
    }

    /// A descriptor refused with 2 to 11.
    fn refused(&mut self, bytes: &[u8], number: u32, place: usize) {
        let spot = Spot::at_fault(bytes, number, place);
        self.deep(Deep::Refused(number), spot.depth);
        let start = spot.start;
        match number {
            2 => self.lines.count(Of::Left, spot.end - start),
            3 => self.lines.count(Of::HighSize, word(bytes, start)),
            4 => self.lines.count(Of::WrongSize, word(bytes, start)),
            5 if bytes[start + 3] == 0x54 => self.lines.count(Of::Subtype, word(bytes, start + 4)),
            5 => self.lines.count(Of::Foreign, usize::from(bytes[start + 3])),
            8..=11 => self.refused_body(bytes, number, spot),
            _ => {}
        }
        if matches!(number, 5 | 8..=11) {
            self.place(bytes, number, place, spot);
        }
    }

    fn refused_body(&mut self, bytes: &[u8], number: u32, spot: Spot) {
        let start = spot.start;
        let (column, wrong_count) = match bytes[start + 3] {
            0x15..=0x17 => (1, Some(Of::WrongItems)),
            0x19..=0x1E => (2, Some(Of::WrongPairs)),
            0x30 => (3, None),
            0x40 if spot.parent == 0x40 => (7, None),
            0x40 => (4, Some(Of::WrongDimensions)),
            0x50 => (5, Some(Of::WrongMembers)),
            0x54 => (6, None),
            _ => (0, None),
        };
        self.bodies.count(number as usize - 8, column);
        match (number, wrong_count) {
            (9, Some(of)) => self.lines.count(of, word(bytes, start + 4)),
            (10, Some(Of::WrongItems)) => {
                self.lines.count(Of::WrongFillAfter, word(bytes, start + 4));
            }
            _ => {}
        }
    }
}

/// How a descriptor stands in its parent, which has this code.
fn standing(depth: usize, parent: u16) -> Coded {
    match (depth, parent) {
        (1, _) => Coded::Top,
        (_, 0x40) => Coded::Element,
        _ => Coded::Member,
    }
}

/// Where a descriptor stands.
#[derive(Clone, Copy)]
pub struct Spot {
    pub start: usize,
    depth: usize,
    /// Where its parent ends, and the parent's code, or 0 for the top.
    pub end: usize,
    pub parent: u8,
}

impl Spot {
    /// The descriptor that is refused with this number, 2 to 11, at this place.
    pub fn at_fault(bytes: &[u8], number: u32, place: usize) -> Spot {
        // With 8 the place is the descriptor's end, which may be another's start.
        match number {
            8 => Spot::of(bytes, place - 1),
            _ => Spot::of(bytes, place),
        }
    }

    /// The descriptor that starts here, or the innermost that has this byte; all
    /// before it are in order.
    fn of(bytes: &[u8], byte: usize) -> Spot {
        let top = Spot {
            start: 0,
            depth: 1,
            end: bytes.len(),
            parent: 0,
        };
        top.find(bytes, byte)
    }

    /// This descriptor or the one inside it.
    fn find(self, bytes: &[u8], byte: usize) -> Spot {
        let inside = self.start + 6;
        if byte < inside {
            return self;
        }
        let count = || word(bytes, self.start + 4);
        let code = bytes[self.start + 3];
        let (first, children) = match code {
            0x40 => (inside + 4 * count(), 1),
            0x50 => (inside, count()),
            0x54 => (inside, 1),
            _ => return self,
        };
        let mut child = Spot {
            start: first,
            depth: self.depth + 1,
            end: self.start + word(bytes, self.start),
            parent: code,
        };
        for _ in 0..children {
            if byte < child.start {
                break;
            }
            // Its size may be missing or wrong.
            if byte == child.start {
                return child;
            }
            let end = child.start + word(bytes, child.start);
            if byte < end {
                return child.find(bytes, byte);
            }
            child.start = end;
        }
        self
    }
}
