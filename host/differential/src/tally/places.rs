//! Counts how the places of refusals 5 and 8 to 11 lie, as request 3 of document 02
//! sets them.

use super::Tally;
use super::descriptor::{Spot, word};
use super::lines::Of;
use super::met::must;
use super::table::Table;

/// What a place points at; for 8, what is missing where it points.
#[derive(Clone, Copy)]
enum Point {
    Code,
    Subtype,
    NoCount,
    NoSubtype,
    NoLengthWord,
    NoItem,
    CutItem,
    NoPair,
    NoDimension,
    Count,
    LengthWord,
    Base,
    Dimension,
    Fill,
    InnerArray,
    Stamp,
    BehindHeader,
    BehindBody,
    BehindParts,
}

/// Every point with its words, in the order of the enum.
const POINTS: [(Point, &str); 19] = [
    (Point::Code, "5, the code"),
    (Point::Subtype, "5, the code of a subtype"),
    (Point::NoCount, "8, no count"),
    (Point::NoSubtype, "8, no subtype"),
    (Point::NoLengthWord, "8, no length word"),
    (Point::NoItem, "8, no item"),
    (Point::CutItem, "8, an item cut"),
    (Point::NoPair, "8, no pair"),
    (Point::NoDimension, "8, no dimension"),
    (Point::Count, "9, the count"),
    (Point::LengthWord, "10, the length word"),
    (Point::Base, "10, a base index"),
    (Point::Dimension, "10, a dimension"),
    (Point::Fill, "10, the fill byte"),
    (Point::InnerArray, "10, an array's code"),
    (Point::Stamp, "10, a time stamp"),
    (Point::BehindHeader, "11, behind the header"),
    (Point::BehindBody, "11, behind the body"),
    (Point::BehindParts, "11, behind what it holds"),
];

/// How the descriptor at fault stands: in what, and whether it ends where that does.
const STANDINGS: [&str; 7] = [
    "top",
    "member",
    "last member",
    "element",
    "and last",
    "in a stamp",
    "and last",
];

/// No places yet.
pub fn places() -> Table {
    let rows = POINTS.map(|(_, words)| words.to_string());
    let columns = STANDINGS.map(String::from);
    Table::new("place", rows.to_vec(), columns.to_vec(), |row, column| {
        let element = (3..=4).contains(&column);
        // An element that is an array is refused as such, and nothing else is.
        let met = match POINTS[row].0 {
            Point::InnerArray => element,
            Point::NoDimension | Point::Dimension => !element,
            _ => true,
        };
        must(met)
    })
}

impl Tally {
    /// Counts a refusal with 5 or 8 to 11 of the descriptor at this spot.
    pub(super) fn place(&mut self, bytes: &[u8], number: u32, place: usize, spot: Spot) {
        let own = own(bytes, spot);
        let point = point(own, number, place - spot.start);
        let last = usize::from(spot.start + own.len() == spot.end);
        let column = match spot.parent {
            0x40 => 3 + last,
            0x50 => 1 + last,
            0x54 => 5 + last,
            _ => 0,
        };
        self.places.count(point as usize, column);
        let words = |wrong: fn(&[u8]) -> bool| {
            let words = own[6..].chunks(4).take(word(own, 4));
            words.filter(|word| wrong(word)).count()
        };
        let index = (place - spot.start).saturating_sub(6) / 4;
        match point {
            Point::Base => {
                self.lines.count(Of::FirstBase, index);
                let bases = words(|pair| word(pair, 0) > 8);
                self.lines.count(Of::WrongBases, bases);
            }
            Point::Dimension => {
                self.lines.count(Of::FirstWord, index);
                let dimensions = words(|word| word != [0xFF; 4]);
                self.lines.count(Of::WrongWords, dimensions);
            }
            _ => {}
        }
    }
}

/// What a refusal of a descriptor with 5 or 8 to 11 points at, in words.
pub fn pointed(bytes: &[u8], number: u32, place: usize) -> &'static str {
    let spot = Spot::at_fault(bytes, number, place);
    let point = point(own(bytes, spot), number, place - spot.start);
    POINTS[point as usize].1
}

/// The bytes of the descriptor at this spot.
fn own(bytes: &[u8], spot: Spot) -> &[u8] {
    &bytes[spot.start..spot.start + word(bytes, spot.start)]
}

/// What a descriptor's own bytes show of a refusal at this place in them.
fn point(own: &[u8], number: u32, place: usize) -> Point {
    match (number, own[3]) {
        (5, 0x54) => Point::Subtype,
        (5, _) => Point::Code,
        (8, 0x54) => Point::NoSubtype,
        (8, 0x30) => Point::NoLengthWord,
        (8, _) if own.len() == 4 => Point::NoCount,
        (8, 0x15..=0x17) => item(own),
        (8, 0x40) => Point::NoDimension,
        (8, _) => Point::NoPair,
        (9, _) => Point::Count,
        (10, 0x54) if place == 0 => Point::Stamp,
        (10, 0x40) if place == 3 => Point::InnerArray,
        (10, 0x15..=0x17) => Point::Fill,
        (10, 0x30) => Point::LengthWord,
        (10, 0x40) => Point::Dimension,
        (10, _) => Point::Base,
        (_, 0x01..=0x0E | 0x21) => Point::BehindHeader,
        (_, 0x15..=0x30) => Point::BehindBody,
        _ => Point::BehindParts,
    }
}

/// Whether the item that runs over has its length byte.
fn item(own: &[u8]) -> Point {
    let mut end = 6;
    while let Some(length) = own.get(end) {
        end += 1 + usize::from(*length);
    }
    match end == own.len() {
        true => Point::NoItem,
        false => Point::CutItem,
    }
}
