//! Counts what the questions about a book met.

use reference::Answer;

use super::Tally;
use super::lines::Of;
use super::met::must;
use super::table::Table;
use crate::entry::Entry;
use crate::store::case::{Case, Told};
use crate::store::known::{Known, MOST, place_of};
use crate::store::record::{Record, read};

/// Why a book is refused with 63.
#[derive(Clone, Copy)]
enum Reason {
    Short,
    Long,
    Contents,
    Count,
    Start,
    End,
    Descriptor,
    Data,
    NoCluster,
    Missing,
    Doubled,
    Type,
    Identifier,
    Earlier,
    Unused,
}

/// Every reason with its words, in the order of the enum.
const REASONS: [(Reason, &str); 15] = [
    (Reason::Short, "under 4 bytes"),
    (Reason::Long, "over 65,536 bytes"),
    (Reason::Contents, "its contents' length"),
    (Reason::Count, "its count"),
    (Reason::Start, "a body's start"),
    (Reason::End, "a body's end"),
    (Reason::Descriptor, "a descriptor"),
    (Reason::Data, "data"),
    (Reason::NoCluster, "41 of a record"),
    (Reason::Missing, "42 of a record"),
    (Reason::Doubled, "43 of a record"),
    (Reason::Type, "44 of a record"),
    (Reason::Identifier, "another identifier"),
    (Reason::Earlier, "an earlier identifier"),
    (Reason::Unused, "an unused entry"),
];

/// No books yet.
pub fn reasons() -> Table {
    let rows = REASONS.map(|(_, words)| words.to_string());
    let columns = ["first entry", "second", "later"].map(String::from);
    Table::new(
        "ill formed by",
        rows.to_vec(),
        columns.to_vec(),
        |row, column| {
            must(match REASONS[row].0 {
                Reason::Short | Reason::Long | Reason::Contents | Reason::Count => column == 0,
                Reason::Earlier => column > 0,
                _ => true,
            })
        },
    )
}

/// How a body's descriptor stands to the one of the body before.
const NEIGHBOURS: [&str; 4] = [
    "no other",
    "the same descriptor",
    "another as long",
    "one of another length",
];

/// No bodies yet.
pub fn neighbours() -> Table {
    let rows = NEIGHBOURS.map(String::from);
    let columns = ["in a book", "added"].map(String::from);
    Table::new("a body behind", rows.to_vec(), columns.to_vec(), |_, _| {
        must(true)
    })
}

/// The row of a body behind another's descriptor, if there is one.
fn neighbour(before: Option<&[u8]>, descriptor: &[u8]) -> usize {
    match before {
        None => 0,
        Some(before) if before == descriptor => 1,
        Some(before) if before.len() == descriptor.len() => 2,
        Some(_) => 3,
    }
}

/// The capacity and the count of a book that has them.
fn head(book: &[u8]) -> [usize; 2] {
    let half = |place| u16::from_be_bytes([book[place], book[place + 1]]);
    [0, 2].map(|place| usize::from(half(place)))
}

/// The four numbers of an entry.
fn entry(book: &[u8], number: usize) -> [usize; 4] {
    [0, 4, 8, 12].map(|word| {
        let bytes = book[place_of(number) + word..].first_chunk();
        u32::from_be_bytes(*bytes.expect("the contents fit")) as usize
    })
}

/// Where the body in front of this entry ends, all before it being in order.
fn end_before(book: &[u8], number: usize) -> usize {
    match number {
        0 => place_of(head(book)[0]),
        _ => {
            let [_, start, descriptor, data] = entry(book, number - 1);
            start + descriptor + data
        }
    }
}

/// Why a book is refused at this place.
fn reason(book: &[u8], place: usize) -> Reason {
    match book.len() {
        0..4 => return Reason::Short,
        length if length > MOST => return Reason::Long,
        _ => {}
    }
    let [capacity, count] = head(book);
    match place {
        _ if place_of(capacity) > book.len() => Reason::Contents,
        _ if count > capacity => Reason::Count,
        _ if place >= count => Reason::Unused,
        _ => of_entry(book, place),
    }
}

/// Why an entry in use is bad.
fn of_entry(book: &[u8], number: usize) -> Reason {
    let [identifier, start, descriptor, data] = entry(book, number);
    if start != end_before(book, number) {
        return Reason::Start;
    }
    let Some(body) = book.get(start..start + descriptor + data) else {
        return Reason::End;
    };
    let (descriptor, data) = body.split_at(descriptor);
    match read(descriptor, data).map_err(|refusal| refusal.number) {
        Err(1..=12) => Reason::Descriptor,
        Err(20..=25) => Reason::Data,
        Err(41) => Reason::NoCluster,
        Err(42) => Reason::Missing,
        Err(43) => Reason::Doubled,
        Err(_) => Reason::Type,
        Ok(read) if read as usize != identifier => Reason::Identifier,
        Ok(_) => Reason::Earlier,
    }
}

impl Tally {
    /// Counts a case of a book by the check of it.
    pub fn book(&mut self, case: &Case, answer: Answer) {
        self.case(case.kind, answer);
        let (book, place) = (&case.book[..], answer.place as usize);
        if let Told::Well(known) = &case.told {
            self.well(known);
        }
        if answer.number == 0 {
            return;
        }
        let reason = reason(book, place);
        let column = match reason {
            Reason::Short | Reason::Long => {
                self.lines.count(Of::NoBook, book.len());
                0
            }
            Reason::Contents | Reason::Count => {
                self.lines.count(Of::WrongCapacity, place);
                0
            }
            _ => {
                self.lines.count(Of::BadEntry, place);
                place.min(2)
            }
        };
        self.books.count(reason as usize, column);
    }

    /// Counts a well-formed book.
    fn well(&mut self, known: &Known) {
        self.lines.count(Of::Book, known.bytes.len());
        self.lines.count(Of::Capacity, known.capacity);
        self.lines.count(Of::InUse, known.entries.len());
        let mut before = None;
        for entry in &known.entries {
            let descriptor = &known.bytes[entry.start..entry.start + entry.descriptor];
            self.neighbours.count(neighbour(before, descriptor), 0);
            before = Some(descriptor);
        }
    }

    /// Counts what came of adding a record to this book.
    pub fn added(&mut self, book: &[u8], record: &Record, answer: Answer) {
        self.answered(Entry::StoreAdd, answer);
        if !matches!(answer.number, 0 | 60 | 62) {
            return;
        }
        let [_, count] = head(book);
        let free = book.len() - end_before(book, count);
        match answer.number {
            60 => return self.lines.count(Of::At60, answer.place as usize),
            62 => return self.lines.count(Of::TooFew, record.length() - free),
            _ => self.lines.count(Of::StillFree, free - record.length()),
        }
        let last = count.checked_sub(1).map(|last| entry(book, last));
        let before = last.map(|[_, start, length, _]| &book[start..start + length]);
        self.neighbours
            .count(neighbour(before, &record.descriptor), 1);
    }
}
