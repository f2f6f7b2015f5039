//! What is told of a book's own refusals, 60 to 64, beside their numbers.

use kerbcanopy::Answer;

use super::fault::Fault;
use super::{Book, entry_at};
use crate::refusal::around;
use crate::words::counted;

/// How many identifiers are listed.
const IDENTIFIERS: usize = 12;

/// What stands at the place, and what was judged, in figures. The identifier is the
/// one that was asked for.
pub fn of(answer: Answer, bytes: &[u8], identifier: u32) -> (String, String) {
    let place = answer.place as usize;
    let Some(book) = Book::of(bytes).filter(|_| answer.number != 63) else {
        let fault = Fault::of(bytes, place);
        let byte = fault.map_or(0, |fault| fault.byte());
        let words = fault.map(|fault| fault.words());
        return (around(bytes, byte), words.unwrap_or_default());
    };
    match answer.number {
        60 => {
            let entry = book.entry(place).map_or(0, |entry| entry.identifier);
            let facts = format!("entry {place} has identifier {entry}");
            (around(bytes, entry_at(place)), facts)
        }
        61 => (
            format!("capacity {}", book.capacity),
            format!("{} in use", counted(book.count, "entry")),
        ),
        62 => (
            format!("room for {}", counted(book.free(), "byte")),
            format!("{} needed", counted(place, "byte")),
        ),
        _ => (format!("identifier {identifier}"), has(&book)),
    }
}

/// The identifiers in the book, the first of them where there are many.
fn has(book: &Book) -> String {
    let all: Vec<String> = book
        .entries()
        .map(|entry| entry.identifier.to_string())
        .collect();
    let more = match all.len().saturating_sub(IDENTIFIERS) {
        0 => String::new(),
        more => format!(", .. {more} more"),
    };
    match &all[..all.len().min(IDENTIFIERS)] {
        [] => "the book has no record".into(),
        listed => format!("the book has {}{more}", listed.join(", ")),
    }
}
