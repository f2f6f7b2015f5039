//! Each refusal of a book at its boundary, what comes first where several would do,
//! and the fullest books. Each case states what it gives.

mod adding;
mod asking;
mod bodies;
mod entries;
mod full;
mod lengths;

use reference::Answer;

use super::case::{Ask, Step, Told};
use super::known::Known;
use super::record::Record;
use crate::answers::request;

/// A book, what is known of it, and questions with their answers.
pub struct Limit {
    pub what: String,
    pub book: Vec<u8>,
    pub told: Told,
    pub steps: Vec<Step>,
}

/// All limits, always in the same order, the longest books last.
pub fn all() -> Vec<Limit> {
    let mut limits = Limits(Vec::new());
    lengths::add(&mut limits);
    entries::add(&mut limits);
    bodies::add(&mut limits);
    adding::add(&mut limits);
    asking::add(&mut limits);
    full::add(&mut limits);
    limits.0
}

/// Collects books.
struct Limits(Vec<Limit>);

impl Limits {
    /// A well-formed book, and what it is asked one after the other.
    fn well(&mut self, what: impl Into<String>, known: Known, asked: Vec<(Ask, Answer)>) {
        let asked = asked.into_iter();
        let steps = asked.map(|(ask, answer)| Step {
            ask,
            stated: Some(answer),
        });
        self.0.push(Limit {
            what: what.into(),
            book: known.bytes.clone(),
            told: Told::Well(known),
            steps: steps.collect(),
        });
    }

    /// A book that is refused at this place whatever it is asked, with a record in order
    /// and with one that isn't.
    fn bad(&mut self, what: impl Into<String>, book: Vec<u8>, place: usize) {
        let refusal = request(63, place as u32);
        let asks = [
            Ask::Find(0),
            Ask::Find(7),
            Ask::List,
            Ask::Add(Record::shortest(1)),
            Ask::Add(Record::read(Vec::new(), Vec::new())),
        ];
        let steps = asks.map(|ask| Step {
            ask,
            stated: Some(refusal),
        });
        self.0.push(Limit {
            what: what.into(),
            book,
            told: Told::Bad(refusal),
            steps: steps.into(),
        });
    }
}

/// A record of an identifier, and of a text between that and a number.
fn texts(identifier: u32, text: &[u8]) -> Record {
    let descriptor =
        b"\x00\x1C\x00\x50\x00\x03\x00\x04\x00\x06\x00\x08\x00\x30\xFF\xFF\xFF\xFF\x00\x0A\x00\x07\x05blank";
    let length = (text.len() as u32).to_be_bytes();
    let data = [&[0, 25], &length[..], text, &identifier.to_be_bytes()].concat();
    Record {
        descriptor: descriptor.to_vec(),
        data,
        stated: Ok(identifier),
    }
}

/// The book that most limits start from: blanks 7, 9 and 14 in five entries, the second
/// with a text, and so many bytes free.
fn three(free: usize) -> Known {
    let records = [
        Record::shortest(7),
        texts(9, b"copper"),
        Record::shortest(14),
    ];
    Known::of(5, &records, &vec![0x3C; free])
}
