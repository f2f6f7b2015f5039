//! One case: a book, and what is asked of it one after the other.

use reference::Answer;

use super::damage::damage;
use super::known::{Known, MOST};
use super::limits::Limit;
use super::long;
use super::record::Record;
use super::shelf::Shelf;
use crate::answers::request;
use crate::kind::Kind;
use crate::random::Random;

pub struct Case {
    pub kind: Kind,
    pub what: String,
    pub book: Vec<u8>,
    /// What a read past the end of the book would find in place of a guard.
    pub beyond: Vec<u8>,
    pub told: Told,
    pub steps: Vec<Step>,
}

/// What the generator knows of a book.
#[derive(Clone)]
pub enum Told {
    /// All of it.
    Well(Known),
    /// It is refused, whatever is asked.
    Bad(Answer),
    Nothing,
}

/// A question, and the answer where a limit states it.
#[derive(Clone)]
pub struct Step {
    pub ask: Ask,
    pub stated: Option<Answer>,
}

#[derive(Clone)]
pub enum Ask {
    Add(Record),
    Find(u32),
    /// Into rooms of every interesting length.
    List,
}

impl Ask {
    pub fn step(self) -> Step {
        Step {
            ask: self,
            stated: None,
        }
    }
}

impl Case {
    /// The case of a limit.
    pub fn of_limit(limit: &Limit) -> Case {
        Case {
            kind: Kind::BookLimit,
            what: limit.what.clone(),
            book: limit.book.clone(),
            beyond: Vec::new(),
            told: limit.told.clone(),
            steps: limit.steps.clone(),
        }
    }

    /// A case by chance.
    pub fn any(random: &mut Random) -> Case {
        if random.once_in(90) {
            return long::any(random);
        }
        let mut shelf = Shelf::any(random);
        match random.below(20) {
            0..8 => {
                let known = shelf.book(random);
                well(random, Kind::Book, known, &mut shelf)
            }
            8..14 => {
                let known = shelf.book(random);
                damaged(random, &known, &mut shelf)
            }
            14..18 => spoiled(random, &mut shelf),
            _ => stray(random, &mut shelf),
        }
    }
}

/// The questions of a case: some records added, good ones and others, now and then many,
/// and what is in the book looked for in between.
fn steps(random: &mut Random, identifiers: &[u32], shelf: &mut Shelf) -> Vec<Step> {
    let mut known = identifiers.to_vec();
    let mut steps = vec![Ask::List];
    let count = match random.once_in(40) {
        true => 25,
        false => random.between(2, 5),
    };
    for _ in 0..count {
        let record = match random.below(8) {
            0 if !known.is_empty() => {
                let twice = sought(random, &known);
                shelf.again(random, twice)
            }
            0..4 => shelf.strange(random),
            _ => shelf.next(random),
        };
        known.extend(record.stated);
        steps.push(Ask::Add(record));
        let identifier = sought(random, &known);
        steps.push(Ask::Find(identifier));
    }
    let strangers = [0, 1, u32::MAX, random.next() as u32];
    steps.push(Ask::Find(random.pick(&strangers)));
    steps.push(Ask::List);
    steps.into_iter().map(Ask::step).collect()
}

/// One of these: the first, the last or any.
fn sought(random: &mut Random, known: &[u32]) -> u32 {
    match (random.below(4), known) {
        (_, []) => 0,
        (0, [first, ..]) => *first,
        (1, [.., last]) => *last,
        _ => random.pick(known),
    }
}

/// A well-formed book.
pub fn well(random: &mut Random, kind: Kind, known: Known, shelf: &mut Shelf) -> Case {
    Case {
        kind,
        what: kind.words().into(),
        book: known.bytes.clone(),
        beyond: Vec::new(),
        steps: steps(random, &known.identifiers(), shelf),
        told: Told::Well(known),
    }
}

fn damaged(random: &mut Random, known: &Known, shelf: &mut Shelf) -> Case {
    let identifiers = known.identifiers();
    let damaged = damage(random, known);
    let mut steps = steps(random, &identifiers, shelf);
    steps.truncate(4);
    Case {
        kind: Kind::DamagedBook,
        what: Kind::DamagedBook.words().into(),
        book: damaged.bytes,
        beyond: damaged.beyond,
        told: damaged.told,
        steps,
    }
}

/// A book with one record in it that none takes, most of the time, at its end or behind
/// one or two others.
fn spoiled(random: &mut Random, shelf: &mut Shelf) -> Case {
    let before = random.pick(&[0, 0, 1, 1, 2, 3]);
    let mut records: Vec<Record> = (0..before).map(|_| shelf.next(random)).collect();
    let record = shelf.strange(random);
    let stated = record.stated;
    records.push(record);
    if random.once_in(2) {
        records.push(shelf.next(random));
    }
    let known = Known::of(records.len() + random.below(2), &records, &[0x5A; 30]);
    let mut identifiers = known.identifiers();
    identifiers.sort();
    identifiers.dedup();
    let told = match stated {
        _ if known.bytes.len() > MOST => Told::Bad(request(63, 0)),
        Err(_) => Told::Bad(request(63, before as u32)),
        Ok(_) if identifiers.len() < records.len() => Told::Nothing,
        Ok(_) => Told::Well(known.clone()),
    };
    let mut steps = steps(random, &identifiers, shelf);
    steps.truncate(3);
    Case {
        kind: Kind::SpoiledBook,
        what: Kind::SpoiledBook.words().into(),
        book: known.bytes,
        beyond: Vec::new(),
        told,
        steps,
    }
}

/// Random bytes, mostly behind a small head.
fn stray(random: &mut Random, shelf: &mut Shelf) -> Case {
    let length = random.pick(&[0, 1, 2, 3, 4, 5, 20, 60, 200]) + random.below(2);
    let mut book = random.bytes(length);
    if let Some(head) = book.first_chunk_mut() {
        let capacity = random.below(4) as u8;
        let count = random.below(3) as u8;
        *head = [0, capacity, 0, count];
    }
    let mut steps = steps(random, &[], shelf);
    steps.truncate(4);
    Case {
        kind: Kind::StrayBook,
        what: Kind::StrayBook.words().into(),
        book,
        beyond: Vec::new(),
        told: Told::Nothing,
        steps,
    }
}
