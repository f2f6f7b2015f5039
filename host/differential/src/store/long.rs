//! Books with about as many entries, records or bytes as there can be.

use super::case::{Ask, Case, well};
use super::known::{ENTRY, HEAD, Known, MOST, place_of};
use super::record::Record;
use super::shelf::Shelf;
use crate::kind::Kind;
use crate::random::Random;

/// The most entries that there is room for, and the most with the shortest record each.
pub const MOST_ENTRIES: usize = (MOST - HEAD) / ENTRY;
pub const MOST_RECORDS: usize = (MOST - HEAD) / (ENTRY + 20);

/// A long book, asked a few questions.
pub fn any(random: &mut Random) -> Case {
    let mut shelf = Shelf::any(random);
    let known = match random.below(8) {
        0..3 => shortest(random),
        3..7 => entries(random, &mut shelf),
        _ if random.once_in(2) => many(random, &mut shelf),
        _ => large(random, &mut shelf),
    };
    let first = known.entries.first().map(|entry| entry.identifier);
    let last = known.entries.last().map(|entry| entry.identifier);
    let mut case = well(random, Kind::LongBook, known, &mut shelf);
    case.steps.truncate(3);
    case.steps
        .extend(first.map(|first| Ask::Find(first).step()));
    let again = last.map(|last| shelf.again(random, last));
    case.steps.extend(again.map(|again| Ask::Add(again).step()));
    case
}

/// How many bytes a long book has.
fn length(random: &mut Random) -> usize {
    random.pick(&[65534, 65535, 65536, 65536])
}

/// A book of this length, as far as it can have it.
fn filled(random: &mut Random, capacity: usize, records: &[Record], length: usize) -> Known {
    let bodies: usize = records.iter().map(Record::length).sum();
    let free = length.saturating_sub(place_of(capacity) + bodies);
    Known::of(capacity, records, &random.bytes(free))
}

/// As many of the shortest records as there can be, or one fewer and perhaps an entry
/// free.
fn shortest(random: &mut Random) -> Known {
    let used = random.pick(&[MOST_RECORDS, MOST_RECORDS - 1]);
    let capacity = MOST_RECORDS.min(used + random.below(2));
    let step = random.pick(&[1, 1 << 12, 1 << 16]);
    let records = (0..used as u32).map(|number| Record::shortest(step * number));
    let records: Vec<Record> = records.collect();
    let length = length(random);
    filled(random, capacity, &records, length)
}

/// As many entries as there can be or a few fewer, hardly any of them in use.
fn entries(random: &mut Random, shelf: &mut Shelf) -> Known {
    let capacity = MOST_ENTRIES - random.pick(&[0, 0, 0, 1, 1, 1, 2, 3]);
    let record = shelf.next(random);
    let left = MOST - place_of(capacity);
    let records = Some(record).filter(|record| record.length() <= left);
    let length = length(random);
    filled(random, capacity, records.as_slice(), length)
}

/// Records of a few rigs until hardly anything is left.
fn many(random: &mut Random, shelf: &mut Shelf) -> Known {
    let mut records = Vec::new();
    let mut left = length(random) - HEAD;
    loop {
        let record = shelf.next(random);
        let takes = ENTRY + record.length();
        if takes > left {
            break;
        }
        left -= takes;
        records.push(record);
    }
    let more = usize::from(left >= ENTRY && random.once_in(2));
    let free = random.bytes(left - ENTRY * more);
    Known::of(records.len() + more, &records, &free)
}

/// A record that fills the book, alone or behind a short one.
fn large(random: &mut Random, shelf: &mut Shelf) -> Known {
    let before: Vec<Record> = (0..random.below(2)).map(|_| shelf.next(random)).collect();
    let capacity = before.len() + random.between(1, 2);
    let taken: usize = before.iter().map(Record::length).sum();
    let left = length(random).saturating_sub(place_of(capacity) + taken);
    let spare = random.pick(&[0, 0, 1, 19, 20, 36]);
    let other = before.first().map(|record| record.stated.unwrap_or(0));
    let identifier = other.map_or(u32::MAX, |other| other.wrapping_add(1));
    let record = Record::long(identifier, left.saturating_sub(spare));
    let records = [before, vec![record]].concat();
    let bodies: usize = records.iter().map(Record::length).sum();
    let free = (MOST - place_of(capacity))
        .saturating_sub(bodies)
        .min(spare);
    Known::of(capacity, &records, &random.bytes(free))
}
