//! As many records as a book can have, 1,820 of 36 bytes each with their entries, and
//! counts whose low byte is full.

use super::Limits;
use crate::answers::{accepted, request};
use crate::store::case::Ask;
use crate::store::known::{Known, place_of};
use crate::store::long::MOST_RECORDS;
use crate::store::record::Record;

/// So many of the shortest records in a book of this capacity and so many bytes free.
fn book(capacity: usize, used: usize, free: usize) -> Known {
    let records = (0..used as u32).map(|number| Record::shortest(number << 12));
    Known::of(capacity, &records.collect::<Vec<_>>(), &vec![0x11; free])
}

pub(super) fn add(limits: &mut Limits) {
    counts(limits);
    fullest(limits);
    last_bad(limits);
}

/// One more record than 255, than 256 and so on.
fn counts(limits: &mut Limits) {
    for used in [254, 255, 256, 511, 512, 1023, 1279] {
        let next = |more: usize| Record::shortest(((used + more) as u32) << 12);
        let asked = vec![
            (Ask::Add(next(0)), accepted(0)),
            (Ask::List, accepted(used + 1)),
            (Ask::Add(next(0)), request(60, used as u32)),
            (Ask::Add(next(1)), accepted(0)),
            (Ask::Find((used as u32) << 12), accepted(0)),
        ];
        let what = format!("{used} records and two more");
        limits.well(what, book(used + 3, used, 60), asked);
    }
}

/// 1,820 records, and one fewer.
fn fullest(limits: &mut Limits) {
    let last = MOST_RECORDS as u32 - 1;
    let find = |number: u32| Ask::Find(number << 12);
    let again = |number: u32| Ask::Add(Record::shortest(number << 12));
    for free in [0, 12] {
        let asked = vec![
            (find(0), accepted(0)),
            (find(last), accepted(0)),
            (Ask::Find(1), request(64, 0)),
            (again(last), request(60, last)),
            (again(last + 1), request(61, 0)),
            (Ask::List, accepted(MOST_RECORDS)),
        ];
        let what = format!("1,820 records, {free} bytes free");
        limits.well(what, book(MOST_RECORDS, MOST_RECORDS, free), asked);
    }
    for free in [19, 20, 32] {
        let added = match free {
            19 => request(62, 20),
            _ => accepted(0),
        };
        let asked = vec![
            (again(last - 1), request(60, last - 1)),
            (again(last), added),
        ];
        let what = format!("1,819 records, {free} bytes free");
        limits.well(what, book(MOST_RECORDS, MOST_RECORDS - 1, free), asked);
    }
}

/// 1,820 records of which the last is bad.
fn last_bad(limits: &mut Limits) {
    let known = book(MOST_RECORDS, MOST_RECORDS, 0);
    let place = place_of(MOST_RECORDS - 1) + 3;
    for (what, at) in [("entry", place), ("body", known.bytes.len() - 1)] {
        let mut bytes = known.bytes.clone();
        bytes[at] ^= 1;
        let what = format!("the last of 1,820 bad by its {what}");
        limits.bad(what, bytes, MOST_RECORDS - 1);
    }
    for earlier in [0, 1, 255, 256, 910, MOST_RECORDS - 2] {
        let mut bytes = known.bytes.clone();
        let identifier = ((earlier as u32) << 12).to_be_bytes();
        let end = bytes.len();
        bytes[place - 3..=place].copy_from_slice(&identifier);
        bytes[end - 4..].copy_from_slice(&identifier);
        let what = format!("the last of 1,820 with the identifier of entry {earlier}");
        limits.bad(what, bytes, MOST_RECORDS - 1);
    }
}
