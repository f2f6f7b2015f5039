//! What adding a record gives, which refusal comes first, and rows of records.

use super::bodies::strange;
use super::{Limits, texts, three};
use crate::answers::{accepted, request};
use crate::store::case::Ask;
use crate::store::known::Known;
use crate::store::record::Record;

pub(super) fn add(limits: &mut Limits) {
    own(limits);
    order(limits);
    room(limits);
    rows(limits);
    longest(limits);
}

/// A record's own refusals come before any of the book's, and change nothing.
fn own(limits: &mut Limits) {
    for (what, record) in strange() {
        let Err(refusal) = record.stated else {
            continue;
        };
        let books = [
            ("room", three(100)),
            ("no room", three(0)),
            ("no entry", Known::empty(0, &[])),
            ("no entry free", Known::of(1, &[Record::shortest(0)], &[])),
        ];
        for (book, known) in books {
            let asked = vec![
                (Ask::Add(record.clone()), refusal),
                (Ask::List, accepted(known.entries.len())),
            ];
            limits.well(format!("{what}, {book}"), known, asked);
        }
    }
}

/// 60, 61 and 62 in this order.
fn order(limits: &mut Limits) {
    let add = |identifier| Ask::Add(Record::shortest(identifier));
    let full = |free: usize| Known::of(1, &[Record::shortest(7)], &vec![1; free]);
    for free in [0, 19, 20] {
        let asked = vec![(add(7), request(60, 0)), (add(8), request(61, 0))];
        limits.well(format!("no entry, {free} bytes free"), full(free), asked);
    }
    let one = Known::of(2, &[Record::shortest(7)], &[]);
    let asked = vec![(add(7), request(60, 0)), (add(8), request(62, 20))];
    limits.well("an entry free, but no byte", one, asked);
    for (identifier, place) in [(7, 0), (9, 1), (14, 2)] {
        let asked = vec![
            (Ask::Add(texts(identifier, b"")), request(60, place)),
            (add(identifier), request(60, place)),
        ];
        limits.well(format!("blank {identifier} again"), three(200), asked);
    }
    for identifier in [0, u32::MAX] {
        let asked = vec![
            (Ask::Find(identifier), request(64, 0)),
            (add(identifier), accepted(0)),
            (Ask::Find(identifier), accepted(0)),
            (add(identifier), request(60, 3)),
        ];
        let what = format!("blank {identifier} beside unused entries");
        limits.well(what, three(40), asked);
    }
}

/// 62, with just enough room, a byte less and a byte more.
fn room(limits: &mut Limits) {
    let records = [
        Record::shortest(1),
        texts(1, b""),
        texts(1, b"nickel"),
        Record::long(1, 300),
    ];
    for record in records {
        let length = record.length();
        for free in [
            0,
            1,
            length - 20,
            length - 1,
            length,
            length + 1,
            length + 36,
        ] {
            let answer = match free < length {
                true => request(62, length as u32),
                false => accepted(0),
            };
            let what = format!("a body of {length} bytes where {free} are free");
            let again = match answer.number {
                0 => request(60, 3),
                _ => answer,
            };
            let add = || Ask::Add(record.clone());
            let asked = vec![(add(), answer), (add(), again)];
            limits.well(&what, three(free), asked.clone());
            let asked = vec![(add(), answer)];
            limits.well(what, Known::empty(1, &vec![0xEE; free]), asked);
        }
    }
}

/// The record with its reserved bytes set.
fn reserved(mut record: Record) -> Record {
    record.descriptor[2] = 0x40;
    record.descriptor[8] = 0xFF;
    record
}

/// A word before the identifier, or behind it: descriptors that are as long, and data
/// in which the other one stands where the identifier does.
fn beside(first: bool, identifier: u32, other: u32) -> Record {
    let blank = b"\x00\x0A\x00\x07\x05blank";
    let pulse = b"\x00\x0A\x00\x07\x05pulse";
    let members: [&[u8]; 2] = if first {
        [blank, pulse]
    } else {
        [pulse, blank]
    };
    let descriptor = [b"\x00\x1A\x00\x50\x00\x02", &members.concat()[..]].concat();
    let numbers = if first {
        [identifier, other]
    } else {
        [other, identifier]
    };
    Record {
        descriptor,
        data: numbers.map(u32::to_be_bytes).concat(),
        stated: Ok(identifier),
    }
}

/// The record of an identifier in a row of them.
type Row = fn(u32) -> Record;

/// Rows of records, from one rig and from several by turns.
const ROWS: [(&str, Row); 6] = [
    ("one rig", Record::shortest),
    ("a rig with texts", |blank| {
        texts(blank, &vec![b'a'; blank as usize])
    }),
    ("two rigs by turns", |blank| match blank % 2 {
        0 => Record::shortest(blank),
        _ => texts(blank, b"by turns"),
    }),
    ("a word before or behind", |blank| {
        beside(blank % 2 == 0, blank, blank + 100)
    }),
    ("each other's identifier beside", |blank| {
        beside(blank % 3 == 0, blank, 9 - blank)
    }),
    ("reserved bytes by turns", |blank| match blank % 3 {
        0 => reserved(Record::shortest(blank)),
        _ => Record::shortest(blank),
    }),
];

/// Whole rows added, found and listed.
fn rows(limits: &mut Limits) {
    for (what, record) in ROWS {
        let records: Vec<Record> = (1..9).map(record).collect();
        let added = records.iter().map(|record| Ask::Add(record.clone()));
        let asks = added.chain((1..9).map(Ask::Find));
        let mut asked: Vec<_> = asks.map(|ask| (ask, accepted(0))).collect();
        asked.push((Ask::List, accepted(8)));
        asked.push((Ask::Add(Record::shortest(1000)), request(61, 0)));
        let free: usize = records.iter().map(Record::length).sum();
        limits.well(what, Known::empty(8, &vec![0xAB; free]), asked);
    }
}

/// Records about as long as data or a book may be.
fn longest(limits: &mut Limits) {
    let data = |length: usize| Record::long(1, 24 + length);
    let known = || Known::empty(1, &[0; 100]);
    let asked = vec![(Ask::Add(data(65536)), request(62, 65560))];
    limits.well("65,536 bytes of data", known(), asked);
    let room = 65536 - 20;
    for (length, answer) in [
        (room - 1, accepted(0)),
        (room, accepted(0)),
        (room + 1, request(62, 65517)),
    ] {
        let known = Known::empty(1, &vec![5; room]);
        let asked = vec![(Ask::Add(Record::long(1, length)), answer)];
        limits.well(format!("a body of {length} bytes in 65,536"), known, asked);
    }
}
