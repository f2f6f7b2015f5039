//! What stands in a body: each refusal of a record, and identifiers that are another's.

use reference::Answer;

use super::{Limits, texts};
use crate::answers::{accepted, reader, refused, request};
use crate::store::case::Ask;
use crate::store::identifiers::GATHERED;
use crate::store::known::Known;
use crate::store::record::{Record, SHAPE};

pub(super) fn add(limits: &mut Limits) {
    records(limits);
    identifiers(limits);
}

/// A refusal of the record's descriptor.
fn writer(number: u32, place: u32) -> Answer {
    Answer {
        number,
        input: 1,
        place,
    }
}

/// A record that no book takes, and its name here.
type Strange = (&'static str, Record);

fn strange_of(what: &'static str, descriptor: &[u8], data: &[u8], refusal: Answer) -> Strange {
    let record = Record {
        descriptor: descriptor.to_vec(),
        data: data.to_vec(),
        stated: Err(refusal),
    };
    (what, record)
}

/// Records that no book takes, each with its own refusal.
pub(super) fn strange() -> Vec<Strange> {
    let mut records = by_descriptors();
    records.extend(by_data());
    records.extend(by_names());
    records.extend(by_types());
    records
}

/// The member that counts, and others as wide.
const BLANK: &[u8] = b"\x00\x0A\x00\x07\x05blank";
const BLANC: &[u8] = b"\x00\x0A\x00\x07\x05blanc";
const BLANKS: &[u8] = b"\x00\x0C\x00\x07\x06blanks\x00";
const SIGNED: &[u8] = b"\x00\x0A\x00\x03\x05blank";
const BYTE: &[u8] = b"\x00\x0A\x00\x05\x05blank";
const INSIDE: &[u8] = b"\x00\x10\x00\x50\x00\x01\x00\x04\x00\x07\x05blank";
const NAMELESS: &[u8] = b"\x00\x04\x00\x07";

/// An enumeration of one item, a code that isn't carried, and a time stamp.
const ITEM: &[u8] = b"\x00\x08\x00\x15\x00\x01\x01a";
const FOREIGN: &[u8] = b"\x00\x04\x00\x32";
const STAMP: &[u8] = b"\x00\x1C\x00\x54\x00\x06\x00\x16\x00\x50\x00\x04\
    \x00\x04\x00\x03\x00\x04\x00\x03\x00\x04\x00\x07\x00\x04\x00\x07";

/// A cluster of these members.
fn cluster(members: &[&[u8]]) -> Vec<u8> {
    let inside = members.concat();
    let size = (6 + inside.len() as u16).to_be_bytes();
    let count = (members.len() as u16).to_be_bytes();
    [&size, &[0, 0x50], &count, &inside[..]].concat()
}

fn by_descriptors() -> Vec<Strange> {
    let (long, longer) = ([0; 4097], [&SHAPE[..], &[0]].concat());
    let foreign = cluster(&[FOREIGN, BLANK]);
    vec![
        strange_of("no descriptor", &[], &[], writer(2, 0)),
        strange_of("a long descriptor", &long, &[], writer(1, 0)),
        strange_of("a cut descriptor", &SHAPE[..14], &[0; 4], writer(4, 0)),
        strange_of("a byte behind it", &longer, &[0; 4], writer(12, 16)),
        strange_of("a foreign code", &foreign, &[0; 4], writer(5, 9)),
    ]
}

fn by_data() -> Vec<Strange> {
    let (text, high) = (texts(0, b""), [0, 0, 0x80, 0, 0, 0, 0, 0, 0, 0]);
    let item = cluster(&[BLANK, ITEM]);
    vec![
        strange_of("no data", &SHAPE, &[], refused(21, 0)),
        strange_of("cut data", &SHAPE, &[0; 3], refused(21, 0)),
        strange_of("longer data", &SHAPE, &[0; 5], refused(25, 4)),
        strange_of("long data", &SHAPE, &[0; 65537], refused(20, 0)),
        strange_of("a high length", &text.descriptor, &high, refused(22, 2)),
        strange_of("a high item", &item, &[0, 0, 0, 0, 1], refused(23, 4)),
    ]
}

fn by_names() -> Vec<Strange> {
    let [nameless, blanc, blanks] = [NAMELESS, BLANC, BLANKS].map(|member| cluster(&[member]));
    let deeper = cluster(&[&cluster(&[BLANK])]);
    let twice = cluster(&[BLANK, BLANK]);
    let types = cluster(&[BLANK, BYTE]);
    vec![
        strange_of("a number", BLANK, &[0; 4], writer(41, 0)),
        strange_of("a time stamp", STAMP, &[0; 16], writer(41, 0)),
        strange_of("no name", &nameless, &[0; 4], reader(42, 0)),
        strange_of("another name", &blanc, &[0; 4], reader(42, 0)),
        strange_of("a longer name", &blanks, &[0; 4], reader(42, 0)),
        strange_of("a deeper name", &deeper, &[0; 4], reader(42, 0)),
        strange_of("the name twice", &twice, &[0; 8], reader(43, 0)),
        strange_of("twice, one type", &types, &[0; 5], reader(43, 0)),
    ]
}

fn by_types() -> Vec<Strange> {
    let [signed, byte, inside] = [SIGNED, BYTE, INSIDE].map(|member| cluster(&[member]));
    vec![
        strange_of("a signed number", &signed, &[0; 4], reader(44, 0)),
        strange_of("a byte", &byte, &[0], reader(44, 0)),
        strange_of("a cluster of it", &inside, &[0; 4], reader(44, 0)),
    ]
}

/// Each of them as the first body, behind one and behind two, and in front of another.
fn records(limits: &mut Limits) {
    for (what, record) in strange() {
        if record.length() > 60000 {
            continue;
        }
        for before in 0..3 {
            let mut records = [3, 5].map(Record::shortest)[..before].to_vec();
            records.push(record.clone());
            records.push(Record::shortest(9));
            let known = Known::of(before + 2, &records, &[]);
            limits.bad(format!("body {before}: {what}"), known.bytes, before);
        }
    }
}

/// An identifier that an earlier entry has, wherever that stands.
fn identifiers(limits: &mut Limits) {
    let book = |identifiers: &[u32]| {
        let records: Vec<Record> = identifiers.iter().copied().map(Record::shortest).collect();
        Known::of(identifiers.len() + 1, &records, &[0x77; 20])
    };
    for (identifiers, place) in [
        (&[0, 0][..], 1),
        (&[7, 7], 1),
        (&[u32::MAX, u32::MAX], 1),
        (&[7, 9, 7], 2),
        (&[7, 9, 9], 2),
        (&[7, 7, 7], 1),
        (&[1, 2, 3, 4, 5, 6, 7, 8, 4], 8),
        (&[1, 1 << 12, 1 << 16, 1 << 20, 1 << 16], 4),
    ] {
        let what = format!("identifiers {identifiers:?}");
        limits.bad(what, book(identifiers).bytes, place);
    }
    for identifiers in apart() {
        let mut asked = vec![(Ask::List, accepted(identifiers.len()))];
        for (entry, &identifier) in identifiers.iter().enumerate() {
            let again = Record::shortest(identifier);
            asked.push((Ask::Find(identifier), accepted(0)));
            asked.push((Ask::Add(again), request(60, entry as u32)));
        }
        asked.push((Ask::Find(2), request(64, 0)));
        asked.push((Ask::Add(Record::shortest(2)), accepted(0)));
        let what = format!("identifiers {identifiers:?}");
        limits.well(what, book(&identifiers), asked);
    }
}

/// Rows of identifiers that differ in a few bits, 2 never being one of them.
fn apart() -> Vec<Vec<u32>> {
    let steps = [1, 1 << 8, 1 << 12, 1 << 16, 1 << 24, GATHERED];
    let gathered = [GATHERED << 12, GATHERED << 16];
    let row = |step: u32| (0..20).map(move |times| step.wrapping_mul(times).wrapping_add(7));
    let steps = steps.into_iter().chain(gathered);
    let mut rows: Vec<Vec<u32>> = steps.map(|step| row(step).collect()).collect();
    rows.push(vec![0, u32::MAX, 1 << 31]);
    rows
}
