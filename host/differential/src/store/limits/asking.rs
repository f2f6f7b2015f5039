//! What is found in a book, and what is listed of it.

use super::{Limits, three};
use crate::answers::{accepted, request};
use crate::store::case::Ask;
use crate::store::known::Known;
use crate::store::record::Record;

pub(super) fn add(limits: &mut Limits) {
    three_blanks(limits);
    free_bytes(limits);
    unused(limits);
}

fn three_blanks(limits: &mut Limits) {
    for free in [0, 1, 500] {
        let mut asked: Vec<_> = [7, 9, 14]
            .map(|blank| (Ask::Find(blank), accepted(0)))
            .into();
        let others = [0, 1, 8, 15, 7 << 8, 7 + (1 << 12), 7 + (1 << 16), u32::MAX];
        asked.extend(others.map(|blank| (Ask::Find(blank), request(64, 0))));
        asked.push((Ask::List, accepted(3)));
        limits.well(
            format!("three blanks, {free} bytes free"),
            three(free),
            asked,
        );
    }
}

/// What is free looks like entries and bodies, and isn't looked at.
fn free_bytes(limits: &mut Limits) {
    let mut known = three(0);
    let copy = known.bytes.clone();
    known.bytes.extend(copy);
    let asked = vec![
        (Ask::Find(7), accepted(0)),
        (Ask::List, accepted(3)),
        (Ask::Add(Record::shortest(8)), accepted(0)),
    ];
    limits.well("a whole book behind the last body", known, asked);
}

/// An entry that isn't in use has no identifier, not even 0.
fn unused(limits: &mut Limits) {
    for count in [1, 2, 3] {
        let records = [5, 0, u32::MAX].map(Record::shortest);
        let known = Known::of(3, &records[..count], &[]);
        let asked = vec![
            (Ask::List, accepted(count)),
            (Ask::Find(5), accepted(0)),
            (
                Ask::Find(0),
                if count > 1 {
                    accepted(0)
                } else {
                    request(64, 0)
                },
            ),
        ];
        limits.well(format!("{count} of three entries in use"), known, asked);
    }
}
