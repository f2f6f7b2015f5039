//! The length of a book, of its contents, and its count.

use super::Limits;
use crate::answers::{accepted, request};
use crate::store::case::Ask;
use crate::store::known::{Known, MOST, place_of};
use crate::store::record::Record;

pub(super) fn add(limits: &mut Limits) {
    short(limits);
    long(limits);
    contents(limits);
    counts(limits);
}

fn short(limits: &mut Limits) {
    for length in 0..4 {
        for fill in [0, 1, 0xFF] {
            let what = format!("{length} bytes of {fill}");
            limits.bad(what, vec![fill; length], 0);
        }
    }
    for free in 0..3 {
        let asked = vec![
            (Ask::List, accepted(0)),
            (Ask::Find(0), request(64, 0)),
            (Ask::Add(Record::shortest(0)), request(61, 0)),
        ];
        let what = format!("no entry, and {free} bytes behind");
        limits.well(what, Known::empty(0, &vec![0xFF; free]), asked);
    }
}

fn long(limits: &mut Limits) {
    for length in [65534, 65535, 65536] {
        let known = Known::empty(1, &vec![9; length - place_of(1)]);
        let asked = vec![
            (Ask::Add(Record::shortest(0)), accepted(0)),
            (Ask::Find(0), accepted(0)),
            (Ask::List, accepted(1)),
        ];
        limits.well(format!("a book of {length} bytes"), known, asked);
    }
    for length in [65537, 65538, 65540] {
        let known = Known::empty(1, &vec![9; length - place_of(1)]);
        limits.bad(format!("a book of {length} bytes"), known.bytes, 0);
        let what = format!("{length} bytes that are no book");
        limits.bad(what, vec![0xFF; length], 0);
    }
}

fn contents(limits: &mut Limits) {
    for capacity in [1, 2, 3, 255, 256, 257, 4094, 4095] {
        for free in [0, 1] {
            let asked = vec![
                (Ask::Find(0), request(64, 0)),
                (Ask::List, accepted(0)),
                (Ask::Add(Record::shortest(0)), request(62, 20)),
            ];
            let what = format!("{capacity} entries, and {free} bytes behind");
            let known = Known::empty(capacity, &vec![0xFF; free]);
            limits.well(what, known, asked);
        }
        let whole = Known::empty(capacity, &[]).bytes;
        for less in [1, 2, 16] {
            let cut = whole[..whole.len() - less].to_vec();
            let what = format!("{capacity} entries, {less} bytes too few");
            limits.bad(what, cut, capacity);
        }
        let what = format!("{capacity} entries, of which there is only the head");
        limits.bad(what, whole[..4].to_vec(), capacity);
    }
    for capacity in [4096, 4097, 0x7FFF, 0x8000, 0xFFFF_u16] {
        let mut book = vec![0; MOST];
        book[..2].copy_from_slice(&capacity.to_be_bytes());
        let what = format!("{capacity} entries in 65,536 bytes");
        limits.bad(what, book, usize::from(capacity));
    }
}

fn counts(limits: &mut Limits) {
    for (capacity, count) in [
        (0, 1_u16),
        (0, 256),
        (0, 0xFFFF),
        (1, 2),
        (1, 257),
        (2, 3),
        (255, 256),
        (256, 257),
        (4095, 4096),
    ] {
        let mut book = Known::empty(capacity, &[]).bytes;
        book[2..4].copy_from_slice(&count.to_be_bytes());
        let what = format!("{count} of {capacity} entries in use");
        limits.bad(what, book, capacity);
    }
    // Both at fault, and with a body that would be bad too.
    limits.bad("no contents and a high count", vec![0, 3, 0, 4, 1], 3);
    let mut book = super::three(0).bytes;
    book[1] = 2;
    limits.bad("three of two entries in use", book, 2);
}
