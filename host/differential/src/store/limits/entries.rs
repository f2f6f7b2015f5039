//! Every number of every entry a little or far off, unused entries that aren't zero,
//! and which of several bad entries is named.

use super::{Limits, three};
use crate::store::known::{ENTRY, Known, place_of};
use crate::store::record::Record;

pub(super) fn add(limits: &mut Limits) {
    words(limits);
    sums(limits);
    unused(limits);
    counts(limits);
    first(limits);
    cuts(limits);
    order(limits);
}

/// A book in which one number is changed.
fn with(mut book: Vec<u8>, place: usize, change: impl Fn(u32) -> u32) -> Vec<u8> {
    let word = book[place..].first_chunk_mut::<4>();
    if let Some(word) = word {
        *word = change(u32::from_be_bytes(*word)).to_be_bytes();
    }
    book
}

fn words(limits: &mut Limits) {
    let names = [
        "identifier",
        "start",
        "descriptor's length",
        "data's length",
    ];
    for entry in 0..3 {
        for (word, name) in names.iter().enumerate() {
            let place = place_of(entry) + 4 * word;
            for more in [1, u32::MAX, 2, 0x100, 0x1_0000, 0x100_0000, 0x8000_0000] {
                let book = with(three(30).bytes, place, |old| old.wrapping_add(more));
                let what = format!("entry {entry}, its {name} {more:#X} more");
                limits.bad(what, book, entry);
            }
            for new in [0, u32::MAX] {
                let book = with(three(30).bytes, place, |_| new);
                limits.bad(format!("entry {entry}, its {name} {new:#X}"), book, entry);
            }
        }
    }
}

/// Lengths that are right only where sums have 32 bits.
fn sums(limits: &mut Limits) {
    for entry in 0..3 {
        let place = place_of(entry) + 8;
        for by in [1, 4, 0x8000_0000, u32::MAX, 0xFFFF_FFF0] {
            let book = with(three(30).bytes, place, |old| old.wrapping_add(by));
            let book = with(book, place + 4, |old| old.wrapping_sub(by));
            let what = format!("entry {entry}, {by:#X} from its data to its descriptor");
            limits.bad(what, book, entry);
        }
        let known = three(30);
        let end = known.entries[entry].end() as u32;
        let book = with(known.bytes, place + 4, |old| old.wrapping_sub(end));
        let what = format!("entry {entry}, its end at 2^32");
        limits.bad(what, book, entry);
    }
}

fn unused(limits: &mut Limits) {
    for entry in [3, 4] {
        for byte in 0..ENTRY {
            let mut book = three(30).bytes;
            book[place_of(entry) + byte] = if byte % 2 == 0 { 1 } else { 0x80 };
            let what = format!("unused entry {entry}, byte {byte} not zero");
            limits.bad(what, book, entry);
        }
    }
    let mut book = Known::empty(1, &[]).bytes;
    book[19] = 1;
    limits.bad("the only entry unused and not zero", book, 0);
}

fn counts(limits: &mut Limits) {
    for (count, place) in [(0, 0), (1, 1), (2, 2), (4, 3), (5, 3)] {
        let mut book = three(60).bytes;
        book[3] = count;
        limits.bad(format!("a count of {count} for three"), book, place);
    }
}

/// The first bad entry is named, and those in use come before the others.
fn first(limits: &mut Limits) {
    for (entries, place) in [
        (&[2, 1][..], 1),
        (&[2, 0], 0),
        (&[3, 2], 2),
        (&[4, 3], 3),
        (&[4, 0], 0),
        (&[0, 1, 2, 3, 4], 0),
    ] {
        let mut book = three(30).bytes;
        for &entry in entries {
            book[place_of(entry)] = 1;
        }
        limits.bad(format!("entries {entries:?} bad"), book, place);
    }
}

/// The book cut anywhere behind its contents.
fn cuts(limits: &mut Limits) {
    let known = three(2);
    for length in place_of(known.capacity)..known.end() {
        let entry = known.entries.iter().position(|entry| entry.end() > length);
        let cut = known.bytes[..length].to_vec();
        limits.bad(format!("cut to {length} bytes"), cut, entry.unwrap_or(0));
    }
}

/// Gaps, overlaps, bodies in another order, and bodies with two entries.
fn order(limits: &mut Limits) {
    let known = three(30);
    let start = |entry: usize| known.entries[entry].start;
    for entry in 0..3 {
        let mut book = known.bytes.clone();
        book.insert(start(entry), 0);
        for moved in entry..3 {
            book = with(book, place_of(moved) + 4, |start| start + 1);
        }
        limits.bad(format!("a gap before body {entry}"), book, entry);
        let mut book = known.bytes.clone();
        book.insert(start(entry), 0);
        let what = format!("a byte before body {entry}, the starts as they were");
        limits.bad(what, book, entry);
    }
    for (from, to, place) in [(0, 1, 1), (1, 0, 0), (0, 2, 2), (2, 3, 3), (0, 4, 4)] {
        let mut book = known.bytes.clone();
        let at = place_of(from);
        book.copy_within(at..at + ENTRY, place_of(to));
        limits.bad(format!("entry {from} copied to {to}"), book, place);
    }
    let mut book = Known::of(2, &[7, 9].map(Record::shortest), &[]).bytes;
    let starts = [8, 24].map(|place| book[place..place + 4].to_vec());
    book[8..12].copy_from_slice(&starts[1]);
    book[24..28].copy_from_slice(&starts[0]);
    limits.bad("two starts exchanged", book.clone(), 0);
    book.swap(7, 23);
    limits.bad("two bodies in the other order", book, 0);
}
