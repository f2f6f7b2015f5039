//! Damaged copies of a well-formed book, with the answer wherever the fault alone
//! decides it: all before the entry at fault is in order.

use super::case::Told;
use super::known::{ENTRY, HEAD, Known, MOST, place_of};
use crate::answers::request;
use crate::random::Random;

/// A damaged book, and the bytes that a read past its end would find.
pub struct Damaged {
    pub bytes: Vec<u8>,
    pub beyond: Vec<u8>,
    pub told: Told,
}

/// Numbers that are seldom right.
const WORDS: [u32; 12] = [
    0,
    1,
    4,
    0xFFFF,
    0x1_0000,
    0x1_0001,
    0x7FFF_FFFF,
    0x8000_0000,
    0xFFFF_0000,
    0xFFFF_FFFE,
    0xFFFF_FFFF,
    0x0100_0000,
];

/// A copy with one fault.
pub fn damage(random: &mut Random, known: &Known) -> Damaged {
    match random.below(16) {
        0 => blind(random, known),
        1 | 2 => cut(random, known),
        3 => extended(random, known),
        4 => counts(random, known),
        5 => count(random, known),
        6 => unused(random, known),
        _ if known.entries.is_empty() => blind(random, known),
        7..10 => word(random, known),
        10 => shifted(random, known),
        11 => copied(random, known),
        12 => moved(random, known),
        13 => exchanged(random, known),
        14 => doubled(random, known),
        _ => in_body(random, known),
    }
}

fn damaged(bytes: Vec<u8>, told: Told) -> Damaged {
    Damaged {
        bytes,
        beyond: Vec::new(),
        told,
    }
}

/// Refused at this place.
fn bad(place: usize) -> Told {
    Told::Bad(request(63, place as u32))
}

/// A number of 16 or 32 bits put into the book.
fn set(bytes: &mut [u8], place: usize, number: &[u8]) {
    bytes[place..place + number.len()].copy_from_slice(number);
}

/// One byte changed, wherever it is.
fn blind(random: &mut Random, known: &Known) -> Damaged {
    let mut bytes = known.bytes.clone();
    let place = match random.below(3) {
        0 => random.below(bytes.len()),
        1 => random.below(bytes.len().min(place_of(known.capacity))),
        _ => random.below(HEAD),
    };
    bytes[place] = match random.once_in(2) {
        true => random.byte(),
        false => bytes[place] ^ 1 << random.below(8),
    };
    damaged(bytes, Told::Nothing)
}

/// The end cut off: anywhere, or about where a body, the contents or the head ends.
fn cut(random: &mut Random, known: &Known) -> Damaged {
    let ends = known.entries.iter().map(|entry| entry.end());
    let ends: Vec<usize> = ends.chain([place_of(known.capacity), HEAD]).collect();
    let place = match random.once_in(3) {
        true => random.below(known.bytes.len()),
        false => random.pick(&ends) + random.below(3) - 1,
    };
    let mut bytes = known.bytes.clone();
    let beyond = bytes.split_off(place.min(bytes.len()));
    let told = match known.entries.iter().position(|entry| entry.end() > place) {
        _ if place < HEAD => bad(0),
        _ if place < place_of(known.capacity) => bad(known.capacity),
        Some(entry) => bad(entry),
        None => Told::Well(Known {
            bytes: bytes.clone(),
            ..known.clone()
        }),
    };
    Damaged {
        bytes,
        beyond,
        told,
    }
}

/// Some bytes behind the book, at times more than there may be.
fn extended(random: &mut Random, known: &Known) -> Damaged {
    let mut bytes = known.bytes.clone();
    let length = match random.once_in(2) {
        true => random.pick(&[65535, 65536, 65537, 65538]),
        false => bytes.len() + random.between(1, 40),
    };
    bytes.resize(length.max(bytes.len()), random.byte());
    let told = match bytes.len() > MOST {
        true => bad(0),
        false => Told::Well(Known {
            bytes: bytes.clone(),
            ..known.clone()
        }),
    };
    damaged(bytes, told)
}

/// Another capacity.
fn counts(random: &mut Random, known: &Known) -> Damaged {
    let mut bytes = known.bytes.clone();
    let most = (bytes.len() - HEAD) / ENTRY;
    let near = [
        known.capacity + 1,
        known.capacity.saturating_sub(1),
        known.entries.len(),
        most,
        most + 1,
        4095,
        4096,
        0xFFFF,
    ];
    let capacity = random.pick(&near).min(0xFFFF);
    set(&mut bytes, 0, &(capacity as u16).to_be_bytes());
    let told = match capacity > most || capacity < known.entries.len() {
        true => bad(capacity),
        false => Told::Nothing,
    };
    damaged(bytes, told)
}

/// Another count.
fn count(random: &mut Random, known: &Known) -> Damaged {
    let mut bytes = known.bytes.clone();
    let used = known.entries.len();
    let near = [
        used + 1,
        used + 1,
        used.saturating_sub(1),
        known.capacity,
        known.capacity + 1,
        0,
        0x100,
        0xFFFF,
    ];
    let count = random.pick(&near).min(0xFFFF);
    set(&mut bytes, 2, &(count as u16).to_be_bytes());
    let told = match count {
        _ if count == used => Told::Well(known.clone()),
        _ if count > known.capacity => bad(known.capacity),
        _ => bad(count.min(used)),
    };
    damaged(bytes, told)
}

/// An unused entry that isn't all zero; or a free byte changed, where there is none.
fn unused(random: &mut Random, known: &Known) -> Damaged {
    let mut bytes = known.bytes.clone();
    let used = known.entries.len();
    if used == known.capacity {
        return blind(random, known);
    }
    let entry = random.between(used, known.capacity - 1);
    let place = place_of(entry) + random.pick(&[0, 3, 4, 7, 8, 12, 15]);
    bytes[place] = random.pick(&[1, 0x80, 0xFF]);
    damaged(bytes, bad(entry))
}

/// Another number in an entry in use.
fn word(random: &mut Random, known: &Known) -> Damaged {
    let mut bytes = known.bytes.clone();
    let entry = random.below(known.entries.len());
    let place = place_of(entry) + 4 * random.below(4);
    let old = bytes[place..].first_chunk().copied().unwrap_or_default();
    let old = u32::from_be_bytes(old);
    let new = match random.below(4) {
        0 => old.wrapping_add(1),
        1 => old.wrapping_sub(1),
        2 => old ^ 1 << random.below(32),
        _ => random.pick(&WORDS),
    };
    set(&mut bytes, place, &new.to_be_bytes());
    let told = match new == old {
        true => Told::Well(known.clone()),
        false => bad(entry),
    };
    damaged(bytes, told)
}

/// The descriptor's length and the data's changed against each other, so that the body
/// ends where it did, at times only where sums have 32 bits.
fn shifted(random: &mut Random, known: &Known) -> Damaged {
    let mut bytes = known.bytes.clone();
    let number = random.below(known.entries.len());
    let entry = known.entries[number];
    let by = random.pick(&[1, 2, 4, 0x8000_0000, 0xFFFF_FFFF, 0xFFFF_FFFE]);
    let descriptor = (entry.descriptor as u32).wrapping_add(by);
    let data = (entry.data as u32).wrapping_sub(by);
    let place = place_of(number);
    set(&mut bytes, place + 8, &descriptor.to_be_bytes());
    set(&mut bytes, place + 12, &data.to_be_bytes());
    damaged(bytes, bad(number))
}

/// An entry in the place of another, in use or not.
fn copied(random: &mut Random, known: &Known) -> Damaged {
    let mut bytes = known.bytes.clone();
    let from = random.below(known.entries.len());
    let to = random.below(known.capacity);
    let start = place_of(from);
    bytes.copy_within(start..start + ENTRY, place_of(to));
    let told = match from == to {
        true => Told::Well(known.clone()),
        false => bad(to),
    };
    damaged(bytes, told)
}

/// The bodies from one on moved, and the starts of their entries with them: a gap, or
/// an overlap, which takes bytes from what stands before.
fn moved(random: &mut Random, known: &Known) -> Damaged {
    let mut bytes = known.bytes.clone();
    let first = random.below(known.entries.len());
    let start = known.entries[first].start;
    let gap = first == 0 || random.once_in(2);
    let by = random.pick(&[1, 2, 16, 20]);
    match gap {
        true => drop(bytes.splice(start..start, random.bytes(by))),
        false => drop(bytes.drain(start - by..start)),
    }
    for (number, entry) in known.entries.iter().enumerate().skip(first) {
        let start = match gap {
            true => entry.start + by,
            false => entry.start - by,
        };
        set(
            &mut bytes,
            place_of(number) + 4,
            &(start as u32).to_be_bytes(),
        );
    }
    let told = match bytes.len() > MOST {
        true => bad(0),
        false if gap => bad(first),
        false => Told::Nothing,
    };
    damaged(bytes, told)
}

/// Two entries exchanged, with or without their bodies' starts.
fn exchanged(random: &mut Random, known: &Known) -> Damaged {
    let mut bytes = known.bytes.clone();
    let [one, other] = [(); 2].map(|()| random.below(known.entries.len()));
    let (first, second) = (one.min(other), one.max(other));
    let mut places = [place_of(first), place_of(second)];
    let mut length = ENTRY;
    if random.once_in(3) {
        // The identifiers alone.
        length = 4;
    } else if random.once_in(2) {
        places = places.map(|place| place + 4);
        length = ENTRY - 4;
    }
    for byte in 0..length {
        bytes.swap(places[0] + byte, places[1] + byte);
    }
    let told = match first == second {
        true => Told::Well(known.clone()),
        false => bad(first),
    };
    damaged(bytes, told)
}

/// The last record once more behind it, or another's, if there is an entry for it.
fn doubled(random: &mut Random, known: &Known) -> Damaged {
    let used = known.entries.len();
    if used == known.capacity {
        return word(random, known);
    }
    let number = match random.once_in(2) {
        true => used - 1,
        false => random.below(used),
    };
    let entry = known.entries[number];
    let mut bytes = known.bytes.clone();
    let body = bytes[entry.start..entry.end()].to_vec();
    let end = known.end();
    bytes.resize(bytes.len().max(end + body.len()), 0);
    set(&mut bytes, end, &body);
    let from = place_of(number);
    bytes.copy_within(from..from + ENTRY, place_of(used));
    let start = (end as u32).to_be_bytes();
    set(&mut bytes, place_of(used) + 4, &start);
    set(&mut bytes, 2, &(used as u16 + 1).to_be_bytes());
    let told = match bytes.len() > MOST {
        true => bad(0),
        false => bad(used),
    };
    damaged(bytes, told)
}

/// A byte of a body changed, where it may be anything; the first ones stand for what
/// the descriptor is.
fn in_body(random: &mut Random, known: &Known) -> Damaged {
    let mut bytes = known.bytes.clone();
    let entry = known.entries[random.below(known.entries.len())];
    let length = entry.end() - entry.start;
    let place = match random.below(3) {
        0 => random.below(length.min(12)),
        1 => length - 1 - random.below(length.min(8)),
        _ => random.below(length),
    };
    bytes[entry.start + place] ^= 1 << random.below(8);
    damaged(bytes, Told::Nothing)
}
