//! Damaged copies of an encoded tree: the small faults of a bad cable and the
//! well aimed ones of a wrong writer.

use crate::grow::PLAIN;
use crate::random::Random;
use crate::stamp::SUBTYPES;
use crate::tree::{Encoded, StatedRow};

/// Damaged bytes, and the bytes that a read past their end would find.
pub struct Damaged {
    pub bytes: Vec<u8>,
    pub beyond: Vec<u8>,
}

/// A copy with one fault, or now and then with two.
pub fn damage(random: &mut Random, encoded: &Encoded) -> Damaged {
    let mut damaged = Damaged {
        bytes: encoded.bytes.clone(),
        beyond: Vec::new(),
    };
    let row = chosen(random, &encoded.rows);
    match random.below(12) {
        0 => blind(random, &mut damaged),
        1 => cut(random, &mut damaged),
        2 => {
            blind(random, &mut damaged);
            aimed(random, &mut damaged.bytes, &row);
        }
        3 => stretch(random, &mut damaged.bytes, &encoded.rows, &row),
        4 => shorten(random, &mut damaged.bytes, &encoded.rows, &row),
        5 => empty(random, &mut damaged.bytes, &encoded.rows),
        _ => aimed(random, &mut damaged.bytes, &row),
    }
    damaged
}

/// The last row, a deepest one or any.
fn chosen(random: &mut Random, rows: &[StatedRow]) -> StatedRow {
    let deepest = rows.iter().copied().max_by_key(|row| row[3]);
    match random.below(5) {
        0 => rows[rows.len() - 1],
        1 => deepest.unwrap_or(rows[0]),
        _ => random.pick(rows),
    }
}

/// One byte changed, some bytes put in, taken out or added behind.
fn blind(random: &mut Random, damaged: &mut Damaged) {
    let bytes = &mut damaged.bytes;
    let place = random.below(bytes.len());
    let length = random.between(1, 4);
    match random.below(5) {
        0 => bytes[place] = random.byte(),
        1 => bytes[place] ^= 1 << random.below(8),
        2 => drop(bytes.splice(place..place, random.bytes(length))),
        3 => bytes.extend(random.bytes(length)),
        _ => drop(bytes.drain(place..(place + length).min(bytes.len()))),
    }
}

/// The end cut off; a read past the cut would find what was there.
fn cut(random: &mut Random, damaged: &mut Damaged) {
    let place = random.below(damaged.bytes.len());
    damaged.beyond = damaged.bytes.split_off(place);
}

/// Codes next to those that are carried, and the last.
pub const FOREIGN: [u8; 16] = [
    0x00, 0x0F, 0x14, 0x18, 0x1F, 0x20, 0x22, 0x2F, 0x31, 0x3F, 0x41, 0x4F, 0x51, 0x53, 0x55, 0xFF,
];

/// Codes of every kind that is carried.
const CARRIED: [u8; 7] = [0x03, 0x15, 0x19, 0x30, 0x40, 0x50, 0x54];

/// Sizes that are never right.
const SIZES: [u16; 10] = [0, 1, 2, 3, 5, 0x7FFE, 0x7FFF, 0x8000, 0x8001, 0xFFFF];

/// Counts at and past a code's limits, and such whose low bytes are within; a time
/// stamp has its subtype there.
pub fn counts(code: u16) -> &'static [u16] {
    match code {
        0x19..=0x1E => &[0, 1, 9, 10, 11, 256, 265, 0xFFFF],
        0x40 => &[0, 1, 4, 5, 6, 256, 260, 0xFFFF],
        0x54 => &SUBTYPES,
        _ => &[0, 1, 255, 256, 257, 0x7FFF, 0x8000, 0xFFFF],
    }
}

/// A change to one descriptor's size, code, count, body, fill byte, name length or
/// last byte, or to a code inside it.
fn aimed(random: &mut Random, bytes: &mut [u8], row: &StatedRow) {
    let [_, start, size, _, count, name_place, name_length] = row.map(usize::from);
    let change = random.pick(&[1, 2, 0xFE, 0xFF]);
    match random.below(12) {
        9.. if (0x15..=0x17).contains(&row[0]) => set_fill(random, bytes, row),
        11 if row[0] == 0x54 => {
            let integer = start + 12 + 4 * random.below(4);
            set(bytes, integer + 3, random.pick(&PLAIN));
        }
        0 => set(bytes, start + 1, (size as u8).wrapping_add(change)),
        1 => set(bytes, start, random.pick(&[0x7F, 0x80, 0xFF, 0x10])),
        2 => set_word(bytes, start, random.pick(&SIZES)),
        3 => set(bytes, start + 3, random.pick(&FOREIGN)),
        4 => set(bytes, start + 3, random.pick(&CARRIED)),
        5 | 10 => set_word(bytes, start + 4, random.pick(counts(row[0]))),
        6 => set(bytes, start + 5, (count as u8).wrapping_add(change)),
        7 => {
            let place = start + 6 + random.below(36.min(size));
            set(bytes, place, random.pick(&[8, 9, 10, 0x7F, 0xFE]));
        }
        8 => set(bytes, start + 6 + random.below(4), random.byte()),
        9 if name_place > 0 => {
            let length = (name_length as u8).wrapping_add(change);
            set(bytes, name_place - 1, length);
        }
        _ => {
            let fill = [1, 0x80, 0xFF, random.byte()];
            set(bytes, start + size - 1, random.pick(&fill));
        }
    }
}

fn set(bytes: &mut [u8], place: usize, value: u8) {
    if let Some(byte) = bytes.get_mut(place) {
        *byte = value;
    }
}

fn set_word(bytes: &mut [u8], place: usize, value: u16) {
    let [high, low] = value.to_be_bytes();
    set(bytes, place, high);
    set(bytes, place + 1, low);
}

/// The byte behind an enumeration's items, if there is one.
fn set_fill(random: &mut Random, bytes: &mut [u8], row: &StatedRow) {
    let [_, start, _, _, count, ..] = row.map(usize::from);
    let mut place = start + 6;
    for _ in 0..count {
        place += 1 + usize::from(bytes.get(place).copied().unwrap_or(0));
    }
    if place % 2 == 1 {
        set(bytes, place, random.pick(&[1, 2, 0x80, 0xFF]));
    }
}

/// Two bytes more at a descriptor's end, with its size and the sizes of all around
/// it following.
fn stretch(random: &mut Random, bytes: &mut Vec<u8>, rows: &[StatedRow], row: &StatedRow) {
    let [_, start, size, ..] = row.map(usize::from);
    let end = start + size;
    resize(bytes, rows, start, end, 2);
    let low = random.below(4) as u8;
    bytes.splice(end..end, [low, random.pick(&[0, 0, 1])]);
}

/// The same with the end taken away: two bytes, some more, or all but the first
/// four or six.
fn shorten(random: &mut Random, bytes: &mut Vec<u8>, rows: &[StatedRow], row: &StatedRow) {
    let [_, start, size, ..] = row.map(usize::from);
    let most = size - 4;
    if most == 0 {
        return;
    }
    let less = match random.below(4) {
        0 => 2,
        1 => 2 * random.between(1, most / 2),
        2 => most,
        _ => (most - 2).max(2),
    };
    let end = start + size;
    resize(bytes, rows, start, end, -(less as i32));
    bytes.drain(end - less..end);
}

/// An array, a cluster or a time stamp without what it holds, more often the last
/// than another.
fn empty(random: &mut Random, bytes: &mut Vec<u8>, rows: &[StatedRow]) {
    let parents: Vec<&StatedRow> = rows.iter().filter(|row| row[0] >= 0x40).collect();
    let Some(&last) = parents.last() else {
        return;
    };
    let row = match random.once_in(2) {
        true => last,
        false => random.pick(&parents),
    };
    let [code, start, size, _, count, ..] = row.map(usize::from);
    let words = if code == 0x40 { 4 * count } else { 0 };
    let kept = 6 + words + random.pick(&[0, 0, 2]);
    if kept < size {
        let end = start + size;
        resize(bytes, rows, start, end, kept as i32 - size as i32);
        bytes.drain(start + kept..end);
    }
}

/// Changes the size of the descriptor from `start` to `end` and of all around it.
fn resize(bytes: &mut [u8], rows: &[StatedRow], start: usize, end: usize, by: i32) {
    for around in rows {
        let [_, first, length, ..] = around.map(usize::from);
        if first <= start && first + length >= end {
            set_word(bytes, first, (length as i32 + by) as u16);
        }
    }
}
