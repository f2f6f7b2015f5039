//! Bytes damaged in one place, so that the refusal is known.

use crate::descriptor::Descriptor;
use crate::tokens::{Order, Part};

use super::grow::Random;

/// Bytes to be changed: how far behind a descriptor's start each stands, and to what;
/// the number that refuses it then, and how far behind the start its place is.
type Change = (&'static [(usize, u8)], u32, usize);

/// Copies of a descriptor that are refused in this row, with the numbers and places.
pub fn of_row(types: &Descriptor, row: usize) -> Vec<(Vec<u8>, u32, usize)> {
    let of = &types.rows[row];
    let start = usize::from(of.start);
    let changed = |changes: &[(usize, u8)]| {
        let mut bytes = types.bytes.to_vec();
        for (behind, byte) in changes {
            bytes[start + behind] = *byte;
        }
        bytes
    };
    let high = types.bytes[start];
    let low = types.bytes[start + 1];
    let mut damaged = vec![
        (changed(&[(0, high | 0x80)]), 3, start),
        (changed(&[(1, low | 1)]), 4, start),
        (changed(&[(0, 0), (1, 2)]), 4, start),
        (changed(&[(0, 0x7F), (1, 0xFE)]), 4, start),
        (changed(&[(3, 0x32)]), 5, start + 3),
    ];
    for (changes, number, behind) in body_changes(of.code) {
        damaged.push((changed(changes), *number, start + behind));
    }
    if types.name(row).is_some() {
        let rest = usize::from(of.name_place) - 1;
        damaged.push((changed(&[(rest - start, 0xFF)]), 11, rest));
    }
    damaged
}

/// What is changed behind the header of a descriptor of this code.
fn body_changes(code: u16) -> &'static [Change] {
    match code {
        0x15..=0x17 => &[
            (&[(0, 0), (1, 4)], 8, 4),
            (&[(0, 0), (1, 6)], 8, 6),
            (&[(4, 0), (5, 0)], 9, 4),
        ],
        0x19..=0x1E => &[
            (&[(0, 0), (1, 8)], 8, 8),
            (&[(4, 0), (5, 10)], 9, 4),
            (&[(7, 9)], 10, 6),
        ],
        0x30 => &[(&[(0, 0), (1, 6)], 8, 6), (&[(7, 0x7F)], 10, 4)],
        0x40 => &[
            (&[(0, 0), (1, 8)], 8, 8),
            (&[(4, 0), (5, 5)], 9, 4),
            (&[(7, 0)], 10, 6),
        ],
        0x50 => &[(&[(0, 0), (1, 4)], 8, 4), (&[(4, 0), (5, 0)], 9, 4)],
        // The subtype; other integers inside, or what is no integer.
        0x54 => &[
            (&[(0, 0), (1, 4)], 8, 4),
            (&[(5, 7)], 5, 3),
            (&[(15, 7)], 10, 0),
            (&[(27, 3)], 10, 0),
            (&[(19, 0x0A)], 10, 0),
        ],
        _ => &[],
    }
}

/// How many bytes the part's first piece has, which is refused as a whole.
fn piece(types: &Descriptor, part: &Part) -> usize {
    match types.rows[part.row].code {
        0x40 => 4 * part.sizes.len(),
        _ => part.bytes.len(),
    }
}

/// Copies of data that are refused in this part, with the numbers. A cluster and a
/// time stamp have no piece of their own.
pub fn of_part(
    random: &mut Random,
    types: &Descriptor,
    data: &[u8],
    order: Order,
    part: &Part,
) -> Vec<(Vec<u8>, u32)> {
    let start = part.bytes.start;
    let code = types.rows[part.row].code;
    if matches!(code, 0x50 | 0x54) {
        return Vec::new();
    }
    let kept = start + random.below(piece(types, part));
    let mut damaged = vec![(data[..kept].to_vec(), 21)];
    let mut word = |at: usize, bytes: Vec<u8>, number| {
        let mut copy = data.to_vec();
        let turned = bytes.iter().rev().copied().collect();
        let bytes: Vec<u8> = if order == Order::Big { bytes } else { turned };
        copy[at..at + bytes.len()].copy_from_slice(&bytes);
        damaged.push((copy, number));
    };
    match code {
        0x30 => word(start, vec![0x80, 0, 0, 0], 22),
        0x40 => {
            let size = random.below(part.sizes.len());
            word(start + 4 * size, vec![0xFF; 4], 22);
        }
        0x15..=0x17 => {
            let count = u32::from(types.rows[part.row].count).to_be_bytes();
            word(start, count[4 - part.bytes.len()..].to_vec(), 23);
        }
        _ => {}
    }
    damaged
}

/// Bytes with something changed, left out or added somewhere.
pub fn anywhere(random: &mut Random, bytes: &[u8]) -> Vec<u8> {
    let mut damaged = bytes.to_vec();
    let at = random.below(bytes.len());
    match random.below(5) {
        0 => damaged.truncate(at),
        1 => damaged.insert(at, random.byte()),
        2 => drop(damaged.remove(at)),
        3 => damaged[at] = random.byte(),
        _ => damaged[at] ^= 1 << random.below(8),
    }
    damaged
}
