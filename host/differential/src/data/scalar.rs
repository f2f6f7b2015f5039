//! Scalars: how wide they are, numbers that may go wrong, and the value that
//! document 01 gives to each.

use crate::random::Random;

/// How many bytes each number of a scalar has, and how many numbers there are.
pub fn numbers(code: u8) -> (usize, usize) {
    match code {
        0x01 | 0x05 | 0x15 | 0x21 => (1, 1),
        0x02 | 0x06 | 0x16 => (2, 1),
        0x03 | 0x07 | 0x17 | 0x09 | 0x19 => (4, 1),
        0x04 | 0x08 | 0x0A | 0x1A => (8, 1),
        0x0B | 0x1B => (16, 1),
        0x0C | 0x1C => (4, 2),
        0x0D | 0x1D => (8, 2),
        0x0E | 0x1E => (16, 2),
        _ => panic!("no scalar: {code:02X}"),
    }
}

pub fn width(code: u8) -> usize {
    let (bytes, count) = numbers(code);
    bytes * count
}

/// A value's kind and bits, where the code is that of a single number.
pub type Value = Option<(u32, u64)>;

/// The value of a scalar's big-endian bytes.
pub fn value(code: u8, bytes: &[u8]) -> Value {
    let kind = match code {
        0x05..=0x08 | 0x15..=0x17 => 1,
        0x01..=0x04 => 2,
        0x09 | 0x19 => 3,
        0x0A | 0x1A => 4,
        0x21 => 5,
        _ => return None,
    };
    let places = bytes.iter().rev().zip(0..);
    let number: i128 = places
        .map(|(&byte, place)| i128::from(byte) << (8 * place))
        .sum();
    let number = match kind {
        2 if bytes[0] >= 0x80 => number - (1 << (8 * bytes.len())),
        5 => i128::from(number != 0),
        _ => number,
    };
    Some((kind, number as u64))
}

/// The numbers of this many bytes at which a reading may go wrong: the ends of
/// both ranges, ones that no palindrome hides, and the patterns of zeros,
/// infinities and NaNs.
pub fn edges(bytes: usize) -> Vec<Vec<u8>> {
    let rising: Vec<u8> = (1..=bytes as u8).collect();
    let falling: Vec<u8> = (0..bytes as u8).map(|byte| 0xFE - byte).collect();
    let mut edges = vec![vec![0; bytes], vec![0xFF; bytes], rising, falling];
    for (first, others, last) in [
        (0x00, 0x00, 0x01),
        (0x7F, 0xFF, 0xFF),
        (0x80, 0x00, 0x00),
        (0x80, 0x00, 0x01),
        (0xFF, 0xFF, 0xFE),
    ] {
        let mut edge = vec![others; bytes];
        edge[0] = first;
        if bytes > 1 {
            edge[bytes - 1] = last;
        }
        edges.push(edge);
    }
    edges.extend(float_edges(bytes));
    edges
}

/// Infinities, quiet and signalling NaNs with and without more bits, and the
/// numbers next to them and to zero.
fn float_edges(bytes: usize) -> Vec<Vec<u8>> {
    match bytes {
        4 => [
            0x7F80_0000u32,
            0xFF80_0000,
            0x7FC0_0000,
            0xFFC0_0000,
            0x7F80_0001,
            0xFF80_0001,
            0x7FFF_FFFF,
            0x7F7F_FFFF,
            0x0080_0000,
            0x007F_FFFF,
            0x3F80_0000,
        ]
        .map(|bits| bits.to_be_bytes().to_vec())
        .to_vec(),
        8 => [
            0x7FF0_0000_0000_0000u64,
            0xFFF0_0000_0000_0000,
            0x7FF8_0000_0000_0000,
            0xFFF8_0000_0000_0000,
            0x7FF0_0000_0000_0001,
            0xFFF0_0000_0000_0001,
            0x7FFF_FFFF_FFFF_FFFF,
            0x7FEF_FFFF_FFFF_FFFF,
            0x0010_0000_0000_0000,
            0x000F_FFFF_FFFF_FFFF,
            0x3FD0_0000_0000_0000,
        ]
        .map(|bits| bits.to_be_bytes().to_vec())
        .to_vec(),
        _ => Vec::new(),
    }
}

/// A number of this many bytes, now and then one of the edges.
pub fn any(random: &mut Random, bytes: usize) -> Vec<u8> {
    if !random.once_in(4) {
        return random.bytes(bytes);
    }
    let mut edges = edges(bytes);
    edges.swap_remove(random.below(edges.len()))
}
