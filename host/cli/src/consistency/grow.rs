//! Descriptors and data at random, all of them accepted.

use crate::descriptor::Descriptor;

/// A small source of repeatable numbers (splitmix64).
pub struct Random {
    state: u64,
}

impl Random {
    pub fn new(seed: u64) -> Random {
        Random { state: seed }
    }

    pub fn next(&mut self) -> u64 {
        self.state = self.state.wrapping_add(0x9E37_79B9_7F4A_7C15);
        let mut mixed = self.state;
        mixed = (mixed ^ (mixed >> 30)).wrapping_mul(0xBF58_476D_1CE4_E5B9);
        mixed = (mixed ^ (mixed >> 27)).wrapping_mul(0x94D0_49BB_1331_11EB);
        mixed ^ (mixed >> 31)
    }

    /// A number below the limit, which is not 0.
    pub fn below(&mut self, limit: usize) -> usize {
        (self.next() % limit as u64) as usize
    }

    pub fn byte(&mut self) -> u8 {
        self.next() as u8
    }

    /// A time stamp, in units of 2^-64 second.
    pub fn stamp(&mut self) -> i128 {
        (i128::from(self.next()) << 64 | i128::from(self.next())) >> self.below(90)
    }

    fn bytes(&mut self, length: usize) -> Vec<u8> {
        (0..length).map(|_| self.byte()).collect()
    }
}

/// A descriptor that the library accepts.
pub fn types(random: &mut Random) -> Vec<u8> {
    loop {
        let bytes = descriptor(random, 1, false);
        if kerbcanopy::check_descriptor(&bytes).answer.number == 0 {
            return bytes;
        }
    }
}

const PLAIN: [u8; 15] = [1, 2, 3, 4, 5, 6, 7, 8, 9, 10, 11, 12, 13, 14, 0x21];

/// A time stamp's descriptor, without a name.
pub const STAMP: &[u8] = b"\x00\x1C\x00\x54\x00\x06\x00\x16\x00\x50\x00\x04\
    \x00\x04\x00\x03\x00\x04\x00\x03\x00\x04\x00\x07\x00\x04\x00\x07";

/// What stands behind its code, any reserved bytes in it.
fn stamp(random: &mut Random) -> Vec<u8> {
    let mut body = STAMP[4..].to_vec();
    for reserved in [4, 10, 14, 18, 22] {
        body[reserved] = random.byte();
    }
    body
}

fn descriptor(random: &mut Random, depth: usize, in_array: bool) -> Vec<u8> {
    let choices = if depth == 1 { 10 } else { 20 };
    let (code, body) = match random.below(choices) {
        0..5 if depth < 6 => (0x50, cluster(random, depth)),
        5..8 if depth < 6 && !in_array => (0x40, array(random, depth)),
        8..10 => (0x15 + random.below(3) as u8, items(random)),
        10 | 11 => (0x19 + random.below(6) as u8, pairs(random)),
        12 | 13 => (0x30, vec![0xFF; 4]),
        14 | 15 => (0x54, stamp(random)),
        _ => (PLAIN[random.below(PLAIN.len())], Vec::new()),
    };
    let mut bytes = vec![0, 0, random.byte(), code];
    bytes.extend(body);
    bytes.extend(name(random));
    let size = (bytes.len() as u16).to_be_bytes();
    bytes[..2].copy_from_slice(&size);
    bytes
}

fn cluster(random: &mut Random, depth: usize) -> Vec<u8> {
    let count = 1 + random.below(5);
    let mut body = vec![0, count as u8];
    for _ in 0..count {
        body.extend(descriptor(random, depth + 1, false));
    }
    body
}

fn array(random: &mut Random, depth: usize) -> Vec<u8> {
    let dimensions = 1 + random.below(3);
    let mut body = vec![0, dimensions as u8];
    body.extend(vec![0xFF; 4 * dimensions]);
    body.extend(descriptor(random, depth + 1, true));
    body
}

fn items(random: &mut Random) -> Vec<u8> {
    let count = 1 + random.below(4);
    let mut body = vec![0, count as u8];
    for _ in 0..count {
        let length = random.below(7);
        body.push(length as u8);
        body.extend(random.bytes(length));
    }
    body.resize(body.len().next_multiple_of(2), 0);
    body
}

fn pairs(random: &mut Random) -> Vec<u8> {
    let count = 1 + random.below(3);
    let mut body = vec![0, count as u8];
    for _ in 0..count {
        body.extend([0, random.below(9) as u8]);
        body.extend(random.bytes(2));
    }
    body
}

/// No name, an empty one, one of a few that meet again, or any.
fn name(random: &mut Random) -> Vec<u8> {
    let name = match random.below(6) {
        0 | 1 => return Vec::new(),
        2 => Vec::new(),
        3 => vec![b'a' + random.below(3) as u8],
        4 => random.below(10).to_string().into_bytes(),
        _ => {
            let length = random.below(9);
            random.bytes(length)
        }
    };
    let mut bytes = vec![name.len() as u8];
    bytes.extend(name);
    bytes.resize(bytes.len().next_multiple_of(2), 0);
    bytes
}

/// Data that the library accepts under this descriptor.
pub fn data(random: &mut Random, types: &Descriptor) -> Vec<u8> {
    let mut bytes = Vec::new();
    value(random, types, 0, &mut bytes);
    let answer = kerbcanopy::check_data(types.bytes, &bytes);
    assert_eq!(answer.number, 0, "{:02X?}", types.bytes);
    bytes
}

fn value(random: &mut Random, types: &Descriptor, row: usize, bytes: &mut Vec<u8>) {
    let of = &types.rows[row];
    // What is long already grows no further.
    let much = bytes.len() > 2000;
    match of.code {
        0x50 | 0x54 => {
            for member in types.inside(row) {
                value(random, types, member, bytes);
            }
        }
        0x40 => {
            let most = if much {
                1
            } else {
                [12, 4, 3][usize::from(of.count) - 1]
            };
            let sizes: Vec<u32> = (0..of.count).map(|_| random.below(most) as u32).collect();
            bytes.extend(sizes.iter().flat_map(|size| size.to_be_bytes()));
            for _ in 0..sizes.iter().product() {
                value(random, types, row + 1, bytes);
            }
        }
        0x30 => {
            let length = if much {
                0
            } else {
                [0, 3, 9, 70][random.below(4)]
            };
            bytes.extend((length as u32).to_be_bytes());
            bytes.extend(random.bytes(length));
        }
        _ => scalar(random, types, row, bytes),
    }
}

fn scalar(random: &mut Random, types: &Descriptor, row: usize, bytes: &mut Vec<u8>) {
    let width = types.width(row).expect("it is a scalar");
    match types.rows[row].code {
        0x21 => bytes.push([0, 1, random.byte()][random.below(3)]),
        0x15..=0x17 => {
            let item = random.below(usize::from(types.rows[row].count)) as u32;
            bytes.extend(&item.to_be_bytes()[4 - width..]);
        }
        _ => bytes.extend(random.bytes(width)),
    }
}
