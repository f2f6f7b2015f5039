//! Descriptors and data by chance, the same in every run.

use super::{Type, numbers, stamp};

/// A xorshift.
pub struct Random(pub u64);

impl Random {
    pub fn next(&mut self) -> u64 {
        self.0 ^= self.0 << 13;
        self.0 ^= self.0 >> 7;
        self.0 ^= self.0 << 17;
        self.0.wrapping_mul(0x2545_F491_4F6C_DD1D) >> 16
    }

    /// A number below `end`.
    pub fn below(&mut self, end: usize) -> usize {
        (self.next() % end as u64) as usize
    }

    /// Yes, once in so many times.
    pub fn once_in(&mut self, times: usize) -> bool {
        self.below(times) == 0
    }

    pub fn byte(&mut self) -> u8 {
        [0, 1, 2, 0x7F, 0x80, 0xFF, self.next() as u8][self.below(7)]
    }
}

const SCALARS: [u8; 24] = [
    0x01, 0x02, 0x03, 0x04, 0x05, 0x06, 0x07, 0x08, 0x09, 0x0A, 0x0B, 0x0C, 0x0D, 0x0E, 0x15, 0x16,
    0x17, 0x19, 0x1A, 0x1B, 0x1C, 0x1D, 0x1E, 0x21,
];

/// A type of at most so many levels.
pub fn any_type(random: &mut Random, levels: usize) -> Type {
    match random.below(11) {
        0..=2 if levels > 1 => array(random, levels),
        3..=5 if levels > 1 => cluster(random, levels),
        6 => Type::Text,
        7 if levels > 2 => stamp(),
        _ => scalar(random),
    }
}

fn scalar(random: &mut Random) -> Type {
    // Those that can be refused, and Booleans, come more often.
    let code = match random.below(4) {
        0 => [0x15, 0x16, 0x17, 0x21][random.below(4)],
        _ => SCALARS[random.below(SCALARS.len())],
    };
    let items = match code {
        0x15..=0x17 => [1, 2, 3, 5, 255, 256, 257][random.below(7)],
        _ => 0,
    };
    Type::Scalar { code, items }
}

fn array(random: &mut Random, levels: usize) -> Type {
    let element = match any_type(random, levels - 1) {
        Type::Array { .. } => cluster(random, levels - 1),
        element => element,
    };
    Type::Array {
        dimensions: 1 + random.below(2) * random.below(4),
        element: Box::new(element),
    }
}

fn cluster(random: &mut Random, levels: usize) -> Type {
    if levels == 1 {
        return scalar(random);
    }
    let members = 1 + random.below(4);
    let members = (0..members).map(|_| any_type(random, levels - 1));
    Type::Cluster(members.collect())
}

/// The type's descriptor, with a reserved byte and a name by chance.
pub fn encode(of: &Type, random: &mut Random) -> Vec<u8> {
    let mut bytes = vec![0, 0, random.byte(), 0];
    match of {
        Type::Scalar { code, items } => {
            bytes[3] = *code;
            match code {
                0x15..=0x17 => bytes.extend(enumeration(*items, random)),
                0x19..=0x1E => bytes.extend([0, 1, 0, 8, 0xFF, 0xFE]),
                _ => {}
            }
        }
        Type::Text => {
            bytes[3] = 0x30;
            bytes.extend([0xFF; 4]);
        }
        Type::Array {
            dimensions,
            element,
        } => {
            bytes[3] = 0x40;
            bytes.extend([0, *dimensions as u8]);
            bytes.extend([0xFF; 4].repeat(*dimensions));
            bytes.extend(encode(element, random));
        }
        Type::Cluster(members) => {
            bytes[3] = 0x50;
            bytes.extend([0, members.len() as u8]);
            members
                .iter()
                .for_each(|member| bytes.extend(encode(member, random)));
        }
        Type::Stamp(_) => {
            bytes[3] = 0x54;
            bytes.extend([0, 6, 0, 0x16, random.byte(), 0x50, 0, 4]);
            for code in [0x03, 0x03, 0x07, 0x07] {
                bytes.extend([0, 4, random.byte(), code]);
            }
        }
    }
    name(&mut bytes, random);
    let size = (bytes.len() as u16).to_be_bytes();
    bytes[..2].copy_from_slice(&size);
    bytes
}

fn enumeration(items: u32, random: &mut Random) -> Vec<u8> {
    let mut body = (items as u16).to_be_bytes().to_vec();
    for _ in 0..items {
        let length = if items < 9 { random.below(3) } else { 0 };
        body.push(length as u8);
        body.extend(vec![b'i'; length]);
    }
    body.resize(body.len().next_multiple_of(2), 0);
    body
}

fn name(bytes: &mut Vec<u8>, random: &mut Random) {
    if random.once_in(3) {
        let length = random.below(5);
        bytes.push(length as u8);
        bytes.extend(vec![b'n'; length]);
        bytes.resize(bytes.len().next_multiple_of(2), 0);
    }
}

/// Data for a type, now and then with something wrong in it. A size is below
/// `sizes` unless it is wrong.
pub fn any_data(of: &Type, random: &mut Random, sizes: usize, data: &mut Vec<u8>) {
    if data.len() > 70_000 {
        return;
    }
    match of {
        Type::Scalar { code, items } => any_scalar(*code, *items, random, data),
        Type::Text => {
            let end = [5, 5, 5, 90][random.below(4)];
            let length = random.below(end);
            word(length, random, data);
            data.extend((0..length).map(|_| random.byte()));
        }
        Type::Array {
            dimensions,
            element,
        } => {
            let mut count = 1;
            for _ in 0..*dimensions {
                let size = random.below(sizes);
                word(size, random, data);
                count *= size;
            }
            for _ in 0..count {
                any_data(element, random, sizes.min(5), data);
            }
        }
        Type::Cluster(members) => members
            .iter()
            .for_each(|member| any_data(member, random, sizes, data)),
        Type::Stamp(cluster) => any_data(cluster, random, sizes, data),
    }
}

fn any_scalar(code: u8, items: u32, random: &mut Random, data: &mut Vec<u8>) {
    let (width, count) = numbers(code);
    let most = match code {
        0x15 => items.min(256),
        0x16 | 0x17 => items,
        _ => {
            data.extend((0..width * count).map(|_| random.byte()));
            return;
        }
    };
    let wrong = random.once_in(300);
    let number = random.below(most as usize) as u32 + if wrong { most } else { 0 };
    data.extend(&number.to_be_bytes()[4 - width..]);
}

/// A length or size word, now and then another one.
fn word(number: usize, random: &mut Random, data: &mut Vec<u8>) {
    let number = match random.below(150) {
        0 => 0x7FFF_FFFF,
        1 => 0x8000_0000,
        2 => number as u32 + 1,
        3 => random.next() as u32,
        _ => number as u32,
    };
    data.extend(number.to_be_bytes());
}

/// A byte of a descriptor changed, mostly to one that has a meaning, or its end cut
/// off or lengthened.
pub fn spoil_descriptor(descriptor: &mut Vec<u8>, random: &mut Random) {
    let meant = [
        0, 1, 2, 4, 5, 6, 8, 9, 10, 0x15, 0x19, 0x30, 0x40, 0x50, 0x54, 0xFE,
    ];
    let place = random.below(descriptor.len());
    match random.below(12) {
        0 => descriptor.truncate(place.max(1)),
        1 => descriptor.push(random.byte()),
        2 | 3 => descriptor[place] = random.byte(),
        _ => descriptor[place] = meant[random.below(meant.len())],
    }
}

/// Cuts, lengthens or changes data by chance.
pub fn spoil(data: &mut Vec<u8>, random: &mut Random) {
    match random.below(10) {
        0..=1 => data.truncate(random.below(data.len() + 1)),
        2 => data.extend(vec![random.byte(); 1 + random.below(3)]),
        3 if !data.is_empty() => {
            let place = random.below(data.len());
            data[place] = random.byte();
        }
        4 if random.once_in(5) => data.iter_mut().for_each(|byte| *byte = random.byte()),
        _ => {}
    }
}
