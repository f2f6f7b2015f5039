//! Descriptors with one fault that the generator put there, so that it knows number
//! and place, and others in front of it, behind it and around it.

use super::damage::{FOREIGN, counts};
use crate::grow;
use crate::random::Random;
use crate::stamp::{self, SUBTYPES};
use crate::tree::{Body, Encoded, Tree};

/// The bytes up to their first fault are in order.
pub struct Fault {
    pub bytes: Vec<u8>,
    pub number: u32,
    pub place: usize,
    /// How many levels they have.
    levels: usize,
}

const DEEPEST: usize = 8;
const ENUMERATIONS: [u8; 3] = [0x15, 0x16, 0x17];
const QUANTITIES: [u8; 6] = [0x19, 0x1A, 0x1B, 0x1C, 0x1D, 0x1E];

/// A fault with 5 or 8 to 11 at any depth.
pub fn any(random: &mut Random) -> Fault {
    let mut fault = match random.below(10) {
        0 => foreign(random),
        1..4 => cut(random),
        4 => miscounted(random),
        5..8 => misworded(random),
        _ => misnamed(random),
    };
    for _ in 0..random.below(DEEPEST + 1 - fault.levels) {
        fault = fault.inside(random);
    }
    if random.once_in(4) {
        let length = random.between(1, 3);
        fault.bytes.extend(random.bytes(length));
    }
    fault
}

impl Fault {
    fn new(bytes: Vec<u8>, number: u32, place: usize) -> Fault {
        Fault {
            bytes,
            number,
            place,
            levels: 1,
        }
    }

    /// The same as an element, in a time stamp or as a member among others.
    fn inside(self, random: &mut Random) -> Fault {
        let (code, before) = match random.below(6) {
            0 | 1 if self.bytes[3] != 0x40 => {
                let dimensions = random.between(1, 4);
                (0x40, words(dimensions, &[0xFF; 4]))
            }
            2 | 3 => (0x54, vec![0, 6]),
            _ => return self.among(random),
        };
        self.between(random, code, &before, &[])
    }

    fn among(self, random: &mut Random) -> Fault {
        let [before, behind] = [(); 2].map(|()| random.below(3));
        let mut others = |count| -> Vec<u8> {
            let other = |_| grow::flat(random).encode(&mut || random.byte()).bytes;
            (0..count).flat_map(other).collect()
        };
        let [first, last] = [before, behind].map(&mut others);
        let count = (before + 1 + behind) as u16;
        let first = [&count.to_be_bytes(), &first[..]].concat();
        self.between(random, 0x50, &first, &last)
    }

    /// In a descriptor of this code, between these bytes and perhaps more.
    fn between(self, random: &mut Random, code: u8, before: &[u8], behind: &[u8]) -> Fault {
        let body = [before, &self.bytes, behind, &more(random)].concat();
        Fault {
            bytes: whole(random, code, &body),
            place: 4 + before.len() + self.place,
            levels: self.levels + 1,
            ..self
        }
    }
}

/// A descriptor whose size fits its body.
fn whole(random: &mut Random, code: u8, body: &[u8]) -> Vec<u8> {
    let size = (4 + body.len()) as u16;
    [&size.to_be_bytes(), &[random.byte(), code], body].concat()
}

/// Nothing, or a few bytes that may be a name.
fn more(random: &mut Random) -> Vec<u8> {
    let length = 2 * random.pick(&[0, 0, 0, 1, 2, 4]);
    match random.once_in(2) {
        true => vec![0; length],
        false => random.bytes(length),
    }
}

/// A count and that many of this word.
fn words(count: usize, word: &[u8; 4]) -> Vec<u8> {
    [&(count as u16).to_be_bytes(), &word.repeat(count)[..]].concat()
}

/// 5 for a code or a subtype.
fn foreign(random: &mut Random) -> Fault {
    let more = more(random);
    let bytes = match random.once_in(2) {
        true => {
            let code = random.pick(&FOREIGN);
            whole(random, code, &more)
        }
        false => {
            let subtype = random.pick(&SUBTYPES).to_be_bytes();
            whole(random, 0x54, &[&subtype, &more[..]].concat())
        }
    };
    Fault::new(bytes, 5, 3)
}

/// 8: a body without its end, which may have more wrong in it.
fn cut(random: &mut Random) -> Fault {
    let (code, mut body, least) = match random.below(7) {
        0 => (random.pick(&[0x15, 0x19, 0x1E, 0x40, 0x50]), vec![0, 1], 0),
        1 => (0x54, vec![0, 6], 0),
        2 => (0x30, vec![0xFF; 4], 0),
        3 => {
            let count = random.between(1, 9);
            let word = [0, random.pick(&[8, 9]), 0, 1];
            (random.pick(&QUANTITIES), words(count, &word), 2)
        }
        4 => {
            let count = random.between(1, 4);
            (
                0x40,
                words(count, &[0xFF, 0xFF, 0xFF, random.pick(&[0xFE, 0xFF])]),
                2,
            )
        }
        _ => (random.pick(&ENUMERATIONS), items(random), 2),
    };
    // An odd end would make the size odd.
    let ends = (body.len() - least).div_ceil(2);
    body.truncate(least + 2 * random.below(ends));
    let bytes = whole(random, code, &body);
    let end = bytes.len();
    Fault::new(bytes, 8, end)
}

/// A count and that many items, packed.
fn items(random: &mut Random) -> Vec<u8> {
    let count = random.between(1, 5);
    let mut packed = vec![0, count as u8];
    for _ in 0..count {
        let length = random.pick(&[0, 0, 1, 2, 5]);
        packed.push(length as u8);
        packed.extend(random.bytes(length));
    }
    packed
}

/// 9.
fn miscounted(random: &mut Random) -> Fault {
    let code = random.pick(&[0x15, 0x16, 0x17, 0x19, 0x1E, 0x40, 0x50]);
    let most = match code {
        0x19..=0x1E => 9,
        0x40 => 4,
        _ => u16::MAX,
    };
    let outside = counts(u16::from(code)).iter().copied();
    let outside: Vec<u16> = outside
        .filter(|count| *count == 0 || *count > most)
        .collect();
    let count = random.pick(&outside).to_be_bytes();
    let body = [&count, &more(random)[..]].concat();
    Fault::new(whole(random, code, &body), 9, 4)
}

/// 10.
fn misworded(random: &mut Random) -> Fault {
    match random.below(6) {
        0 => {
            let mut word = [0xFF; 4];
            word[random.below(4)] = random.pick(&[0, 0x7F, 0xFE]);
            let body = [&word, &more(random)[..]].concat();
            Fault::new(whole(random, 0x30, &body), 10, 4)
        }
        1 => wrong_words(random, 0x40, 4, [0xFF; 4]),
        2 => {
            let code = random.pick(&QUANTITIES);
            wrong_words(random, code, 9, [0, 8, 0, 1])
        }
        3 => wrong_fill(random),
        4 => array_in_array(random),
        _ => wrong_stamp(random),
    }
}

/// Right words, then a wrong one, then any.
fn wrong_words(random: &mut Random, code: u8, most: usize, right: [u8; 4]) -> Fault {
    let count = match random.once_in(2) {
        true => most,
        false => random.between(1, most),
    };
    let first = random.below(count);
    let mut body = words(count, &right);
    for index in first..count {
        if index == first || random.once_in(2) {
            // Either byte makes a base index too high and a dimension wrong.
            body[2 + 4 * index + random.below(2)] = random.pick(&[9, 0x7F, 0xFE]);
        }
    }
    body.extend(whole(random, 0x03, &[]));
    body.extend(more(random));
    Fault::new(whole(random, code, &body), 10, 6 + 4 * first)
}

fn wrong_fill(random: &mut Random) -> Fault {
    let mut body = items(random);
    if body.len().is_multiple_of(2) {
        // One item more.
        body[1] += 1;
        body.push(0);
    }
    let place = 4 + body.len();
    body.push(random.pick(&[1, 2, 0x80, 0xFF]));
    body.extend(more(random));
    let code = random.pick(&ENUMERATIONS);
    Fault::new(whole(random, code, &body), 10, place)
}

/// The body of the inner one does not matter.
fn array_in_array(random: &mut Random) -> Fault {
    let more = more(random);
    let inner = Fault::new(whole(random, 0x40, &more), 10, 3);
    let count = random.between(1, 4);
    inner.between(random, 0x40, &words(count, &[0xFF; 4]), &[])
}

/// Something else in a time stamp.
fn wrong_stamp(random: &mut Random) -> Fault {
    let stamp = Tree::unnamed(Body::Stamp(6, Box::new(stamp::other(random))));
    let Encoded { bytes, rows } = stamp.encode(&mut || random.byte());
    let body = [&bytes[4..], &more(random)].concat();
    Fault {
        levels: levels(&rows),
        ..Fault::new(whole(random, 0x54, &body), 10, 0)
    }
}

fn levels(rows: &[[u16; 7]]) -> usize {
    let deepest = rows.iter().map(|row| row[3]).max();
    usize::from(deepest.unwrap_or(1))
}

/// 11: a descriptor in order, and what is no name behind its body.
fn misnamed(random: &mut Random) -> Fault {
    let tree = match random.once_in(2) {
        true => grow::flat(random),
        false => grow::small(random),
    };
    let tree = Tree::unnamed(tree.body);
    let Encoded { bytes, rows } = tree.encode(&mut || random.byte());
    let body = [&bytes[4..], &no_name(random)].concat();
    Fault {
        levels: levels(&rows),
        ..Fault::new(whole(random, bytes[3], &body), 11, bytes.len())
    }
}

/// Too short for its length, with a wrong fill byte, with more behind it, or a
/// member more than counted.
fn no_name(random: &mut Random) -> Vec<u8> {
    match random.below(4) {
        0 => vec![random.pick(&[2, 3, 254, 255]), random.byte()],
        1 => {
            let length = 2 * random.below(3);
            let name = random.bytes(length);
            [&[length as u8], &name[..], &[random.pick(&[1, 0x80, 0xFF])]].concat()
        }
        2 => vec![random.pick(&[0, 1]), 0, 0, 0],
        _ => whole(random, 0x03, &[]),
    }
}
