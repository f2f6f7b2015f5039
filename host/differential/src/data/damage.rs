//! Damaged copies of well-formed data, in both byte orders, and the answer where
//! the fault alone decides it.

use reference::{Answer, MOST_DATA};

use super::both::Both;
use super::fill::{Flattened, Of, Piece};
use crate::answers::{accepted, refused};
use crate::random::Random;

/// Lengths and sizes that are seldom right.
const WORDS: [u32; 8] = [
    0,
    1,
    0xFFFF,
    0x1_0000,
    0x7FFF_FFFF,
    0x8000_0000,
    0x8000_0001,
    0xFFFF_FFFF,
];

/// Damaged data, and the bytes that a read past its end would find.
pub struct Damaged {
    pub data: Both,
    pub beyond: Vec<u8>,
    pub answer: Option<Answer>,
}

/// A copy with one fault.
pub fn damage(random: &mut Random, flattened: &Flattened) -> Damaged {
    let piece = random.pick(&flattened.pieces);
    match random.below(12) {
        0 => blind(random, &flattened.data),
        1 => moved(random, &flattened.data),
        2 => added(random, &flattened.data),
        3 | 4 => cut(random, flattened, &piece),
        _ => aimed(random, flattened, &piece),
    }
}

fn unknown(data: Both) -> Damaged {
    Damaged {
        data,
        beyond: Vec::new(),
        answer: None,
    }
}

/// A byte changed in each order, not necessarily to the same effect.
fn blind(random: &mut Random, data: &Both) -> Damaged {
    let mut data = data.clone();
    let place = random.below(data.len());
    for bytes in [&mut data.big, &mut data.little] {
        bytes[place] = match random.once_in(2) {
            true => random.byte(),
            false => bytes[place] ^ 1 << random.below(8),
        };
    }
    unknown(data)
}

/// Some bytes put in or taken out.
fn moved(random: &mut Random, data: &Both) -> Damaged {
    let mut data = data.clone();
    let place = random.below(data.len());
    let length = random.between(1, 4);
    let taken_out = random.once_in(2);
    for bytes in [&mut data.big, &mut data.little] {
        match taken_out {
            true => drop(bytes.drain(place..(place + length).min(bytes.len()))),
            false => drop(bytes.splice(place..place, random.bytes(length))),
        }
    }
    unknown(data)
}

/// Some bytes behind the data.
fn added(random: &mut Random, data: &Both) -> Damaged {
    let mut longer = data.clone();
    let length = random.between(1, 9);
    longer.push_plain(&random.bytes(length));
    let answer = match longer.len() > MOST_DATA {
        true => refused(20, 0),
        false => refused(25, data.len()),
    };
    Damaged {
        answer: Some(answer),
        ..unknown(longer)
    }
}

/// The end cut off, where the piece starts or inside it; a read past the cut
/// would find what was there.
fn cut(random: &mut Random, flattened: &Flattened, piece: &Piece) -> Damaged {
    let place = piece.start + random.below(piece.length);
    Damaged {
        data: flattened.data.cut(place),
        beyond: flattened.data.big[place..].to_vec(),
        answer: Some(refused(21, piece.start)),
    }
}

/// A piece with another number in it: at a limit, one past it or far beyond.
fn aimed(random: &mut Random, flattened: &Flattened, piece: &Piece) -> Damaged {
    let mut data = flattened.data.clone();
    let accepted = accepted(flattened.pieces.len());
    let answer = match piece.of {
        Of::Numbers(bytes) => {
            data.set_number(piece.start, &random.bytes(bytes));
            Some(accepted)
        }
        Of::Enumeration(items) => {
            let over = set_enumeration(random, &mut data, piece, items as u32);
            Some(if over {
                refused(23, piece.start)
            } else {
                accepted
            })
        }
        Of::Text => set_length(random, &mut data, piece),
        Of::Sizes => set_size(random, &mut data, piece),
    };
    Damaged {
        answer,
        ..unknown(data)
    }
}

/// Another number for an enumeration. Returns whether it is too high.
fn set_enumeration(random: &mut Random, data: &mut Both, piece: &Piece, items: u32) -> bool {
    let high = [0, items << 8, items << 16, 0x8000_0000];
    let choices = [
        0,
        items - 1,
        items,
        items,
        items + 1,
        u32::MAX,
        random.pick(&high),
    ];
    let number = &random.pick(&choices).to_be_bytes()[4 - piece.length..];
    data.set_number(piece.start, number);
    let read = number
        .iter()
        .fold(0, |read, &byte| read * 256 + u32::from(byte));
    read >= items
}

/// Another length for a string. The answer is known where it runs past the end.
fn set_length(random: &mut Random, data: &mut Both, piece: &Piece) -> Option<Answer> {
    let length = (piece.length - 4) as u32;
    let word = match random.below(4) {
        0 => length + 1,
        1 => length.saturating_sub(1),
        _ => random.pick(&WORDS),
    };
    data.set_number(piece.start, &word.to_be_bytes());
    let behind = data.len() - piece.start - 4;
    match word {
        0x8000_0000.. => Some(refused(22, piece.start)),
        _ if word as usize > behind => Some(refused(21, piece.start)),
        _ => None,
    }
}

/// Another size for an array. The answer is known where the size is too high.
fn set_size(random: &mut Random, data: &mut Both, piece: &Piece) -> Option<Answer> {
    let place = piece.start + 4 * random.below(piece.length / 4);
    let size = data.big[place..]
        .first_chunk()
        .map(|word| u32::from_be_bytes(*word))?;
    let word = match random.below(4) {
        0 => size.wrapping_add(1),
        1 => size.wrapping_sub(1),
        _ => random.pick(&WORDS),
    };
    data.set_number(place, &word.to_be_bytes());
    (word >= 0x8000_0000).then(|| refused(22, piece.start))
}
