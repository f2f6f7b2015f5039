//! One case: a descriptor, data in both byte orders, paths to ask about, and
//! what the generator knows of the answers.

use reference::{Answer, MOST_DATA};

use super::ask::{self, Ask};
use super::both::Both;
use super::damage::damage;
use super::fill::{self, Flattened, Part, Piece};
use super::limits::Limit;
use crate::answers::{accepted, refused};
use crate::descriptor::damage::damage as damage_descriptor;
use crate::grow;
use crate::kind::Kind;
use crate::random::Random;
use crate::tight;
use crate::tree::{Body, Tree, fits};

pub struct Case {
    pub kind: Kind,
    pub what: String,
    pub descriptor: Vec<u8>,
    /// The data; the second goes to the way back from little-endian.
    pub data: Both,
    /// What a read past the end of the data would find in place of a guard.
    pub beyond: Vec<u8>,
    pub asks: Vec<Ask>,
    /// The pieces and parts that the generator knows.
    pub pieces: Vec<Piece>,
    pub parts: Vec<Part>,
    /// The answer to the check of both, where the generator knows it.
    pub answer: Option<Answer>,
}

impl Case {
    /// The case of a limit.
    pub fn of_limit(limit: &Limit, random: &mut Random) -> Case {
        Case {
            what: limit.what.clone(),
            answer: Some(limit.answer),
            ..bare(
                Kind::DataLimit,
                limit.descriptor.clone(),
                limit.data.clone(),
                [limit.asks.clone(), ask::small(random)].concat(),
            )
        }
    }

    /// A case by chance.
    pub fn any(random: &mut Random) -> Case {
        if random.once_in(400) {
            return long(random);
        }
        let tree = match random.once_in(4) {
            true => tight::for_data(random),
            false => grow::for_data(random),
        };
        let descriptor = tree.encode(&mut || random.byte()).bytes;
        match random.below(20) {
            0..7 => flattened(random, &tree, descriptor),
            7..15 => damaged(random, &tree, descriptor),
            15..18 => stray(random, descriptor),
            _ => misread(random, &tree),
        }
    }
}

/// A case of which nothing is known.
fn bare(kind: Kind, descriptor: Vec<u8>, data: Both, asks: Vec<Ask>) -> Case {
    Case {
        kind,
        what: kind.words().into(),
        descriptor,
        data,
        beyond: Vec::new(),
        asks,
        pieces: Vec::new(),
        parts: Vec::new(),
        answer: None,
    }
}

/// How long the data may be; seldom very long, since that takes its time.
fn length(random: &mut Random) -> usize {
    match random.below(400) {
        0 => MOST_DATA,
        1..6 => 10_000,
        _ => random.pick(&[0, 20, 60, 60, 200, 200, 600, 2000]),
    }
}

fn fill(random: &mut Random, tree: &Tree) -> Flattened {
    let most = length(random);
    fill::fill(random, tree, most)
}

/// Well-formed data, which is accepted unless it is too long.
fn known(random: &mut Random, kind: Kind, descriptor: Vec<u8>, flattened: Flattened) -> Case {
    let answer = match flattened.data.len() > MOST_DATA {
        true => refused(20, 0),
        false => accepted(flattened.pieces.len()),
    };
    let asks = ask::known(random, &flattened.parts);
    Case {
        answer: Some(answer),
        pieces: flattened.pieces,
        parts: flattened.parts,
        ..bare(kind, descriptor, flattened.data, asks)
    }
}

fn flattened(random: &mut Random, tree: &Tree, descriptor: Vec<u8>) -> Case {
    let flattened = fill(random, tree);
    known(random, Kind::Flattened, descriptor, flattened)
}

fn damaged(random: &mut Random, tree: &Tree, descriptor: Vec<u8>) -> Case {
    let flattened = fill(random, tree);
    faulty(random, descriptor, flattened)
}

fn faulty(random: &mut Random, descriptor: Vec<u8>, flattened: Flattened) -> Case {
    let damaged = damage(random, &flattened);
    let asks = ask::unknown(random, &flattened.parts);
    Case {
        beyond: damaged.beyond,
        pieces: flattened.pieces,
        answer: damaged.answer,
        ..bare(Kind::DamagedData, descriptor, damaged.data, asks)
    }
}

/// Data of 65,536 bytes or a few more or less: a string, an array of bytes, or
/// either beside others, now and then with a fault.
fn long(random: &mut Random) -> Case {
    let length = random.pick(&[65534, 65535, 65536, 65536, 65536, 65537, 65538]);
    let bytes = [0x01, 0x05, 0x21];
    let long = match random.once_in(2) {
        true => Tree::unnamed(Body::Text),
        false => {
            let element = Tree::unnamed(Body::Plain(random.pick(&bytes)));
            Tree::unnamed(Body::Array(1, Box::new(element)))
        }
    };
    let beside = grow::for_data(random);
    let (tree, path): (Tree, &[u32]) = match random.below(6) {
        0 => (Tree::unnamed(Body::Cluster(vec![long, beside])), &[0]),
        1 => (Tree::unnamed(Body::Cluster(vec![beside, long])), &[1]),
        _ => (long, &[]),
    };
    let tree = match fits(&tree) {
        true => tree,
        false => Tree::unnamed(Body::Text),
    };
    let flattened = fill::fill_up(random, &tree, length, Some(path));
    let descriptor = tree.encode(&mut || random.byte()).bytes;
    match random.once_in(4) && flattened.data.len() <= MOST_DATA {
        true => faulty(random, descriptor, flattened),
        false => known(random, Kind::Long, descriptor, flattened),
    }
}

/// Bytes that nobody flattened, small ones and zeros among them so that some
/// lengths and sizes are likely.
fn stray(random: &mut Random, descriptor: Vec<u8>) -> Case {
    let length = match random.below(30) {
        0 => random.pick(&[65535, 65536, 65537, 70000]),
        1..10 => random.below(400),
        _ => random.below(40),
    };
    let mut bytes = random.bytes(length);
    let sparse = random.below(4);
    for byte in &mut bytes {
        if random.below(4) < sparse {
            *byte = random.pick(&[0, 0, 0, 0, 0, 1, 2, 3]);
        }
    }
    let (data, asks) = (Both::new().plain(&bytes), ask::small(random));
    bare(Kind::StrayData, descriptor, data, asks)
}

/// Data of one tree under another descriptor, one that is damaged or too large
/// among them.
fn misread(random: &mut Random, tree: &Tree) -> Case {
    let flattened = fill(random, tree);
    let descriptor = match random.below(4) {
        0 => grow::wild(random).normal_form().bytes,
        1 => tight::tree(random).normal_form().bytes,
        2 => grow::for_data(random).normal_form().bytes,
        _ => damage_descriptor(random, &tree.normal_form()).bytes,
    };
    let asks = ask::unknown(random, &flattened.parts);
    bare(Kind::Misread, descriptor, flattened.data, asks)
}
