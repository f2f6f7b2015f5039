//! Time stamps with a fault.

use crate::grow::{self, PLAIN};
use crate::random::Random;
use crate::tree::{Body, Tree, halves};

/// Subtypes that are not carried: of those in source documents 001 and 004 two of
/// analog waveforms (3 and 5), that of digital data (7), of a digital waveform (8) and
/// of dynamic data (9, in 004 alone); such as have a 6 in one byte; the least and the
/// greatest.
pub const SUBTYPES: [u16; 9] = [0, 3, 5, 7, 8, 9, 0x0106, 0x0600, 0xFFFF];

/// Another subtype, or something else inside.
pub fn wrong(random: &mut Random) -> Body {
    match random.below(3) {
        0 => Body::Stamp(random.pick(&SUBTYPES), Box::new(halves())),
        _ => Body::Stamp(6, Box::new(other(random))),
    }
}

/// What no time stamp holds.
pub fn other(random: &mut Random) -> Tree {
    let misshapen = misshapen(random);
    match random.once_in(2) || misshapen == halves() {
        true => stranger(random),
        false => misshapen,
    }
}

/// What a time stamp holds with another code, a name, a member too many or too few,
/// or in another order; it may still be right.
fn misshapen(random: &mut Random) -> Tree {
    let mut held = halves();
    let Body::Cluster(members) = &mut held.body else {
        return held;
    };
    let place = random.below(members.len());
    match random.below(7) {
        0 => members[place].body = Body::Plain(random.pick(&PLAIN)),
        1 => members[place].body = Body::Plain(random.pick(&[0x03, 0x07])),
        2 => members[place].name = grow::name(random),
        3 => held.name = grow::name(random),
        4 => members.push(Tree::unnamed(Body::Plain(random.pick(&PLAIN)))),
        5 => drop(members.remove(place)),
        _ => members.swap(place, 0),
    }
    held
}

/// A type that no time stamp holds.
fn stranger(random: &mut Random) -> Tree {
    Tree::unnamed(match random.below(5) {
        0 => Body::Plain(random.pick(&PLAIN)),
        1 => Body::Text,
        2 => Body::Array(1, Box::new(halves())),
        3 => Body::Cluster(vec![halves()]),
        _ => Body::stamp(),
    })
}
