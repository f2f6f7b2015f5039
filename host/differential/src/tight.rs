//! Trees in which several of document 01's numbers are at their limits at once:
//! bytes, rows, depth, counts, names, and what stands last.

use crate::grow::PLAIN;
use crate::random::Random;
use crate::stamp;
use crate::tree::{Body, Tree};

const ENUMERATIONS: [u8; 3] = [0x15, 0x16, 0x17];
const QUANTITIES: [u8; 6] = [0x19, 0x1A, 0x1B, 0x1C, 0x1D, 0x1E];

/// A tree at the limits, now and then one past some of them.
pub fn tree(random: &mut Random) -> Tree {
    if random.once_in(4) {
        let length = random_length(random);
        return padding(random, length, true);
    }
    let tip = match random.once_in(4) {
        true => lawless_tip(random),
        false => tip(random),
    };
    let depth = random.pick(&[1, 1, 2, 3, 4, 5, 6, 7, 7, 7]);
    let inner = buried(random, tip, depth - 1);
    filled_up(random, inner)
}

/// A small tree at any depth, now and then too deep.
pub fn deep(random: &mut Random) -> Tree {
    let tip = tip(random);
    let levels = random.pick(&[0, 1, 2, 3, 4, 5, 6, 7, 8, 8]);
    buried(random, tip, levels)
}

/// How long the whole is to be.
fn random_length(random: &mut Random) -> usize {
    match random.once_in(8) {
        true => 4098,
        false => random.pick(&[4090, 4092, 4094, 4096, 4096, 4096]),
    }
}

/// A name at a limit, if any.
pub fn name(random: &mut Random) -> Option<Vec<u8>> {
    let length = random.pick(&[0, 0, 1, 1, 2, 253, 254, 255]);
    let name = random.bytes(length);
    Some(name).filter(|_| !random.once_in(3))
}

fn named(random: &mut Random, body: Body) -> Tree {
    let name = match random.once_in(2) {
        true => name(random),
        false => None,
    };
    Tree { body, name }
}

/// A small tree whose counts are at their limits.
fn tip(random: &mut Random) -> Tree {
    let body = match random.below(10) {
        0 => Body::Text,
        1 => quantity(random, &[1, 2, 8, 9]),
        2 => few_items(random),
        3 | 8 => {
            let count = random.pick(&[253, 254, 255, 256, 257]);
            Body::Enumeration(random.pick(&ENUMERATIONS), vec![Vec::new(); count])
        }
        4 => {
            let inner = flat_tip(random);
            Body::Array(random.pick(&[1, 2, 3, 4, 4]), Box::new(inner))
        }
        5 => Body::Cluster(vec![flat_tip(random)]),
        9 => Body::stamp(),
        _ => Body::Plain(random.pick(&PLAIN)),
    };
    named(random, body)
}

/// The same without children.
fn flat_tip(random: &mut Random) -> Tree {
    let body = match random.below(4) {
        0 => Body::Text,
        1 => quantity(random, &[1, 9]),
        2 => few_items(random),
        _ => Body::Plain(random.pick(&PLAIN)),
    };
    named(random, body)
}

fn few_items(random: &mut Random) -> Body {
    let lengths = [0, 1, 2, 253, 254, 255];
    let count = random.between(1, 3);
    let items = (0..count).map(|_| {
        let length = random.pick(&lengths);
        random.bytes(length)
    });
    let items = items.collect();
    Body::Enumeration(random.pick(&ENUMERATIONS), items)
}

fn quantity(random: &mut Random, counts: &[usize]) -> Body {
    let exponents = [0, 1, 0x7FFF, 0x8000, 0xFFFF, 0x0102];
    let pair = |_| [random.below(9) as u16, random.pick(&exponents)];
    let pairs = (0..9).map(pair).collect::<Vec<_>>();
    let count = random.pick(counts);
    Body::Quantity(random.pick(&QUANTITIES), pairs[..count].to_vec())
}

/// A tip with a fault: a count or an index one past its limit, an array in an
/// array, a member too few, or no time stamp after all.
fn lawless_tip(random: &mut Random) -> Tree {
    let element = Box::new(flat_tip(random));
    let body = match random.below(8) {
        0 => Body::Enumeration(random.pick(&ENUMERATIONS), Vec::new()),
        1 => Body::Cluster(Vec::new()),
        2 => quantity(random, &[0]),
        3 => {
            let pairs = vec![[8, 0xFFFF]; random.pick(&[10, 11])];
            Body::Quantity(random.pick(&QUANTITIES), pairs)
        }
        4 => {
            let mut pairs = vec![[8, 1]; random.pick(&[1, 2, 9])];
            let last = pairs.len() - 1;
            pairs[last][0] = random.pick(&[9, 10, 0x100, 0x8000, 0xFFFF]);
            Body::Quantity(random.pick(&QUANTITIES), pairs)
        }
        5 => Body::Array(random.pick(&[0, 5, 6]), element),
        6 => stamp::wrong(random),
        _ => Body::Array(1, Box::new(Tree::unnamed(Body::Array(4, element)))),
    };
    named(random, body)
}

/// The tree inside this many clusters and arrays.
pub fn buried(random: &mut Random, tree: Tree, levels: usize) -> Tree {
    (0..levels).fold(tree, |inner, _| {
        let array = !matches!(inner.body, Body::Array(..)) && random.once_in(3);
        let body = match array {
            true => Body::Array(random.pick(&[1, 1, 2, 4]), Box::new(inner)),
            false => Body::Cluster(vec![inner]),
        };
        match random.once_in(4) {
            true => named(random, body),
            false => Tree::unnamed(body),
        }
    })
}

/// A cluster of the tree and of others, so many and so long that rows or bytes or
/// both are at a limit.
fn filled_up(random: &mut Random, inner: Tree) -> Tree {
    let rows = random.pick(&[0, 0, 254, 255, 256, 256, 257]);
    let length = match random.once_in(4) {
        true => 0,
        false => random_length(random),
    };
    let mut whole = Tree {
        body: Body::Cluster(vec![inner]),
        name: name(random),
    };
    let encoded = whole.normal_form();
    let padded = usize::from(length > 0);
    let more = usize::saturating_sub(rows, encoded.rows.len() + padded);
    let plain = |_| Tree::unnamed(Body::Plain(random.pick(&PLAIN)));
    let mut others: Vec<Tree> = (0..more).map(plain).collect();
    let left = usize::saturating_sub(length, encoded.bytes.len() + 4 * more);
    if let Some(padding) = member(random, left) {
        let place = random.below(others.len() + 1);
        others.insert(place, padding);
    }
    if let Body::Cluster(members) = &mut whole.body {
        let place = random.pick(&[0, others.len(), others.len()]);
        others.splice(place..place, members.drain(..));
        *members = others;
    }
    whole
}

/// A member of exactly this many bytes, where there can be one.
fn member(random: &mut Random, length: usize) -> Option<Tree> {
    match length {
        0..4 => None,
        4 => Some(Tree::unnamed(Body::Plain(random.pick(&PLAIN)))),
        6 => Some(Tree {
            body: Body::Plain(random.pick(&PLAIN)),
            name: Some(Vec::new()),
        }),
        _ => Some(padding(random, length, false)),
    }
}

/// An enumeration of exactly this many bytes, an even number of at least 8.
fn padding(random: &mut Random, length: usize, any_name: bool) -> Tree {
    let name = match any_name || random.once_in(2) {
        true => name(random),
        false => None,
    };
    let named = |name: &Vec<u8>| (name.len() + 2) & !1;
    let name = name.filter(|name| 8 + named(name) <= length);
    let items = length - 6 - name.as_ref().map_or(0, named);
    let filled = random.once_in(2);
    Tree {
        body: Body::Enumeration(
            random.pick(&ENUMERATIONS),
            packed(random, items - usize::from(filled)),
        ),
        name,
    }
}

/// Items that take exactly this many bytes with their lengths: none longer than
/// empty, all as long as they can be, or a few long ones.
fn packed(random: &mut Random, mut bytes: usize) -> Vec<Vec<u8>> {
    let mut items = Vec::new();
    let mut long = match random.below(4) {
        0 => random.between(1, 12),
        1 => 20,
        _ => 0,
    };
    while bytes > 0 {
        let length = match long {
            0 => 0,
            _ => random.pick(&[255, 255, 254, 253, 2]).min(bytes - 1),
        };
        items.push(vec![b'i'; length]);
        bytes -= 1 + length;
        long = usize::saturating_sub(long, 1);
    }
    items
}

/// A judged scalar, a string, a number or a time stamp at any depth, for data, now
/// and then as the last of as many members as there can be.
pub fn for_data(random: &mut Random) -> Tree {
    if random.once_in(30) {
        return wide(random);
    }
    let body = match random.below(7) {
        0 => Body::Plain(0x21),
        1 | 2 => {
            let count = random.pick(&[1, 2, 127, 128, 254, 255, 256, 257, 300]);
            Body::Enumeration(random.pick(&ENUMERATIONS), vec![Vec::new(); count])
        }
        3 => Body::Text,
        4 => match random.once_in(2) {
            true => Body::Text,
            false => quantity(random, &[1]),
        },
        5 => Body::stamp(),
        _ => Body::Plain(random.pick(&PLAIN)),
    };
    // What a time stamp holds is two levels deeper.
    let most = if body.code() == 0x54 { 5 } else { 7 };
    let levels = random.pick(&[0, 1, 2, 3, 4, 5, 6, 7, 7]).min(most);
    let mut tree = buried(random, Tree::unnamed(body), levels);
    beside(random, &mut tree);
    tree
}

/// A cluster of 256 rows with the top, or one fewer.
fn wide(random: &mut Random) -> Tree {
    let count = random.pick(&[252, 253, 253, 253]);
    let plain = |_| Tree::unnamed(Body::Plain(random.pick(&PLAIN)));
    let mut members: Vec<Tree> = (0..count).map(plain).collect();
    let element = Tree::unnamed(Body::Plain(random.pick(&PLAIN)));
    match random.below(4) {
        0 => members.push(Tree::unnamed(Body::Array(1, Box::new(element)))),
        1 => members.extend([Tree::unnamed(Body::Text), element]),
        2 => members.extend([element, Tree::unnamed(few_items(random))]),
        _ => members.extend([element, Tree::unnamed(Body::Plain(0x21))]),
    }
    Tree::unnamed(Body::Cluster(members))
}

/// Puts a number or a string in front of or behind some of the members.
fn beside(random: &mut Random, tree: &mut Tree) {
    match &mut tree.body {
        Body::Array(_, element) => beside(random, element),
        Body::Cluster(members) => {
            beside(random, &mut members[0]);
            if random.once_in(2) {
                let other = match random.once_in(4) {
                    true => Body::Text,
                    false => Body::Plain(random.pick(&PLAIN)),
                };
                let place = random.below(2);
                members.insert(place, Tree::unnamed(other));
            }
        }
        _ => {}
    }
}
