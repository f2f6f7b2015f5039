//! Copies of a tree in which one thing that counts for equality differs.

use crate::grow::{self, PLAIN};
use crate::random::Random;
use crate::tree::{Body, Tree};

/// What differs between a tree and its twin.
#[derive(Clone, Copy, PartialEq, Eq)]
pub enum Change {
    Nothing,
    Reserved,
    Everything,
    Code,
    NoName,
    NameByte,
    NameLength,
    ItemByte,
    ItemLength,
    ItemCount,
    ItemOrder,
    Base,
    Exponent,
    PairCount,
    PairOrder,
    Dimensions,
    MemberCount,
    MemberOrder,
}

/// Every change with the words for it, in the order of the enum.
pub const CHANGES: [(Change, &str); 18] = [
    (Change::Nothing, "nothing"),
    (Change::Reserved, "reserved bytes"),
    (Change::Everything, "another tree"),
    (Change::Code, "a code"),
    (Change::NoName, "an empty name for none"),
    (Change::NameByte, "a name's character"),
    (Change::NameLength, "a name's length"),
    (Change::ItemByte, "an item's character"),
    (Change::ItemLength, "an item's length"),
    (Change::ItemCount, "the items' count"),
    (Change::ItemOrder, "the items' order"),
    (Change::Base, "a base index"),
    (Change::Exponent, "an exponent"),
    (Change::PairCount, "the pairs' count"),
    (Change::PairOrder, "the pairs' order"),
    (Change::Dimensions, "the dimensions"),
    (Change::MemberCount, "the members' count"),
    (Change::MemberOrder, "the members' order"),
];

/// A copy in which one thing may differ, and which.
pub fn twin(random: &mut Random, tree: &Tree) -> (Tree, Change) {
    let mut twin = tree.clone();
    let nodes = count(tree);
    let node = match random.below(4) {
        0 => nodes - 1,
        1 => random.below(nodes.min(3)),
        _ => random.below(nodes),
    };
    let change = match find(&mut twin, &mut { node }) {
        Some(found) => alter(random, found),
        None => Change::Nothing,
    };
    match twin == *tree {
        true => (twin, Change::Nothing),
        false => (twin, change),
    }
}

/// How many descriptors the tree has, those that time stamps hold apart.
fn count(tree: &Tree) -> usize {
    1 + match &tree.body {
        Body::Array(_, element) => count(element),
        Body::Cluster(members) => members.iter().map(count).sum(),
        _ => 0,
    }
}

/// The descriptor of this number, counted from the first byte on.
fn find<'a>(tree: &'a mut Tree, number: &mut usize) -> Option<&'a mut Tree> {
    if *number == 0 {
        return Some(tree);
    }
    *number -= 1;
    match &mut tree.body {
        Body::Array(_, element) => find(element, number),
        Body::Cluster(members) => members.iter_mut().find_map(|member| find(member, number)),
        _ => None,
    }
}

fn alter(random: &mut Random, tree: &mut Tree) -> Change {
    if random.once_in(3) {
        return alter_name(random, &mut tree.name);
    }
    match &mut tree.body {
        Body::Plain(code) => {
            *code = random.pick(&PLAIN);
            Change::Code
        }
        Body::Enumeration(code, _) | Body::Quantity(code, _) if random.once_in(5) => {
            let codes: &[u8] = match *code {
                0x15..=0x17 => &[0x15, 0x16, 0x17],
                _ => &[0x19, 0x1A, 0x1B, 0x1C, 0x1D, 0x1E],
            };
            *code = random.pick(codes);
            Change::Code
        }
        Body::Enumeration(_, items) => alter_items(random, items),
        Body::Quantity(_, pairs) => alter_pairs(random, pairs),
        Body::Text => alter_name(random, &mut tree.name),
        Body::Array(dimensions, _) => {
            *dimensions = random.between(1, 4) as u16;
            Change::Dimensions
        }
        Body::Cluster(members) => alter_members(random, members),
        Body::Stamp(_, held) => {
            tree.body = held.body.clone();
            Change::Code
        }
    }
}

fn alter_name(random: &mut Random, name: &mut Option<Vec<u8>>) -> Change {
    match name {
        None => {
            *name = Some(Vec::new());
            Change::NoName
        }
        Some(characters) if characters.is_empty() => match random.once_in(2) {
            true => {
                *name = None;
                Change::NoName
            }
            false => {
                characters.push(0);
                Change::NameLength
            }
        },
        Some(characters) if random.once_in(3) => {
            characters.pop();
            Change::NameLength
        }
        Some(characters) => {
            change_byte(random, characters);
            Change::NameByte
        }
    }
}

/// One bit of the first, the last or any byte.
fn change_byte(random: &mut Random, bytes: &mut [u8]) {
    let place = match random.below(3) {
        0 => 0,
        1 => bytes.len() - 1,
        _ => random.below(bytes.len()),
    };
    bytes[place] ^= 1 << random.below(8);
}

/// The place of the first, the last or any item.
fn place(random: &mut Random, length: usize) -> usize {
    match random.below(3) {
        0 => 0,
        1 => length - 1,
        _ => random.below(length),
    }
}

fn alter_items(random: &mut Random, items: &mut Vec<Vec<u8>>) -> Change {
    let item = place(random, items.len());
    match random.below(4) {
        0 if items.len() > 1 => {
            items.swap(item, 0);
            Change::ItemOrder
        }
        1 => {
            items.push(Vec::new());
            Change::ItemCount
        }
        2 if items[item].len() < 255 => {
            items[item].push(0);
            Change::ItemLength
        }
        _ if items[item].is_empty() => {
            items[item].push(0);
            Change::ItemLength
        }
        _ => {
            change_byte(random, &mut items[item]);
            Change::ItemByte
        }
    }
}

fn alter_pairs(random: &mut Random, pairs: &mut Vec<[u16; 2]>) -> Change {
    let pair = place(random, pairs.len());
    match random.below(5) {
        0 => {
            pairs[pair][0] = random.below(9) as u16;
            Change::Base
        }
        1 if pairs.len() < 9 => {
            pairs.push([0, 0]);
            Change::PairCount
        }
        2 if pairs.len() > 1 => {
            pairs.swap(pair, 0);
            Change::PairOrder
        }
        _ => {
            pairs[pair][1] ^= 1 << random.below(16);
            Change::Exponent
        }
    }
}

fn alter_members(random: &mut Random, members: &mut Vec<Tree>) -> Change {
    let member = place(random, members.len());
    match random.below(3) {
        0 if members.len() > 1 => {
            members.pop();
            Change::MemberCount
        }
        1 => {
            let name = grow::name(random);
            members.push(Tree {
                body: Body::Plain(random.pick(&PLAIN)),
                name,
            });
            Change::MemberCount
        }
        _ => {
            members.swap(member, 0);
            Change::MemberOrder
        }
    }
}
