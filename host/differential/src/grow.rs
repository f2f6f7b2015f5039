//! Trees at random: tame ones keep every rule and limit of document 01, wild
//! ones break limits here and there.

use crate::random::Random;
use crate::stamp;
use crate::tree::{Body, Tree};

pub const PLAIN: [u8; 15] = [1, 2, 3, 4, 5, 6, 7, 8, 9, 0xA, 0xB, 0xC, 0xD, 0xE, 0x21];

/// What a tree may still use up, and which rules it may break.
struct Room {
    rows: usize,
    bytes: usize,
    depth: usize,
    /// Counts, base indexes, arrays in arrays and time stamps may break their rules.
    lawless: bool,
    style: Style,
}

#[derive(Clone, Copy, PartialEq, Eq)]
enum Style {
    Usual,
    /// Few names and bodies, so that the rows run out before the bytes.
    Lean,
    /// Few names and many bodies, so that there is much to walk in the data.
    Rich,
}

impl Room {
    /// Takes the bytes if they are there.
    fn take(&mut self, bytes: usize) -> bool {
        let enough = self.bytes >= bytes;
        if enough {
            self.bytes -= bytes;
        }
        enough
    }

    /// Whether a child fits beneath `depth` behind `bytes` of the parent's body.
    fn holds_child(&self, depth: usize, bytes: usize) -> bool {
        depth < self.depth && self.rows > 0 && self.bytes >= bytes + 4
    }

    /// Takes what a time stamp at `depth` holds, if it fits.
    fn take_stamp(&mut self, depth: usize) -> bool {
        let enough = depth + 2 <= self.depth && self.rows >= 5 && self.take(24);
        if enough {
            self.rows -= 5;
        }
        enough
    }
}

/// A tree that must be accepted.
pub fn tame(random: &mut Random) -> Tree {
    let mut room = Room {
        rows: random.pick(&[1, 2, 4, 4, 8, 8, 16, 40, 256]),
        bytes: random.pick(&[16, 60, 60, 200, 200, 600, 4096]),
        depth: 8,
        lawless: false,
        style: random.pick(&[Style::Usual, Style::Lean]),
    };
    grow(random, 1, &mut room, false)
}

/// A tree that must be accepted, with strings, arrays and judged scalars in
/// plenty.
pub fn for_data(random: &mut Random) -> Tree {
    let mut room = Room {
        rows: random.pick(&[1, 2, 2, 3, 3, 4, 5, 6, 8, 12, 20, 40, 200]),
        bytes: random.pick(&[60, 200, 200, 600, 4096]),
        depth: 8,
        lawless: false,
        style: random.pick(&[Style::Usual, Style::Rich, Style::Rich]),
    };
    grow(random, 1, &mut room, false)
}

/// Trees that can be the members of one cluster, with room left for names.
pub fn for_record(random: &mut Random) -> Vec<Tree> {
    let mut room = Room {
        rows: random.pick(&[1, 2, 4, 4, 8, 8, 16, 40, 200]),
        bytes: random.pick(&[60, 200, 200, 600, 2000]),
        depth: 8,
        lawless: false,
        style: random.pick(&[Style::Usual, Style::Lean, Style::Rich]),
    };
    members(random, 1, &mut room)
}

/// A small tree that must be accepted, at most three levels deep.
pub fn small(random: &mut Random) -> Tree {
    let mut room = Room {
        rows: 8,
        bytes: 60,
        depth: 3,
        lawless: false,
        style: Style::Usual,
    };
    grow(random, 1, &mut room, false)
}

/// One without parts.
pub fn flat(random: &mut Random) -> Tree {
    let mut room = Room {
        rows: 1,
        bytes: 40,
        depth: 1,
        lawless: false,
        style: Style::Usual,
    };
    grow(random, 1, &mut room, false)
}

/// A tree that may have too many rows or bytes, or be too deep, or break rules
/// inside its bodies.
pub fn wild(random: &mut Random) -> Tree {
    let (rows, bytes, depth, lawless) = match random.below(8) {
        0 => (300, 4096, 8, false),
        1 => (
            random.between(250, 300),
            random.between(3000, 5000),
            10,
            false,
        ),
        2..5 => (20, 300, 10, false),
        _ => (random.pick(&[3, 8, 16, 40, 300]), 1000, 8, true),
    };
    let mut room = Room {
        rows,
        bytes,
        depth,
        lawless,
        style: random.pick(&[Style::Usual, Style::Lean]),
    };
    grow(random, 1, &mut room, false)
}

/// A row and a header's bytes must be left in the room.
fn grow(random: &mut Random, depth: usize, room: &mut Room, in_array: bool) -> Tree {
    room.rows -= 1;
    room.bytes -= 4;
    // With much room to fill, the top is a cluster.
    let choices = match (depth, room.style) {
        (1, _) if room.rows > 30 => 7,
        (1, _) => 19,
        (_, Style::Usual) => 25,
        (_, Style::Lean) => 81,
        (_, Style::Rich) => 19,
    };
    let body = match random.below(choices) {
        0..7 if room.holds_child(depth, 2) => cluster(random, depth, room),
        7..10 if (!in_array || room.lawless) && room.holds_child(depth, 18) => {
            array(random, depth, room)
        }
        10..12 => enumeration(random, room),
        12..14 => quantity(random, room),
        14..16 if room.take(4) => Body::Text,
        16 if room.take_stamp(depth) => match room.lawless && !random.once_in(4) {
            true => stamp::wrong(random),
            false => Body::stamp(),
        },
        _ => Body::Plain(random.pick(&PLAIN)),
    };
    let named = room.style == Style::Usual || random.once_in(6);
    let name = name(random).filter(|name| named && room.take((name.len() + 2) & !1));
    Tree { body, name }
}

fn cluster(random: &mut Random, depth: usize, room: &mut Room) -> Body {
    room.bytes -= 2;
    if room.lawless && random.once_in(40) {
        return Body::Cluster(Vec::new());
    }
    Body::Cluster(members(random, depth, room))
}

/// At least one, for which the room must have a row and a header's bytes.
fn members(random: &mut Random, depth: usize, room: &mut Room) -> Vec<Tree> {
    let most = match depth {
        1 if room.rows > 30 => 300,
        _ => random.pick(&[1, 2, 3, 5, 9, 300]),
    };
    let mut members = vec![grow(random, depth + 1, room, false)];
    while members.len() < most && room.holds_child(depth, 0) {
        members.push(grow(random, depth + 1, room, false));
    }
    members
}

fn array(random: &mut Random, depth: usize, room: &mut Room) -> Body {
    let dimensions = match room.lawless && random.once_in(8) {
        true => random.pick(&[0, 4, 5]),
        false => random.between(1, 4),
    };
    room.bytes -= (2 + 4 * dimensions).min(18);
    let element = grow(random, depth + 1, room, true);
    Body::Array(dimensions as u16, Box::new(element))
}

/// An enumeration whose items fit, or a plain type where not even one does.
fn enumeration(random: &mut Random, room: &mut Room) -> Body {
    let code = random.pick(&[0x15, 0x16, 0x17]);
    if room.lawless && random.once_in(20) {
        return Body::Enumeration(code, Vec::new());
    }
    // 2 for the count, 1 for the first item's length, 1 for the fill byte.
    if !room.take(4) {
        return Body::Plain(random.pick(&PLAIN));
    }
    if random.once_in(24) {
        return Body::Enumeration(code, many_items(random, room));
    }
    let mut items = vec![Vec::new()];
    for _ in 0..random.pick(&[1, 1, 2, 3, 6, 30]) {
        let item = characters(random);
        if room.take(1 + item.len()) {
            items.push(item);
        }
    }
    if items.len() > 1 {
        items.swap_remove(0);
    }
    Body::Enumeration(code, items)
}

/// As many empty items as there is room for at most, counted from one that has
/// its bytes already.
fn many_items(random: &mut Random, room: &mut Room) -> Vec<Vec<u8>> {
    let count = match random.below(8) {
        0 => random.between(1, 4000),
        _ => random.pick(&[127, 128, 253, 254, 255, 256, 257, 300]),
    };
    let count = count.min(room.bytes + 1);
    room.bytes -= count - 1;
    vec![Vec::new(); count]
}

fn quantity(random: &mut Random, room: &mut Room) -> Body {
    let code = random.pick(&[0x19, 0x1A, 0x1B, 0x1C, 0x1D, 0x1E]);
    let (least, most) = if room.lawless { (0, 10) } else { (1, 9) };
    let count = random.between(least, most);
    if !room.take(2 + 4 * count) {
        return Body::Plain(random.pick(&PLAIN));
    }
    let stray = room.lawless && random.once_in(6);
    let pair = |_| {
        let base = random.below(if stray { 10 } else { 9 });
        [base as u16, random.next() as u16]
    };
    Body::Quantity(code, (0..count).map(pair).collect())
}

/// A name: none, empty, odd, even, or as long as one can be.
pub fn name(random: &mut Random) -> Option<Vec<u8>> {
    match random.below(8) {
        0..4 => None,
        4 => Some(Vec::new()),
        _ => Some(characters(random)),
    }
}

fn characters(random: &mut Random) -> Vec<u8> {
    let length = match random.below(40) {
        0 => 255,
        1 => 254,
        2 => random.below(256),
        3..6 => 0,
        _ => random.between(1, 9),
    };
    match random.once_in(3) {
        true => random.bytes(length),
        false => (0..length).map(|_| b'a' + random.below(26) as u8).collect(),
    }
}
