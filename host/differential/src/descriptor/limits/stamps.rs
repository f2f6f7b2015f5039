//! Time stamps: each fault, at every depth, in the last rows, and what comes first
//! where two would do.

use super::{Collect, Limit, encode, integer, nested, raw, whole};
use crate::stamp::SUBTYPES;
use crate::tree::{Body, Tree, halves};

pub fn add(limits: &mut Vec<Limit>) {
    subtypes(limits);
    held(limits);
    strangers(limits);
    behind(limits);
    rows_and_depth(limits);
}

/// A code 54 of this subtype with these bytes behind.
fn subtyped(subtype: u16, behind: &[u8]) -> Vec<u8> {
    whole(0x54, &[&subtype.to_be_bytes(), behind].concat())
}

/// A time stamp that holds this.
fn holding(held: &Tree) -> Vec<u8> {
    subtyped(6, &held.normal_form().bytes)
}

fn stamp() -> Tree {
    Tree::unnamed(Body::stamp())
}

/// The cluster with one of its members changed.
fn changed(place: usize, change: impl FnOnce(&mut Tree)) -> Tree {
    let mut held = halves();
    if let Body::Cluster(members) = &mut held.body {
        change(&mut members[place]);
    }
    held
}

/// 5 after 6 to 8, and before what is inside.
fn subtypes(limits: &mut Vec<Limit>) {
    let right = halves().normal_form().bytes;
    limits.accepted("a time stamp", subtyped(6, &right), 6);
    for subtype in SUBTYPES {
        let what = format!("subtype {subtype}");
        limits.refused(&what, subtyped(subtype, &right), 5, 3);
        limits.refused(format!("{what} alone"), subtyped(subtype, &[]), 5, 3);
        let what = format!("{what}, nothing right inside");
        limits.refused(what, subtyped(subtype, &[0xFF; 6]), 5, 3);
    }
    let wrap = |inner: Vec<u8>, _| whole(0x50, &[vec![0, 1], inner].concat());
    for clusters in 1..=8 {
        let (number, place) = if clusters == 8 { (6, 0) } else { (5, 3) };
        let bytes = (0..clusters).fold(subtyped(3, &right), wrap);
        let what = format!("subtype 3 at depth {}", clusters + 1);
        limits.refused(what, bytes, number, 6 * clusters + place);
    }
    for (before, number, place) in [(253, 5, 3), (254, 5, 3), (255, 7, 0)] {
        let members = raw(4, 0x21, &[]).repeat(before);
        let count = (before as u16 + 1).to_be_bytes();
        let bytes = whole(0x50, &[&count[..], &members, &subtyped(3, &[])].concat());
        let what = format!("subtype 3 as row {}", before + 2);
        limits.refused(what, bytes, number, 6 + 4 * before + place);
    }
}

/// What is inside is judged by itself first.
fn held(limits: &mut Vec<Limit>) {
    limits.refused("nothing in a time stamp", subtyped(6, &[]), 2, 6);
    let half = subtyped(6, &[0, 4]);
    limits.refused("half a header in a time stamp", half, 2, 6);
    let beside = [subtyped(6, &[]), halves().normal_form().bytes].concat();
    let bytes = whole(0x50, &[vec![0, 2], beside].concat());
    limits.refused("a time stamp's cluster outside", bytes, 2, 12);
    let right = encode(Body::stamp());
    for (what, changed, byte, number, place) in [
        ("a high size", 6, 0x80, 3, 6),
        ("an odd size", 7, 0x17, 4, 6),
        ("a size past the end", 7, 0x18, 4, 6),
        ("an unknown code", 9, 0x51, 5, 9),
        ("no dimension", 9, 0x40, 10, 12),
        ("no members", 11, 0, 9, 10),
        ("three members of four", 11, 3, 11, 24),
        ("five members of four", 11, 5, 2, 28),
        ("an unknown code of an integer", 27, 0x0F, 5, 27),
        ("no subtype", 27, 0x54, 8, 28),
        ("no length word", 19, 0x30, 8, 20),
        ("no name of an integer", 13, 6, 11, 16),
    ] {
        let mut bytes = right.clone();
        bytes[changed] = byte;
        let what = format!("{what} in a time stamp");
        limits.refused(&what, bytes.clone(), number, place);
        // Even if an integer before it has the wrong code.
        if changed > 15 {
            bytes[15] = 0x07;
            limits.refused(format!("{what}, and a code"), bytes, number, place);
        }
    }
}

/// 10 for anything else inside.
fn strangers(limits: &mut Vec<Limit>) {
    other_codes(limits);
    names(limits);
    other_integers(limits);
    other_types(limits);
}

fn wrong(limits: &mut Vec<Limit>, what: &str, held: &Tree) {
    limits.refused(format!("{what} in a time stamp"), holding(held), 10, 0);
}

/// A plain type in place of the cluster, and of each integer that has another code.
fn other_codes(limits: &mut Vec<Limit>) {
    for code in (0x01..=0x0E).chain([0x21]) {
        let plain = Body::Plain(code);
        let what = format!("{code:02X}");
        wrong(limits, &what, &Tree::unnamed(plain.clone()));
        for (place, right) in [0x03, 0x03, 0x07, 0x07].into_iter().enumerate() {
            if code != right {
                let held = changed(place, |member| member.body = plain.clone());
                wrong(limits, &format!("{what} as integer {place}"), &held);
            }
        }
    }
}

/// A name of the cluster, and of each integer; the empty one is a name.
fn names(limits: &mut Vec<Limit>) {
    for length in [0, 1, 2, 255] {
        let name = Some(vec![b'n'; length]);
        let what = format!("a name of {length}");
        for place in 0..4 {
            let held = changed(place, |member| member.name = name.clone());
            wrong(limits, &format!("{what} of integer {place}"), &held);
        }
        let body = halves().body;
        wrong(limits, &what, &Tree { body, name });
    }
}

/// More or fewer integers, and others.
fn other_integers(limits: &mut Vec<Limit>) {
    let members = |codes: &[u8]| {
        let plain = codes.iter().map(|&code| Tree::unnamed(Body::Plain(code)));
        Tree::unnamed(Body::Cluster(plain.collect()))
    };
    let right = [0x03, 0x03, 0x07, 0x07, 0x07];
    for count in [1, 2, 3, 5] {
        wrong(
            limits,
            &format!("{count} integers"),
            &members(&right[..count]),
        );
    }
    for (what, codes) in [
        ("the integers of source document 004", &[0x03; 4][..]),
        ("four unsigned integers", &[0x07; 4]),
        ("the fraction first", &[0x07, 0x07, 0x03, 0x03]),
        ("two long integers", &[0x04, 0x08]),
    ] {
        wrong(limits, what, &members(codes));
    }
}

/// Types that hold others, or text, in place of the cluster.
fn other_types(limits: &mut Vec<Limit>) {
    let array_of = |element| Tree::unnamed(Body::Array(1, Box::new(element)));
    let cluster = Tree::unnamed(Body::Cluster(vec![halves()]));
    for (what, held) in [
        ("a string", Tree::unnamed(Body::Text)),
        ("an array", array_of(halves())),
        ("a cluster too many", cluster),
        ("a time stamp", stamp()),
        ("an array of time stamps", array_of(stamp())),
    ] {
        wrong(limits, what, &held);
    }
    let inner = Body::Stamp(6, Box::new(Tree::unnamed(Body::Plain(0x03))));
    let bytes = holding(&Tree::unnamed(inner));
    limits.refused("the inner of two time stamps", bytes, 10, 6);
}

/// 10 before 11, and 11 before 12.
fn behind(limits: &mut Vec<Limit>) {
    let right = halves().normal_form().bytes;
    let wrong = changed(3, |member| member.body = Body::Plain(0x03));
    let wrong = wrong.normal_form().bytes;
    for left in [
        &[9, 9][..],
        &[0, 1],
        &[1, b'n', 0, 0],
        &[0, 4, 0, 3],
        &right,
    ] {
        let what = format!("{left:?} behind in a time stamp");
        let bytes = subtyped(6, &[&right, left].concat());
        limits.refused(&what, bytes.clone(), 11, 28);
        limits.refused(&what, [bytes, vec![0]].concat(), 11, 28);
        let bytes = subtyped(6, &[&wrong, left].concat());
        limits.refused(format!("{what}, and a code"), bytes, 10, 0);
    }
    for left in [&[0, 0][..], &[1, b'n'], &[2, b'n', b'n', 0]] {
        let what = format!("a time stamp named {left:?}");
        let bytes = subtyped(6, &[&right, left].concat());
        limits.accepted(what.clone(), bytes.clone(), 6);
        let bytes = [bytes, vec![0]].concat();
        let end = bytes.len() - 1;
        limits.refused(format!("{what}, a byte behind"), bytes, 12, end);
    }
}

/// A time stamp is as deep as its integers, and takes six rows.
fn rows_and_depth(limits: &mut Vec<Limit>) {
    let unlawful = Tree::unnamed(Body::Stamp(6, Box::new(integer())));
    for depth in 2..=9 {
        let encoded = nested(stamp(), depth).normal_form();
        let what = format!("a time stamp at depth {depth}");
        match depth {
            2..=6 => limits.accepted(what, encoded.bytes, depth + 5),
            _ => limits.refused(what, encoded.bytes, 6, usize::from(encoded.rows[8][1])),
        }
        let encoded = nested(unlawful.clone(), depth).normal_form();
        let what = format!("an integer in a time stamp at depth {depth}");
        let (number, place) = match depth {
            2..=7 => (10, 6 * (depth - 1)),
            _ => (6, usize::from(encoded.rows[8][1])),
        };
        limits.refused(what, encoded.bytes, number, place);
    }
    for before in 248..=256 {
        let members = [vec![integer(); before], vec![stamp()]].concat();
        let encoded = Tree::unnamed(Body::Cluster(members)).normal_form();
        let what = format!("a time stamp as row {}", before + 2);
        match encoded.rows.get(256) {
            None => limits.accepted(what, encoded.bytes, encoded.rows.len()),
            Some(row) => limits.refused(what, encoded.bytes, 7, usize::from(row[1])),
        }
    }
    let element = Body::Array(4, Box::new(stamp()));
    limits.accepted("an array of time stamps", encode(element), 7);
    let member = Body::Cluster(vec![stamp(), integer(), stamp()]);
    limits.accepted("time stamps beside", encode(member), 14);
}
