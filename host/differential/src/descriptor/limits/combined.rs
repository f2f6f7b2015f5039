//! Limits that meet: names at the very end, fill bytes after few and many items,
//! and every refusal at every depth and in the last row.

use super::{Collect, Limit, integer, nested, raw, whole};
use crate::tree::{Body, Tree};

pub fn add(limits: &mut Vec<Limit>) {
    last_names(limits);
    fill_bytes(limits);
    for depth in 2..9 {
        for (what, bytes, number, place) in wrong() {
            let what = format!("{what} at depth {depth}");
            let (bytes, start) = buried(bytes, depth - 1);
            limits.refused(what, bytes, number, start + place);
        }
        let (bytes, start) = buried(twice(), depth - 1);
        let (number, place) = if depth == 8 { (6, 10) } else { (10, 13) };
        let what = format!("an array in an array at depth {depth}");
        limits.refused(what, bytes, number, start + place);
    }
    last_rows(limits);
    deepest(limits);
}

fn enumeration(count: usize) -> Tree {
    Tree::unnamed(Body::Enumeration(0x15, vec![Vec::new(); count]))
}

/// A body of every kind.
fn bodies() -> [Body; 7] {
    [
        Body::Plain(0x07),
        Body::Text,
        Body::Enumeration(0x16, vec![b"on".to_vec(), b"off".to_vec()]),
        Body::Quantity(0x1A, vec![[8, 0xFFFF]; 9]),
        Body::Array(4, Box::new(integer())),
        Body::Cluster(vec![integer()]),
        Body::stamp(),
    ]
}

/// Names that end where 4,096 bytes do: of a member and of the top.
fn last_names(limits: &mut Vec<Limit>) {
    for length in [0, 1, 2, 253, 254, 255] {
        let name = Some(vec![b'n'; length]);
        for body in bodies() {
            let tip = Tree {
                body,
                name: name.clone(),
            };
            let whole = |items| Tree::unnamed(Body::Cluster(vec![enumeration(items), tip.clone()]));
            let what = format!("a member {:02X} whose name of {length}", tip.body.code());
            last_name(limits, &what, whole);
        }
        let top = |items| Tree {
            body: Body::Cluster(vec![integer(), enumeration(items)]),
            name: name.clone(),
        };
        last_name(limits, &format!("a cluster whose name of {length}"), top);
        let top = |items| Tree {
            name: name.clone(),
            ..enumeration(items)
        };
        last_name(
            limits,
            &format!("an enumeration whose name of {length}"),
            top,
        );
    }
}

/// A tree that as many items make as long as it can be: as it is, with a wrong
/// fill byte and with two bytes too many.
fn last_name(limits: &mut Vec<Limit>, what: &str, tree: impl Fn(usize) -> Tree) {
    let length = tree(2).normal_form().bytes.len();
    let most = 2 + (4096 - length);
    let encoded = tree(most).normal_form();
    let rows = encoded.rows.len();
    let mut bytes = encoded.bytes;
    limits.accepted(format!("{what} ends at 4,096"), bytes.clone(), rows);
    let last = encoded
        .rows
        .iter()
        .rfind(|row| row[5] > 0 && row[1] + row[2] == 4096);
    if let Some(row) = last.filter(|row| row[6] % 2 == 0) {
        bytes[4095] = 0x80;
        let what = format!("{what}, with a wrong fill byte");
        // The body ends where the name's length stands.
        limits.refused(what, bytes, 11, usize::from(row[5]) - 1);
    }
    let longer = tree(most + 2).normal_form().bytes;
    limits.refused(format!("{what} ends at 4,098"), longer, 1, 0);
}

/// The fill byte after one item and after many, as an enumeration's end and in
/// front of a name.
fn fill_bytes(limits: &mut Vec<Limit>) {
    for count in [
        1, 3, 127, 129, 199, 201, 253, 255, 257, 1001, 3001, 4087, 4089,
    ] {
        for name in [None, Some(Vec::new())] {
            let tree = Tree {
                name: name.clone(),
                ..enumeration(count)
            };
            let bytes = tree.normal_form().bytes;
            let what = format!("{count} items, name {name:?}");
            if bytes.len() > 4096 {
                limits.refused(what, bytes, 1, 0);
                continue;
            }
            limits.accepted(what.clone(), bytes.clone(), 1);
            for fill in [1, 0x80, 0xFF] {
                let mut bytes = bytes.clone();
                bytes[6 + count] = fill;
                limits.refused(format!("{what}, fill byte {fill}"), bytes, 10, 6 + count);
            }
        }
    }
}

/// A descriptor with one fault, its number, and its place from the start on.
pub type Wrong = (&'static str, Vec<u8>, u32, usize);

pub fn wrong() -> Vec<Wrong> {
    [wrong_lengths(), wrong_counts(), wrong_contents()].concat()
}

fn wrong_lengths() -> Vec<Wrong> {
    let one_of_two = [0, 2, 0xFF, 0xFF, 0xFF, 0xFF];
    vec![
        ("a high size", raw(0x8000, 0x03, &[]), 3, 0),
        ("an odd size", raw(5, 0x03, &[0, 0]), 4, 0),
        ("a size past the end", raw(6, 0x03, &[]), 4, 0),
        ("an unknown code", whole(0x0F, &[]), 5, 3),
        ("half a length word", whole(0x30, &[0xFF, 0xFF]), 8, 6),
        ("an item that runs over", whole(0x17, &[0, 1, 2, 0]), 8, 8),
        ("an item missing", whole(0x17, &[0, 2, 1, 0]), 8, 8),
        ("half a pair", whole(0x1E, &[0, 1, 0, 0]), 8, 8),
        ("a dimension missing", whole(0x40, &one_of_two), 8, 10),
    ]
}

fn wrong_counts() -> Vec<Wrong> {
    vec![
        ("no count of items", whole(0x15, &[]), 8, 4),
        ("no count of pairs", whole(0x19, &[]), 8, 4),
        ("no count of dimensions", whole(0x40, &[]), 8, 4),
        ("no count of members", whole(0x50, &[]), 8, 4),
        ("no length word", whole(0x30, &[]), 8, 4),
        ("no subtype", whole(0x54, &[]), 8, 4),
        ("subtype 7", whole(0x54, &[0, 7]), 5, 3),
        ("no items", whole(0x16, &[0, 0]), 9, 4),
        ("no pairs", whole(0x1B, &[0, 0]), 9, 4),
        ("ten pairs", whole(0x1C, &[0, 10]), 9, 4),
        ("no dimensions", whole(0x40, &[0, 0]), 9, 4),
        ("five dimensions", whole(0x40, &[0, 5]), 9, 4),
        ("no members", whole(0x50, &[0, 0]), 9, 4),
    ]
}

fn wrong_contents() -> Vec<Wrong> {
    let word = |last| [0xFF, 0xFF, 0xFF, last];
    let dimension = whole(0x40, &[&[0, 1][..], &word(0x7F)].concat());
    let unnamed = whole(0x30, &[&word(0xFF)[..], &[0, 1]].concat());
    let late = [0, 2, 0, 8, 0, 0, 0, 9, 0, 0];
    vec![
        ("a wrong fill byte", whole(0x15, &[0, 1, 0, 1]), 10, 7),
        ("base index 9", whole(0x1D, &[0, 1, 0, 9, 0, 0]), 10, 6),
        ("base index 9 in pair 1", whole(0x1D, &late), 10, 10),
        ("a wrong length word", whole(0x30, &word(0xFE)), 10, 4),
        ("a wrong dimension", dimension, 10, 6),
        ("no name", whole(0x21, &[2, 0]), 11, 4),
        ("a string without name", unnamed, 11, 8),
    ]
}

/// An array in an array, which starts at 10.
pub fn twice() -> Vec<u8> {
    let array_of =
        |element: &[u8]| whole(0x40, &[&[0, 1, 0xFF, 0xFF, 0xFF, 0xFF], element].concat());
    array_of(&array_of(&raw(4, 0x03, &[])))
}

/// The bytes inside this many clusters, and where they start.
fn buried(inner: Vec<u8>, clusters: usize) -> (Vec<u8>, usize) {
    let wrap = |inner: Vec<u8>, _| whole(0x50, &[vec![0, 1], inner].concat());
    ((0..clusters).fold(inner, wrap), 6 * clusters)
}

/// The bytes as the last member behind this many others.
fn behind(before: usize, last: &[u8]) -> Vec<u8> {
    let members = raw(4, 0x21, &[]).repeat(before);
    let count = (before as u16 + 1).to_be_bytes();
    whole(0x50, &[&count[..], &members, last].concat())
}

/// Row 255 and row 256 refused: the place tells which comes first.
fn last_rows(limits: &mut Vec<Limit>) {
    for before in [253, 254] {
        let (start, row) = (6 + 4 * before, before + 2);
        for (what, bytes, number, place) in wrong() {
            let what = format!("{what} as row {row}");
            limits.refused(what, behind(before, &bytes), number, start + place);
        }
        // The array in this one is the row behind.
        let (number, place) = if row == 256 { (7, 10) } else { (10, 13) };
        let what = format!("an array in an array as row {row}");
        limits.refused(what, behind(before, &twice()), number, start + place);
    }
}

/// Depth 9 of every kind, and what comes before it.
fn deepest(limits: &mut Vec<Limit>) {
    for body in bodies() {
        let what = format!("{:02X} at depth", body.code());
        let deep = |depth| nested(Tree::unnamed(body.clone()), depth).normal_form();
        limits.refused(format!("{what} 9"), deep(9).bytes, 6, 48);
        let fits = !matches!(body, Body::Array(..) | Body::Cluster(_) | Body::Stamp(..));
        let (bytes, rows) = (deep(8).bytes, deep(8).rows);
        match fits {
            true => limits.accepted(format!("{what} 8"), bytes, rows.len()),
            false => limits.refused(format!("{what} 8"), bytes, 6, usize::from(rows[8][1])),
        }
    }
    // Another subtype is judged after the depth.
    let first = |wrong: &Wrong| wrong.2 <= 5 && wrong.1[3] != 0x54;
    for (what, bytes, number, place) in wrong().into_iter().filter(first) {
        let (bytes, start) = buried(bytes, 8);
        limits.refused(format!("{what} at depth 9"), bytes, number, start + place);
    }
    let (bytes, start) = buried(whole(0x50, &[0, 1]), 7);
    limits.refused("nothing at depth 9", bytes, 2, start + 6);
}
