//! Each refusal of a record in a reader's shape, what comes first where two would
//! do, the widest and longest records, and the faults that lost blanks. Each case
//! states what it gives.

use reference::Answer;

use super::stated::Stated;
use crate::answers::{reader as of_reader, refused};
use crate::tree::{Body, Tree, halves};

/// A case with what document 01 gives.
pub struct Limit {
    pub what: String,
    pub writer: Tree,
    pub reader: Tree,
    pub data: Vec<u8>,
    pub stated: Stated,
}

/// All limits, always in the same order, the longest data last.
pub fn all() -> Vec<Limit> {
    let mut limits = Limits(Vec::new());
    hand_checked(&mut limits);
    old_faults(&mut limits);
    readers(&mut limits);
    order(&mut limits);
    members(&mut limits);
    types(&mut limits);
    flags(&mut limits);
    stamps(&mut limits);
    widest(&mut limits);
    longest(&mut limits);
    limits.0
}

/// Collects cases with what they give.
struct Limits(Vec<Limit>);

impl Limits {
    fn add(
        &mut self,
        what: impl Into<String>,
        [writer, reader]: [Tree; 2],
        data: &[u8],
        stated: Stated,
    ) {
        self.0.push(Limit {
            what: what.into(),
            writer,
            reader,
            data: data.to_vec(),
            stated,
        });
    }

    fn given(&mut self, what: impl Into<String>, trees: [Tree; 2], data: &[u8], bytes: &[u8]) {
        self.add(what, trees, data, Ok(bytes.to_vec()));
    }

    /// Refused at a member of the reader.
    fn refused(
        &mut self,
        what: impl Into<String>,
        trees: [Tree; 2],
        data: &[u8],
        number: u32,
        member: usize,
    ) {
        self.add(what, trees, data, Err(of_reader(number, member)));
    }
}

fn cluster(members: &[Tree]) -> Tree {
    Tree::unnamed(Body::Cluster(members.to_vec()))
}

fn named(body: Body, name: &str) -> Tree {
    Tree {
        body,
        name: Some(name.into()),
    }
}

fn number(code: u8, name: &str) -> Tree {
    named(Body::Plain(code), name)
}

fn array_of(element: Tree) -> Body {
    Body::Array(1, Box::new(element))
}

fn nameless() -> Tree {
    Tree::unnamed(Body::Plain(0x07))
}

/// The identifier of a blank.
fn id() -> Tree {
    number(0x07, "id")
}

/// The temperature of a bath.
fn t() -> Tree {
    number(0x02, "t")
}

/// A record of the two, and the writer's cluster.
const BLANK: [u8; 6] = [0, 25, 0, 0, 0, 9];

fn blank() -> Tree {
    cluster(&[t(), id()])
}

fn hand_checked(limits: &mut Limits) {
    let reader = |member| [blank(), cluster(&[member])];
    limits.given("P11", reader(id()), &BLANK, &[0, 0, 0, 9]);
    let signed = number(0x03, "id");
    limits.refused("P12, another type", reader(signed), &BLANK, 44, 0);
    let no = number(0x07, "no");
    limits.refused("P12, another name", reader(no), &BLANK, 42, 0);
}

fn old_faults(limits: &mut Limits) {
    let reader = cluster(&[id()]);
    let before = [cluster(&[id(), t()]), reader.clone()];
    let nine = [0, 0, 0, 9];
    let what = "the identifier first";
    limits.given(what, before, &[0, 0, 0, 9, 0, 25], &nine);
    for blank_number in [9, 14] {
        let trees = [blank(), reader.clone()];
        let data = [0, 25, 0, 0, 0, blank_number];
        let what = format!("the temperature ahead of blank {blank_number}");
        limits.given(what, trees, &data, &data[2..]);
    }
    let pulses = number(0x07, "pulses");
    let trees = [cluster(&[pulses.clone(), id()]), reader.clone()];
    let what = "the identifier as the second integer";
    limits.given(what, trees, &[0, 0, 4, 0, 0, 0, 0, 9], &nine);
    let trees = [cluster(&[id(), pulses]), reader.clone()];
    let what = "the pulse count as the second integer";
    limits.given(what, trees, &[0, 0, 0, 9, 0, 0, 4, 0], &nine);
    for length in 0..BLANK.len() {
        let trees = [blank(), reader.clone()];
        let refusal = refused(21, if length < 2 { 0 } else { 2 });
        let what = format!("a record cut to {length} bytes");
        limits.add(what, trees, &BLANK[..length], Err(refusal));
    }
}

/// 40.
fn readers(limits: &mut Limits) {
    let no_clusters = [
        id(),
        named(Body::Text, "id"),
        named(array_of(id()), "id"),
        named(array_of(blank()), "id"),
        named(Body::Quantity(0x19, vec![[6, 1]]), "id"),
        named(Body::Enumeration(0x15, vec![b"id".to_vec()]), "id"),
        named(Body::stamp(), "id"),
    ];
    for reader in no_clusters {
        let what = format!("a reader of code {:02X}", reader.body.code());
        limits.refused(what, [blank(), reader], &BLANK, 40, 0);
    }
    let empty = number(0x07, "");
    let names: [(&str, Vec<Tree>, usize); 8] = [
        ("no name", vec![nameless()], 0),
        ("an empty name", vec![empty.clone()], 0),
        ("no name behind one", vec![id(), nameless()], 1),
        ("an empty name behind one", vec![id(), empty.clone()], 1),
        ("a name twice", vec![id(), t(), id()], 2),
        ("a name twice, other types", vec![t(), number(0x05, "t")], 1),
        (
            "a missing member, then a name twice",
            vec![number(0x05, "no"), t(), t()],
            2,
        ),
        ("a name twice, then no name", vec![t(), t(), nameless()], 1),
    ];
    for (what, members, place) in names {
        let trees = [blank(), cluster(&members)];
        limits.refused(what, trees, &BLANK, 40, place);
    }
}

/// What comes first where several refusals would do.
fn order(limits: &mut Limits) {
    let data = [0, 0, 0, 1, 0, 0, 0, 9];
    let writers = [
        (id(), &data[4..]),
        (Tree::unnamed(array_of(id())), &data),
        (Tree::unnamed(array_of(cluster(&[id()]))), &data),
        (named(Body::stamp(), "id"), &[7; 16]),
    ];
    let no_cluster = Answer {
        number: 41,
        input: 1,
        place: 0,
    };
    for (writer, data) in writers {
        let what = format!("a writer of code {:02X}", writer.body.code());
        let trees = |reader| [writer.clone(), reader];
        let missing = cluster(&[id(), number(0x07, "no")]);
        limits.add(&what, trees(missing), data, Err(no_cluster));
        limits.refused(format!("{what}, a reader too"), trees(id()), data, 40, 0);
        let reader = cluster(&[id(), nameless()]);
        limits.refused(format!("{what}, no name"), trees(reader), data, 40, 1);
        let what = format!("{what}, data left over");
        let longer = [data, &[0]].concat();
        let refusal = Err(refused(25, data.len()));
        limits.add(what, trees(id()), &longer, refusal);
    }
    let trees = [blank(), cluster(&[nameless()])];
    let refusal = Err(refused(20, 0));
    limits.add("long data and no name", trees, &vec![0; 65537], refusal);
    inputs(limits);
}

/// The writer before the reader, and the reader before the data.
fn inputs(limits: &mut Limits) {
    let no_members = |input| {
        let (number, place) = (9, 4);
        Err(Answer {
            number,
            input,
            place,
        })
    };
    let empty = cluster(&[]);
    for data in [&BLANK[..], &[], &[0; 7], &[0; 65537]] {
        let what = format!("no members, {} bytes of data", data.len());
        for reader in [blank(), empty.clone(), id()] {
            let trees = [empty.clone(), reader];
            limits.add(format!("{what}: writer"), trees, data, no_members(1));
        }
        for writer in [blank(), id()] {
            let trees = [writer, empty.clone()];
            limits.add(format!("{what}: reader"), trees, data, no_members(2));
        }
    }
}

/// 42 and 43, and which names count.
fn members(limits: &mut Limits) {
    for name in ["ID", "i", "d", "id2", "id ", "xid", "id\0", "\0id"] {
        let other = number(0x07, name);
        let what = format!("{name:?} in place of \"id\"");
        let trees = [blank(), cluster(&[t(), other.clone()])];
        limits.refused(&what, trees, &BLANK, 42, 1);
        let trees = [cluster(&[t(), other]), cluster(&[t(), id()])];
        limits.refused(what, trees, &BLANK, 42, 1);
    }
    let inner = named(Body::Cluster(vec![id(), t()]), "bath");
    let data = [&[0, 0, 0, 9, 0, 25][..], &BLANK].concat();
    let deeper = [
        cluster(&[inner.clone(), t(), number(0x07, "no")]),
        cluster(&[t(), id()]),
    ];
    limits.refused("the name stands deeper", deeper, &data, 42, 1);
    let beside = [cluster(&[inner, t(), id()]), cluster(&[id()])];
    limits.given("the name stands deeper too", beside, &data, &[0, 0, 0, 9]);
    let unnamed = cluster(&[nameless(), id(), number(0x07, ""), nameless()]);
    let data = [1, 1, 1, 1, 0, 0, 0, 9, 2, 2, 2, 2, 3, 3, 3, 3];
    let trees = [unnamed, cluster(&[id()])];
    limits.given("members without names", trees, &data, &[0, 0, 0, 9]);
    doubled(limits);
}

fn doubled(limits: &mut Limits) {
    let byte = number(0x05, "id");
    for (what, twice) in [
        ("the same", [byte.clone(), byte.clone()]),
        ("the first fits", [byte.clone(), number(0x01, "id")]),
        ("the second fits", [number(0x01, "id"), byte.clone()]),
        ("neither fits", [number(0x01, "id"), number(0x01, "id")]),
    ] {
        let what = format!("a name twice in the writer, {what}");
        let writer = cluster(&[&twice[..], &[t()]].concat());
        let data = [7, 8, 0, 25];
        let trees = [writer.clone(), cluster(&[t(), byte.clone()])];
        limits.refused(&what, trees, &data, 43, 1);
        let trees = [writer, cluster(&[t()])];
        limits.given(format!("{what}, unasked"), trees, &data, &[0, 25]);
    }
    let thrice = cluster(&[byte.clone(), byte.clone(), byte.clone()]);
    let trees = [thrice, cluster(&[byte])];
    limits.refused("a name three times in the writer", trees, &[1, 2, 3], 43, 0);
}

/// 44 for one thing that is different inside.
fn types(limits: &mut Limits) {
    let item = |text: &[u8]| Body::Enumeration(0x15, vec![text.to_vec()]);
    let inner = |name: &str| Body::Cluster(vec![number(0x05, name)]);
    let plain = Tree::unnamed(Body::Plain(0x05));
    // All of them have data of four zeros.
    let words = |body| Body::Cluster(vec![Tree::unnamed(body), nameless_bytes(3)]);
    let bodies = [
        words(item(b"a")),
        words(item(b"b")),
        words(inner("a")),
        words(inner("b")),
        words(inner("")),
        words(Body::Cluster(vec![plain.clone()])),
        words(Body::Plain(0x05)),
        Body::Quantity(0x19, vec![[6, 1]]),
        Body::Quantity(0x19, vec![[6, 0xFFFF]]),
        Body::Quantity(0x19, vec![[5, 1]]),
        Body::Plain(0x09),
        Body::Plain(0x07),
        Body::Text,
        array_of(plain),
        array_of(number(0x05, "e")),
        array_of(number(0x05, "")),
    ];
    for (index, written) in bodies.iter().enumerate() {
        for (other, read) in bodies.iter().enumerate() {
            let what = format!("type {index} for a reader of type {other}");
            let trees = [written, read].map(|body| cluster(&[named(body.clone(), "id")]));
            match index == other {
                true => limits.given(what, trees, &[0; 4], &[0; 4]),
                false => limits.refused(what, trees, &[0; 4], 44, 0),
            }
        }
    }
}

/// Booleans keep their bytes.
fn flags(limits: &mut Limits) {
    let lamp = number(0x21, "lamp");
    let reader = cluster(std::slice::from_ref(&lamp));
    for byte in [0, 1, 2, 0x7F, 0x80, 0xFE, 0xFF] {
        let trees = [cluster(&[t(), lamp.clone()]), reader.clone()];
        let what = format!("a Boolean of {byte}");
        limits.given(what, trees, &[0, 25, byte], &[byte]);
    }
    let lamps = named(array_of(Tree::unnamed(Body::Plain(0x21))), "lamps");
    let lit: Vec<u8> = [0, 0, 1, 0].into_iter().chain(0..=255).collect();
    let trees = [cluster(&[lamp, lamps.clone()]), cluster(&[lamps])];
    let data = [&[0xFF], &lit[..]].concat();
    limits.given("Booleans of every byte", trees, &data, &lit);
}

/// A time stamp and what it holds are two types.
fn stamps(limits: &mut Limits) {
    let data: Vec<u8> = (0..16).collect();
    let bodies = [
        Body::stamp(),
        halves().body,
        array_of(Tree::unnamed(Body::stamp())),
    ];
    for (index, read) in bodies.iter().enumerate() {
        let what = format!("a time stamp for a reader of code {:02X}", read.code());
        let trees = [Body::stamp(), read.clone()].map(|body| cluster(&[named(body, "at")]));
        match index {
            0 => limits.given(what, trees, &data, &data),
            _ => limits.refused(what, trees, &data, 44, 0),
        }
    }
    let at = named(Body::stamp(), "at");
    let writer = cluster(&[t(), at.clone(), id()]);
    let record = [&BLANK[..2], &data, &BLANK[2..]].concat();
    let trees = [writer.clone(), cluster(&[id(), at])];
    let given = [&BLANK[2..], &data].concat();
    limits.given("a time stamp put last", trees, &record, &given);
    let trees = [writer, cluster(&[id()])];
    limits.given("behind a time stamp", trees, &record, &BLANK[2..]);
}

/// A cluster of this many bytes.
fn nameless_bytes(count: usize) -> Tree {
    cluster(&vec![Tree::unnamed(Body::Plain(0x05)); count])
}

/// 255 members.
fn widest(limits: &mut Limits) {
    let member = |index: usize| number(0x05, &format!("m{index:03}"));
    let members: Vec<Tree> = (0..255).map(member).collect();
    let data: Vec<u8> = (0..255).collect();
    let back: Vec<Tree> = members.iter().rev().cloned().collect();
    let reversed: Vec<u8> = (0..255).rev().collect();
    let trees = |reader: &[Tree]| [cluster(&members), cluster(reader)];
    limits.given("255 members", trees(&members), &data, &data);
    limits.given("255 members back", trees(&back), &data, &reversed);
    limits.given("the last of 255", trees(&members[254..]), &data, &[254]);
    let mut other = members.clone();
    other[254] = number(0x01, "m254");
    limits.refused("the last of another type", trees(&other), &data, 44, 254);
    other[254] = number(0x05, "m255");
    limits.refused("the last missing", trees(&other), &data, 42, 254);
    other[254] = member(0);
    limits.refused(
        "the last named like the first",
        trees(&other),
        &data,
        40,
        254,
    );
    let doubled = [cluster(&other), cluster(&members[1..])];
    limits.refused("the last missing, two alike", doubled, &data, 42, 253);
    let doubled = [cluster(&other), cluster(&members[..254])];
    limits.refused("the first doubled by the last", doubled, &data, 43, 0);
    let long = "n".repeat(255);
    let names = [&long[..], &long[1..], &long[2..], "n"];
    let members = names.map(|name| number(0x05, name));
    for (place, member) in members.iter().enumerate() {
        let trees = [cluster(&members), cluster(std::slice::from_ref(member))];
        let what = format!("a name of {} characters", names[place].len());
        limits.given(what, trees, &[0, 1, 2, 3], &[place as u8]);
    }
}

/// 65,536 bytes, and members at their end.
fn longest(limits: &mut Limits) {
    let bytes = named(array_of(Tree::unnamed(Body::Plain(0x05))), "bytes");
    for (code, width) in [(0x05, 1), (0x06, 2), (0x07, 4), (0x0E, 32)] {
        let count = 65536 - 4 - width;
        let last = number(code, "last");
        let array = [(count as u32).to_be_bytes().to_vec(), vec![7; count]].concat();
        let data = [&array[..], &vec![8; width]].concat();
        let turned = [&vec![8; width], &array[..]].concat();
        let writer = cluster(&[bytes.clone(), last.clone()]);
        let reader = cluster(&[last.clone(), bytes.clone()]);
        let trees = [writer.clone(), reader.clone()];
        let what = format!("65,536 bytes, the last {width} first");
        limits.given(what, trees, &data, &turned);
        let what = format!("65,536 bytes, the first {width} last");
        limits.given(what, [reader, writer.clone()], &turned, &data);
        let what = format!("the last {width} of 65,536 bytes");
        let trees = [writer.clone(), cluster(&[last])];
        limits.given(what, trees, &data, &vec![8; width]);
        let what = format!("all but the last {width} of 65,536 bytes");
        let trees = [writer, cluster(std::slice::from_ref(&bytes))];
        limits.given(what, trees, &data, &array);
    }
}
