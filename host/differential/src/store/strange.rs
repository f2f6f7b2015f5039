//! Records that a book refuses for their own sake, most of them; what is known of each
//! is told by its tree or by the fault that was put in.

use reference::{Answer, MOST_BYTES, MOST_DATA};

use super::record::Record;
use super::source::{Source, blank, cluster, is_blank, named};
use crate::answers::reader;
use crate::data::damage::damage;
use crate::data::fill::{fill, least};
use crate::descriptor::case::encode;
use crate::descriptor::damage::damage as damage_descriptor;
use crate::grow;
use crate::random::Random;
use crate::tight;
use crate::tree::{Body, Tree};

/// A record like one of this rig, but with a fault.
pub fn strange(random: &mut Random, source: &Source, identifier: u32) -> Record {
    match random.below(16) {
        0..4 => damaged(random, source, identifier),
        4..7 => damaged_descriptor(random, source, identifier),
        7 | 8 => beyond(random, source, identifier),
        9 => no_cluster(random),
        10 | 11 => missing(random, source),
        12 | 13 => doubled(random, source),
        14 => another_type(random, source),
        _ => too_long(random, source, identifier),
    }
}

/// Data with a fault.
fn damaged(random: &mut Random, source: &Source, identifier: u32) -> Record {
    let filled = source.filled(random, identifier, 40);
    let damaged = damage(random, &filled);
    let record = Record::read(source.descriptor.clone(), damaged.data.big);
    let refusal = damaged.answer.filter(|answer| answer.number != 0);
    let stated = refusal.map_or(record.stated, Err);
    Record { stated, ..record }
}

/// A descriptor with a fault.
fn damaged_descriptor(random: &mut Random, source: &Source, identifier: u32) -> Record {
    let data = source.record(random, identifier).data;
    let encoded = cluster(&source.members).normal_form();
    Record::read(damage_descriptor(random, &encoded).bytes, data)
}

/// A descriptor beyond the limits, or about there.
fn beyond(random: &mut Random, source: &Source, identifier: u32) -> Record {
    let tree = match random.once_in(3) {
        true => tight::tree(random),
        false => grow::wild(random),
    };
    let data = source.record(random, identifier).data;
    Record::read(encode(random, &tree).bytes, data)
}

/// The record of a tree, its own refusal being known.
fn refused(random: &mut Random, tree: &Tree, refusal: Answer) -> Record {
    let most = least(tree) + random.below(20);
    Record {
        descriptor: encode(random, tree).bytes,
        data: fill(random, tree, most).data.big,
        stated: Err(refusal),
    }
}

/// 41.
fn no_cluster(random: &mut Random) -> Record {
    let tree = match random.below(5) {
        0 => blank(),
        1 => named(Body::Array(1, Box::new(blank())), b"blank"),
        2 => Tree::unnamed(Body::Array(1, Box::new(cluster(&[blank()])))),
        3 => named(Body::stamp(), b"blank"),
        _ => named(Body::Text, b"blank"),
    };
    let refusal = Answer {
        number: 41,
        input: 1,
        place: 0,
    };
    refused(random, &tree, refusal)
}

/// 42: another name, or none, for what was the identifier.
fn missing(random: &mut Random, source: &Source) -> Record {
    let mut members = source.members.clone();
    let names: [&[u8]; 6] = [b"blan", b"lank", b"BLANK", b"blank ", b"blanc", b""];
    let name = random.pick(&names).to_vec();
    let unnamed = random.once_in(6);
    let found = members.iter_mut().filter(|tree| is_blank(tree));
    found.for_each(|tree| tree.name = Some(name.clone()).filter(|_| !unnamed));
    refused(random, &cluster(&members), reader(42, 0))
}

/// 43: the name once or twice more, of whatever type.
fn doubled(random: &mut Random, source: &Source) -> Record {
    let mut members = source.members.clone();
    for _ in 0..random.pick(&[1, 1, 1, 2]) {
        let again = match random.once_in(2) {
            true => blank(),
            false => named(other_type(random), b"blank"),
        };
        let place = random.between(0, members.len());
        members.insert(place, again);
    }
    refused(random, &cluster(&members), reader(43, 0))
}

/// 44.
fn another_type(random: &mut Random, source: &Source) -> Record {
    let mut members = source.members.clone();
    let body = other_type(random);
    let found = members.iter_mut().filter(|tree| is_blank(tree));
    found.for_each(|tree| tree.body = body.clone());
    refused(random, &cluster(&members), reader(44, 0))
}

/// Any type but that of an identifier; many have data of four bytes.
fn other_type(random: &mut Random) -> Body {
    let word = Tree::unnamed(Body::Plain(0x07));
    match random.below(9) {
        0 => Body::Plain(0x03),
        1 => Body::Plain(0x09),
        2 => Body::Plain(random.pick(&[0x05, 0x06, 0x08, 0x21])),
        3 => Body::Enumeration(0x17, vec![b"blank".to_vec()]),
        4 => Body::Quantity(0x19, vec![[6, 1]]),
        5 => Body::Text,
        6 => Body::Array(1, Box::new(word)),
        7 => Body::Cluster(vec![word]),
        _ => Body::stamp(),
    }
}

/// A descriptor or data one byte longer than is read, or as long.
fn too_long(random: &mut Random, source: &Source, identifier: u32) -> Record {
    let mut record = source.record(random, identifier);
    let more = random.below(2);
    match random.once_in(2) {
        true => record.descriptor.resize(MOST_BYTES + more, 0),
        false => record.data.resize(MOST_DATA + more, 0),
    }
    Record::read(record.descriptor, record.data)
}
