//! Writers, readers and records by chance, made member by member.

use super::random::{Random, any_data, any_type, encode};
use super::record::{describes, name, nameless, reserved};

/// A member of a writer, and its data.
#[derive(Clone)]
pub struct Member {
    pub descriptor: Vec<u8>,
    pub data: Vec<u8>,
}

/// Names that are easily taken for each other: some begin or end alike.
const NAMES: [&[u8]; 12] = [
    b"id",
    b"id2",
    b"i",
    b"d",
    b"identifier",
    b"identified",
    b"temperature",
    b"tempo",
    b"t",
    b"\x00",
    b"\x00\x00",
    b"pulse count",
];

fn any_name(random: &mut Random) -> Vec<u8> {
    match random.below(20) {
        0 => vec![b'n'; 1 + random.below(255)],
        _ => NAMES[random.below(NAMES.len())].to_vec(),
    }
}

/// The descriptor with another name, or with none.
pub fn renamed(descriptor: &[u8], name: Option<&[u8]>) -> Vec<u8> {
    let mut bytes = nameless(descriptor).to_vec();
    if let Some(name) = name {
        bytes.push(name.len() as u8);
        bytes.extend(name);
        bytes.resize(bytes.len().next_multiple_of(2), 0);
    }
    let size = (bytes.len() as u16).to_be_bytes();
    bytes[..2].copy_from_slice(&size);
    bytes
}

/// A cluster of these members, now and then with a name of its own.
pub fn cluster(members: &[Vec<u8>], random: &mut Random) -> Vec<u8> {
    let count = (members.len() as u16).to_be_bytes();
    let mut bytes = [&[0, 0, random.byte(), 0x50][..], &count, &members.concat()].concat();
    let size = (bytes.len() as u16).to_be_bytes();
    bytes[..2].copy_from_slice(&size);
    match random.once_in(3) {
        true => renamed(&bytes, Some(&any_name(random))),
        false => bytes,
    }
}

/// A member of this name with a type and data by chance.
fn any_member(random: &mut Random, name: Option<&[u8]>) -> Member {
    let levels = 1 + random.below(4);
    let of = any_type(random, levels);
    let descriptor = renamed(&encode(&of, random), name);
    let mut data = vec![];
    any_data(&of, random, 4, &mut data);
    Member { descriptor, data }
}

/// Members whose names differ, apart from a few that have none, an empty one or
/// another's.
pub fn any_writer(random: &mut Random) -> Vec<Member> {
    let mut members: Vec<Member> = vec![];
    for _ in 0..1 + random.below(7) {
        let new = any_name(random);
        let taken = (members.iter()).any(|member| name(&member.descriptor) == Some(&new));
        let name = match random.below(24) {
            0 => None,
            1 => Some(&[][..]),
            _ if taken && !random.once_in(12) => continue,
            _ => Some(&new[..]),
        };
        members.push(any_member(random, name));
    }
    if members.is_empty() {
        members.push(any_member(random, Some(b"id")));
    }
    members
}

/// Up to as many members as a cluster can have, all of them integers; few have
/// the name of another.
pub fn wide_writer(random: &mut Random) -> Vec<Member> {
    let spread = [1000, 1_000_000][random.below(2)];
    let mut member = || {
        let code = 1 + random.below(8);
        let width = 1 << ((code - 1) % 4);
        let name = format!("{}", random.below(spread));
        Member {
            descriptor: renamed(&[0, 4, 0, code as u8], Some(name.as_bytes())),
            data: (0..width).map(|_| random.byte()).collect(),
        }
    };
    let mut members: Vec<Member> = (0..255).map(|_| member()).collect();
    members.truncate(1 + random.below(255));
    members
}

pub fn shuffle<T>(items: &mut [T], random: &mut Random) {
    for last in (1..items.len()).rev() {
        items.swap(last, random.below(last + 1));
    }
}

/// A reader made from the writer's members: some of them in another order, with
/// other reserved bytes, now and then one renamed, retyped, doubled or new.
pub fn any_reader(writer: &[Member], random: &mut Random) -> Vec<u8> {
    let named = |member: &&Member| name(&member.descriptor).is_some_and(|name| !name.is_empty());
    let mut members: Vec<Vec<u8>> = (writer.iter().filter(named))
        .map(|member| member.descriptor.clone())
        .collect();
    shuffle(&mut members, random);
    members.truncate(1 + random.below(writer.len()));
    if members.is_empty() || random.once_in(12) {
        let name = any_name(random);
        members.push(any_member(random, Some(&name)).descriptor);
    }
    if random.once_in(4) {
        let place = random.below(members.len());
        spoil_member(&mut members, place, random);
    }
    let other = |member: &Vec<u8>| reserved(member, &mut || random.byte());
    let members: Vec<Vec<u8>> = members.iter().map(other).collect();
    cluster(&members, random)
}

fn spoil_member(members: &mut Vec<Vec<u8>>, place: usize, random: &mut Random) {
    let member = members[place].clone();
    match random.below(6) {
        0 => members[place] = renamed(&member, None),
        1 => members[place] = renamed(&member, Some(&[])),
        2 => members[place] = renamed(&member, Some(&any_name(random))),
        3 => members.push(member),
        _ => {
            // The same kind of type once more, so that only what is inside it differs,
            // or another type.
            let of = match random.once_in(2) {
                true => describes(&member),
                false => any_type(random, 3),
            };
            members[place] = renamed(&encode(&of, random), name(&member));
        }
    }
}

/// The writer's descriptor and the record.
pub fn record(members: &[Member], random: &mut Random) -> (Vec<u8>, Vec<u8>) {
    let descriptors: Vec<Vec<u8>> = members
        .iter()
        .map(|member| member.descriptor.clone())
        .collect();
    let data = members.iter().flat_map(|member| member.data.clone());
    (cluster(&descriptors, random), data.collect())
}

/// Another writer that agrees with this one on the members of these names: they
/// keep their types and bytes, or are again several; all others come and go.
pub fn agreeing(writer: &[Member], names: &[&[u8]], random: &mut Random) -> Vec<Member> {
    let wanted = |member: &Member| {
        let name = name(&member.descriptor);
        name.filter(|name| names.contains(name)).map(<[u8]>::to_vec)
    };
    let mut others: Vec<Member> = vec![];
    for member in writer {
        let Some(name) = wanted(member) else {
            if random.once_in(2) {
                others.push(member.clone());
            }
            continue;
        };
        let alike = (writer.iter()).filter(|other| wanted(other).as_ref() == Some(&name));
        match alike.count() {
            1 => others.push(Member {
                descriptor: reserved(&member.descriptor, &mut || random.byte()),
                data: member.data.clone(),
            }),
            _ => others.push(any_member(random, Some(&name))),
        }
    }
    for _ in 0..random.below(4) {
        let name = any_name(random);
        if !names.contains(&&name[..]) {
            others.push(any_member(random, Some(&name)));
        }
    }
    if others.is_empty() {
        others.push(any_member(random, None));
    }
    shuffle(&mut others, random);
    others
}
