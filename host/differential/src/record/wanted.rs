//! Readers by chance, made from a writer's members.

use super::rig::{self, BYTES, Rig, shuffle};
use crate::grow;
use crate::random::Random;
use crate::tree::{Body, Tree};
use crate::twin::twin;

/// A reader of some of the writer's members in any order, now and then with one
/// that is renamed, retyped, doubled or new.
pub fn any(random: &mut Random, rig: &Rig) -> Tree {
    let mut members: Vec<Tree> = Vec::new();
    for member in &rig.members {
        let taken = (members.iter()).any(|other| other.name == member.tree.name);
        let named = member
            .tree
            .name
            .as_ref()
            .is_some_and(|name| !name.is_empty());
        if named && !taken {
            members.push(member.tree.clone());
        }
    }
    shuffle(random, &mut members);
    if !random.once_in(4) {
        members.truncate(random.between(1, rig.members.len()));
    }
    if members.is_empty() || random.once_in(12) {
        members.push(stranger(random));
    }
    if random.once_in(3) {
        change(random, &mut members);
    }
    Tree {
        body: Body::Cluster(members),
        name: grow::name(random),
    }
}

/// The names of a reader's members.
pub fn names(reader: &Tree) -> Vec<Vec<u8>> {
    match &reader.body {
        Body::Cluster(members) => {
            let names = members.iter().filter_map(|member| member.name.clone());
            names.filter(|name| !name.is_empty()).collect()
        }
        _ => Vec::new(),
    }
}

fn stranger(random: &mut Random) -> Tree {
    rig::number(random.pick(&BYTES), rig::name(random))
}

/// Changes one of the members.
fn change(random: &mut Random, members: &mut Vec<Tree>) {
    let place = random.below(members.len());
    let member = &mut members[place];
    match random.below(12) {
        0 => member.name = None,
        1 => member.name = Some(Vec::new()),
        2 => member.name = Some(rig::name(random)),
        3 => {
            let copy = member.clone();
            members.insert(random.between(place, members.len()), copy);
        }
        4 => member.body = Body::Plain(random.pick(&BYTES)),
        5 => member.body = Body::Text,
        6 => member.body = Body::stamp(),
        _ => member.body = twin(random, member).0.body,
    }
}
