//! Rigs whose records a book takes: clusters with one member "blank", an unsigned
//! number of 32 bits, among others.

use super::record::Record;
use crate::data::fill::Flattened;
use crate::descriptor::case::encode;
use crate::grow;
use crate::random::Random;
use crate::record::rig::{Member, Rig, shuffle};
use crate::tree::{Body, Tree, fits};

/// The members of a rig's cluster, and its descriptor.
#[derive(Clone)]
pub struct Source {
    pub members: Vec<Tree>,
    pub descriptor: Vec<u8>,
}

/// Names that are easily taken for the one that counts.
const ALIKE: [&[u8]; 8] = [
    b"blan", b"blank2", b"Blank", b"blanK", b"blink", b"\0lank", b"blank\0", b"",
];

/// The member that counts.
pub fn blank() -> Tree {
    named(Body::Plain(0x07), b"blank")
}

pub fn named(body: Body, name: &[u8]) -> Tree {
    Tree {
        body,
        name: Some(name.to_vec()),
    }
}

pub fn is_blank(tree: &Tree) -> bool {
    tree.name.as_deref() == Some(b"blank")
}

pub fn cluster(members: &[Tree]) -> Tree {
    Tree::unnamed(Body::Cluster(members.to_vec()))
}

/// A member that isn't the identifier, even where it looks like it.
fn other(random: &mut Random) -> Tree {
    let mut tree = match random.below(8) {
        0 => Tree::unnamed(Body::Plain(0x07)),
        1 => Tree::unnamed(Body::Text),
        2 => cluster(&[blank()]),
        3 => Tree::unnamed(Body::Array(1, Box::new(blank()))),
        4 => grow::small(random),
        _ => grow::flat(random),
    };
    tree.name = match random.below(4) {
        0 => None,
        1 => Some(random.pick(&ALIKE).to_vec()),
        _ => grow::name(random),
    };
    tree.name = tree.name.filter(|name| name != b"blank");
    tree
}

impl Source {
    /// The rig of these members.
    pub fn new(random: &mut Random, members: Vec<Tree>) -> Source {
        let descriptor = encode(random, &cluster(&members)).bytes;
        Source {
            members,
            descriptor,
        }
    }

    /// A rig by chance, mostly of few members.
    pub fn any(random: &mut Random) -> Source {
        let count = random.pick(&[0, 0, 1, 1, 2, 3, 5]);
        let mut members: Vec<Tree> = match random.once_in(16) {
            true => grow::for_record(random),
            false => (0..count).map(|_| other(random)).collect(),
        };
        members.retain(|tree| !is_blank(tree));
        let place = random.between(0, members.len());
        members.insert(place, blank());
        if !fits(&cluster(&members)) {
            members = vec![other(random), blank()];
        }
        Source::new(random, members)
    }

    /// The same members in another order, or with other reserved bytes: a descriptor
    /// that is as long.
    pub fn turned(&self, random: &mut Random) -> Source {
        let mut members = self.members.clone();
        shuffle(random, &mut members);
        Source::new(random, members)
    }

    /// Data of this rig, at most so many bytes longer in each member than it must be.
    pub fn filled(&self, random: &mut Random, identifier: u32, spare: usize) -> Flattened {
        let members = self.members.iter().map(|tree| {
            let mut member = Member::filled(random, tree.clone(), spare);
            if is_blank(tree) {
                member.data.set_number(0, &identifier.to_be_bytes());
            }
            member
        });
        Rig::of(members.collect()).record()
    }

    pub fn record(&self, random: &mut Random, identifier: u32) -> Record {
        let spare = random.pick(&[0, 0, 8, 40]);
        Record {
            descriptor: self.descriptor.clone(),
            data: self.filled(random, identifier, spare).data.big,
            stated: Ok(identifier),
        }
    }
}
