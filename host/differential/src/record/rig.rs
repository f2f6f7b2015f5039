//! Rigs by chance: a writer's cluster of members, each with data of its own, and
//! others that agree with one on the members that a reader asks for.

use std::ops::Range;

use reference::MOST_DATA;

use crate::data::both::Both;
use crate::data::fill::{Flattened, Piece, fill, least};
use crate::grow;
use crate::random::Random;
use crate::tree::{Body, Tree, fits};

/// A member, its data and the pieces of that.
#[derive(Clone)]
pub struct Member {
    pub tree: Tree,
    pub data: Both,
    pieces: Vec<Piece>,
}

/// The members of a writer's cluster, and the cluster's own name.
pub struct Rig {
    pub members: Vec<Member>,
    name: Option<Vec<u8>>,
}

/// Names that are easily taken for each other.
const ALIKE: [&[u8]; 10] = [
    b"id",
    b"id2",
    b"i",
    b"ID",
    b"identifier",
    b"identified",
    b"temperature",
    b"temperatura",
    b"\0",
    b"\0\0",
];

/// Codes of one byte each.
pub const BYTES: [u8; 3] = [0x01, 0x05, 0x21];

/// A name with at least one character.
pub fn name(random: &mut Random) -> Vec<u8> {
    let name = grow::name(random).filter(|name| !name.is_empty());
    name.unwrap_or_else(|| random.pick(&ALIKE).to_vec())
}

/// A tree of one row.
pub fn number(code: u8, name: Vec<u8>) -> Tree {
    Tree {
        body: Body::Plain(code),
        name: Some(name),
    }
}

pub fn shuffle<T>(random: &mut Random, items: &mut [T]) {
    for last in (1..items.len()).rev() {
        items.swap(last, random.below(last + 1));
    }
}

impl Member {
    pub fn of(tree: Tree, filled: Flattened) -> Member {
        let Flattened { data, pieces, .. } = filled;
        Member { tree, data, pieces }
    }

    /// With data of at most so many bytes more than the tree needs.
    pub fn filled(random: &mut Random, tree: Tree, spare: usize) -> Member {
        let most = least(&tree) + random.between(0, spare);
        let filled = fill(random, &tree, most);
        Member::of(tree, filled)
    }
}

impl Rig {
    pub fn of(members: Vec<Member>) -> Rig {
        Rig {
            members,
            name: None,
        }
    }

    /// A rig by chance. Most names differ; a few are none, empty or another's.
    pub fn any(random: &mut Random) -> Rig {
        // Seldom very long, since that takes its time.
        let spare = match random.once_in(200) {
            true => 50_000,
            false => random.pick(&[0, 8, 40, 300]),
        };
        let trees = grow::for_record(random);
        Rig::with(random, trees, spare)
    }

    /// The same with at most three members, none of which has parts.
    pub fn small(random: &mut Random) -> Rig {
        let count = random.between(1, 3);
        let trees = (0..count).map(|_| grow::flat(random)).collect();
        Rig::with(random, trees, 8)
    }

    /// A rig of these trees under other names.
    fn with(random: &mut Random, trees: Vec<Tree>, spare: usize) -> Rig {
        let mut members: Vec<Member> = Vec::new();
        for mut tree in trees {
            tree.name = writer_name(random, &members);
            members.push(Member::filled(random, tree, spare));
        }
        let name = grow::name(random);
        Rig { members, name }.within_limits()
    }

    /// Takes members off the end until the rest keeps the limits, as one always
    /// does.
    fn within_limits(mut self) -> Rig {
        while self.members.len() > 1 && !self.fits() {
            self.members.pop();
        }
        self
    }

    fn fits(&self) -> bool {
        let length: usize = self.members.iter().map(|member| member.data.len()).sum();
        fits(&self.tree()) && length <= MOST_DATA
    }

    /// The writer's descriptor.
    pub fn tree(&self) -> Tree {
        let trees = self.members.iter().map(|member| member.tree.clone());
        Tree {
            body: Body::Cluster(trees.collect()),
            name: self.name.clone(),
        }
    }

    /// The data of all members.
    pub fn record(&self) -> Flattened {
        let mut record = Flattened {
            data: Both::new(),
            pieces: Vec::new(),
            parts: Vec::new(),
        };
        for member in &self.members {
            let start = record.data.len();
            let moved = |piece: &Piece| Piece {
                start: start + piece.start,
                depth: piece.depth + 1,
                ..*piece
            };
            record.pieces.extend(member.pieces.iter().map(moved));
            record.data = record.data.then(&member.data);
        }
        record
    }

    /// Where each member's data stands.
    pub fn spans(&self) -> Vec<Range<usize>> {
        let mut end = 0;
        let span = |member: &Member| {
            let start = end;
            end += member.data.len();
            start..end
        };
        self.members.iter().map(span).collect()
    }

    /// Another rig that agrees with this one on the members of these names: one
    /// keeps its type and its bytes, several are several again, and none stays
    /// none. All others come and go, and all are moved. What agrees comes first
    /// and is no longer than it was, so the limits cost others alone.
    pub fn agreeing(&self, random: &mut Random, names: &[Vec<u8>]) -> Rig {
        let mut members = Vec::new();
        for name in names {
            let named = |member: &&Member| member.tree.name.as_ref() == Some(name);
            let found: Vec<&Member> = self.members.iter().filter(named).collect();
            match found[..] {
                [] => {}
                [member] => members.push(member.clone()),
                _ => members.extend(several(random, name)),
            }
        }
        let asked_for = |tree: &Tree| tree.name.as_ref().is_some_and(|name| names.contains(name));
        let strangers = self.members.iter().filter(|_| random.once_in(2));
        let mut strangers: Vec<Member> = strangers.cloned().collect();
        for _ in 0..random.below(4) {
            let tree = Tree {
                name: grow::name(random),
                ..random_member(random)
            };
            strangers.push(Member::filled(random, tree, 40));
        }
        strangers.retain(|stranger| !asked_for(&stranger.tree));
        if members.is_empty() && strangers.is_empty() {
            let nameless = Tree::unnamed(Body::Plain(0x05));
            strangers.push(Member::filled(random, nameless, 0));
        }
        members.extend(strangers);
        let name = self.name.clone().filter(|_| random.once_in(2));
        let mut rig = Rig { members, name }.within_limits();
        shuffle(random, &mut rig.members);
        rig
    }
}

/// The name of the next member of a writer.
fn writer_name(random: &mut Random, members: &[Member]) -> Option<Vec<u8>> {
    let name = name(random);
    let taken = (members.iter()).any(|member| member.tree.name.as_ref() == Some(&name));
    match random.below(20) {
        0 => None,
        1 => Some(Vec::new()),
        2 if !members.is_empty() => members[random.below(members.len())].tree.name.clone(),
        _ if taken => Some(random.below(1_000_000).to_string().into_bytes()),
        _ => Some(name),
    }
}

/// Two members of one name.
fn several(random: &mut Random, name: &[u8]) -> [Member; 2] {
    [(); 2].map(|()| {
        let code = random.pick(&BYTES);
        Member::filled(random, number(code, name.to_vec()), 0)
    })
}

/// One tree that can be a member.
fn random_member(random: &mut Random) -> Tree {
    let mut trees = grow::for_record(random);
    trees.swap_remove(random.below(trees.len()))
}
