//! The inputs of a question before anything is wrong with them, and the faults that
//! can be put into each.

use reference::Answer;

use super::asked::Asked;
use crate::data::ask::Ask;
use crate::data::both::Both;
use crate::data::damage::damage as damage_data;
use crate::data::fill::{Flattened, Of, Piece, fill};
use crate::descriptor::case::encode;
use crate::descriptor::damage::damage;
use crate::entry::Entry;
use crate::grow;
use crate::random::Random;
use crate::record::rig::Rig;
use crate::record::wanted;
use crate::tight;
use crate::tree::{Encoded, Tree};
use crate::twin::twin;

/// The most bytes that data takes where its type lets it.
const SPARE: usize = 16;

pub struct Source {
    entry: Entry,
    first: Encoded,
    second: Encoded,
    data: Both,
    pieces: Vec<Piece>,
    path: Vec<u32>,
    /// A path that may lead nowhere.
    stray: Vec<u32>,
    room: usize,
    /// A room that is too small, where one can be.
    short: usize,
}

/// What is wrong with one input; a seed says what.
#[derive(Clone, Copy)]
pub enum Fault {
    First(u64),
    Second(u64),
    Data(u64),
    Path,
    Room,
}

impl Source {
    /// Small inputs for the entry.
    pub fn make(entry: Entry, random: &mut Random) -> Source {
        match entry {
            Entry::ReadRecord => record(random),
            _ => {
                let tree = tree(random);
                let mut source = bare(entry, encode(random, &tree));
                if entry == Entry::Compare {
                    source.second = partner(random, &tree);
                }
                if entry.reads_data() {
                    source.fill(random, &tree);
                }
                source
            }
        }
        .with_room(random)
    }

    fn fill(&mut self, random: &mut Random, tree: &Tree) {
        let filled = fill(random, tree, SPARE);
        let part = &filled.parts[random.below(filled.parts.len())];
        let step = match random.once_in(2) {
            true => part.steps,
            false => part.steps + random.below(9) as u32,
        };
        self.path.clone_from(&part.path);
        self.stray = Ask::past(part, step, &[]).path;
        self.data = filled.data;
        self.pieces = filled.pieces;
    }

    /// Room for what is written, up to two bytes more, and too little of it; any room
    /// where nothing is.
    fn with_room(mut self, random: &mut Random) -> Source {
        let answer = self.asked(&[]).map(|asked| asked.told().answer);
        let needed = match answer {
            Some(refusal) if refusal.number == 50 => refusal.place as usize,
            _ => 0,
        };
        self.room = needed + random.below(3);
        self.short = match needed {
            0 => self.room,
            _ if random.once_in(2) => needed - 1,
            _ => random.below(needed),
        };
        self
    }

    /// The faults that the entry's inputs can have, one of each kind.
    pub fn faults(&self, random: &mut Random) -> Vec<Fault> {
        let mut faults = vec![Fault::First(random.next())];
        if !self.second.bytes.is_empty() {
            faults.push(Fault::Second(random.next()));
        }
        if !self.pieces.is_empty() {
            faults.push(Fault::Data(random.next()));
        }
        if matches!(self.entry, Entry::View | Entry::ReadValue) {
            faults.push(Fault::Path);
        }
        if self.short < self.room {
            faults.push(Fault::Room);
        }
        faults
    }

    /// The question with these faults. There is none where one would have to be put
    /// into bytes that another has moved.
    pub fn asked(&self, faults: &[Fault]) -> Option<Asked> {
        let [mut first, mut second] = [&self.first, &self.second].map(Encoded::clone);
        let mut data = self.data.clone();
        let (mut path, mut room) = (&self.path, self.room);
        for fault in faults {
            match *fault {
                Fault::First(seed) => spoil(&mut first, seed)?,
                Fault::Second(seed) => spoil(&mut second, seed)?,
                Fault::Data(seed) => data = self.spoiled(data, seed)?,
                Fault::Path => path = &self.stray,
                Fault::Room => room = self.short,
            }
        }
        Some(Asked {
            entry: self.entry,
            first: first.bytes,
            second: second.bytes,
            data: match self.entry {
                Entry::FromLittleEndian => data.little,
                _ => data.big,
            },
            path: path.clone(),
            room,
        })
    }

    /// What kind of piece is at a refusal's place.
    pub fn piece(&self, refusal: Answer) -> Option<&'static str> {
        let mut pieces = self.pieces.iter().filter(|_| refusal.input == 3);
        let piece = pieces.find(|piece| piece.start == refusal.place as usize)?;
        Some(match piece.of {
            Of::Numbers(_) => "number",
            Of::Enumeration(_) => "enumeration",
            Of::Text => "string",
            Of::Sizes => "sizes",
        })
    }

    fn spoiled(&self, data: Both, seed: u64) -> Option<Both> {
        let filled = Flattened {
            data,
            pieces: self.pieces.clone(),
            parts: Vec::new(),
        };
        let whole = filled.data.len() == self.data.len();
        whole.then(|| damage_data(&mut Random::for_case(seed, 0), &filled).data)
    }
}

fn spoil(encoded: &mut Encoded, seed: u64) -> Option<()> {
    let whole = encoded.bytes.len() == usize::from(encoded.rows[0][2]);
    whole.then(|| encoded.bytes = damage(&mut Random::for_case(seed, 0), encoded).bytes)
}

/// A descriptor alone.
fn bare(entry: Entry, first: Encoded) -> Source {
    Source {
        entry,
        first,
        second: Encoded::default(),
        data: Both::new(),
        pieces: Vec::new(),
        path: Vec::new(),
        stray: Vec::new(),
        room: 0,
        short: 0,
    }
}

/// A small tree, or one at any depth, which may be too deep.
fn tree(random: &mut Random) -> Tree {
    match random.below(6) {
        0 => tight::deep(random),
        1 => grow::flat(random),
        _ => grow::small(random),
    }
}

/// The same tree, one that may differ in one thing, or another.
fn partner(random: &mut Random, like: &Tree) -> Encoded {
    let other = match random.below(4) {
        0 => tree(random),
        1 => twin(random, like).0,
        _ => like.clone(),
    };
    encode(random, &other)
}

/// A record and a reader made from its writer; now and then either is another tree.
fn record(random: &mut Random) -> Source {
    let rig = match random.once_in(3) {
        true => Rig::any(random),
        false => Rig::small(random),
    };
    let mut reader = wanted::any(random, &rig);
    let (mut writer, mut filled) = (rig.tree(), rig.record());
    match random.below(8) {
        0 => {
            writer = tree(random);
            filled = fill(random, &writer, SPARE);
        }
        1 => reader = tree(random),
        _ => {}
    }
    Source {
        second: encode(random, &reader),
        data: filled.data,
        pieces: filled.pieces,
        ..bare(Entry::ReadRecord, encode(random, &writer))
    }
}
