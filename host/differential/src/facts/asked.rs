//! A question with all that is lent for it, and what the second implementation
//! gives.

use reference::{Answer, Row};

use crate::descriptor::hold::words;
use crate::entry::Entry;
use crate::tree::StatedRow;

/// What every room is filled with.
const FILL: u8 = 0xEE;

/// A question; what its entry doesn't take is empty.
#[derive(PartialEq, Eq)]
pub struct Asked {
    pub entry: Entry,
    pub first: Vec<u8>,
    pub second: Vec<u8>,
    pub data: Vec<u8>,
    pub path: Vec<u32>,
    pub room: usize,
}

/// Everything that a caller gets.
pub struct Told {
    pub answer: Answer,
    pub given: Given,
}

/// What a caller gets beside the answer.
pub enum Given {
    Nothing,
    Rows(Vec<StatedRow>),
    Equal(bool),
    Part { start: usize, length: usize },
    Value { kind: u32, bits: u64 },
    Output(Vec<u8>),
}

impl Asked {
    /// How many bytes are lent.
    pub fn length(&self) -> usize {
        self.first.len() + self.second.len() + self.data.len()
    }

    /// Whether that in which the other question differs from the intact one stands here as
    /// well, as far as this one's bytes go.
    pub fn keeps(&self, intact: &Asked, other: &Asked) -> bool {
        let inputs = [
            (&self.first, &intact.first, &other.first),
            (&self.second, &intact.second, &other.second),
            (&self.data, &intact.data, &other.data),
        ];
        let bytes = inputs.map(|(here, intact, other)| kept(here, intact, other));
        let path = kept(&self.path, &intact.path, &other.path);
        let room = kept(&[self.room], &[intact.room], &[other.room]);
        let all = [&bytes[..], &[path, room]].concat();
        all.contains(&Some(true)) && !all.contains(&Some(false))
    }

    pub fn told(&self) -> Told {
        let (first, data, path) = (&self.first, &self.data, &self.path);
        match self.entry {
            Entry::CheckDescriptor => rows(first),
            Entry::Compare => {
                let compared = reference::compare(first, &self.second);
                told(compared.answer, Given::Equal(compared.equal))
            }
            Entry::CheckData => told(reference::check_data(first, data), Given::Nothing),
            Entry::View => {
                let part = reference::view(first, data, path);
                let (start, length) = (part.start, part.length);
                told(part.answer, Given::Part { start, length })
            }
            Entry::ReadValue => {
                let value = reference::read_value(first, data, path);
                let (kind, bits) = (value.kind, value.bits);
                told(value.answer, Given::Value { kind, bits })
            }
            _ => self.written(),
        }
    }

    /// The answer, and the room after it.
    fn written(&self) -> Told {
        let (first, data) = (&self.first, &self.data);
        let mut room = vec![FILL; self.room];
        let answer = match self.entry {
            Entry::NormalForm => reference::normal_form(first, &mut room),
            Entry::ToLittleEndian => reference::to_little_endian(first, data, &mut room),
            Entry::FromLittleEndian => reference::from_little_endian(first, data, &mut room),
            _ => reference::read_record(first, &self.second, data, &mut room),
        };
        told(answer, Given::Output(room))
    }
}

/// Whether the other's changes of what was intact are here; there may be none, or none
/// that lies so far in front.
fn kept<T: PartialEq>(here: &[T], intact: &[T], other: &[T]) -> Option<bool> {
    let places = 0..intact.len().max(other.len());
    let mut changed = places.filter(|place| other.get(*place) != intact.get(*place));
    let first = changed.next()?;
    let same = |place: usize| here.get(place).is_none() || here.get(place) == other.get(place);
    match first < here.len() || other.len() == here.len() {
        true => Some(same(first) && changed.all(same)),
        false => Some(false),
    }
}

fn told(answer: Answer, given: Given) -> Told {
    Told { answer, given }
}

fn rows(descriptor: &[u8]) -> Told {
    let checked = reference::check_descriptor(descriptor);
    let used = checked.rows.iter().filter(|row| **row != Row::ZERO);
    told(checked.answer, Given::Rows(used.map(words).collect()))
}
