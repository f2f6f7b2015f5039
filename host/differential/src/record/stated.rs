//! What a reader's shape gives, told from the trees alone.

use std::ops::Range;

use reference::Answer;

use crate::answers::reader as of_reader;
use crate::tree::{Body, Tree};

/// The bytes given in room enough, or the refusal.
pub type Stated = Result<Vec<u8>, Answer>;

/// What is given of accepted data, whose members stand in these spans where the
/// writer is a cluster.
pub fn stated(writer: &Tree, reader: &Tree, data: &[u8], spans: &[Range<usize>]) -> Stated {
    let wanted = wanted(reader)?;
    let Body::Cluster(members) = &writer.body else {
        return Err(Answer {
            number: 41,
            input: 1,
            place: 0,
        });
    };
    let mut bytes = Vec::new();
    for (place, member) in wanted.iter().enumerate() {
        let numbers = 0..members.len();
        let named = |number: &usize| members[*number].name == member.name;
        let found: Vec<usize> = numbers.filter(named).collect();
        match found[..] {
            [] => return Err(of_reader(42, place)),
            [found] if members[found] == *member => bytes.extend(&data[spans[found].clone()]),
            [_] => return Err(of_reader(44, place)),
            _ => return Err(of_reader(43, place)),
        }
    }
    Ok(bytes)
}

/// The reader's members, or 40.
fn wanted(reader: &Tree) -> Result<&[Tree], Answer> {
    let Body::Cluster(members) = &reader.body else {
        return Err(of_reader(40, 0));
    };
    for (place, member) in members.iter().enumerate() {
        let named = member.name.as_ref().is_some_and(|name| !name.is_empty());
        let mut earlier = members[..place].iter();
        if !named || earlier.any(|other| other.name == member.name) {
            return Err(of_reader(40, place));
        }
    }
    Ok(members)
}
