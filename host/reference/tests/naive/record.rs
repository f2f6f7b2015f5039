//! A record in a reader's shape, written straight from document 01: each member
//! is looked for among all others, and its bytes are walked to from the start.

use reference::{Answer, check_descriptor};

use super::{Type, Walk, find};

fn word(bytes: &[u8], place: usize) -> usize {
    usize::from(bytes[place]) << 8 | usize::from(bytes[place + 1])
}

/// Where the descriptors that stand directly in an accepted one start.
fn inside(descriptor: &[u8]) -> Vec<usize> {
    let (first, count) = match descriptor[3] {
        0x40 => (6 + 4 * word(descriptor, 4), 1),
        0x50 => (6, word(descriptor, 4)),
        0x54 => (6, 1),
        _ => (0, 0),
    };
    let mut start = first;
    let mut starts = vec![];
    for _ in 0..count {
        starts.push(start);
        start += word(descriptor, start);
    }
    starts
}

/// The descriptor at this place of another.
fn at(descriptor: &[u8], start: usize) -> &[u8] {
    &descriptor[start..start + word(descriptor, start)]
}

/// What stands directly in an accepted descriptor.
pub fn members(descriptor: &[u8]) -> Vec<&[u8]> {
    let starts = inside(descriptor).into_iter();
    starts.map(|start| at(descriptor, start)).collect()
}

/// Everything before the name of an accepted descriptor.
pub fn nameless(descriptor: &[u8]) -> &[u8] {
    let end = match descriptor[3] {
        0x15..=0x17 => {
            let items = 0..word(descriptor, 4);
            let end = items.fold(6, |end, _| end + 1 + usize::from(descriptor[end]));
            end.next_multiple_of(2)
        }
        0x19..=0x1E => 6 + 4 * word(descriptor, 4),
        0x30 => 8,
        0x40 | 0x50 | 0x54 => {
            let last = *inside(descriptor).last().unwrap();
            last + word(descriptor, last)
        }
        _ => 4,
    };
    &descriptor[..end]
}

/// The name of an accepted descriptor, if it has one.
pub fn name(descriptor: &[u8]) -> Option<&[u8]> {
    match &descriptor[nameless(descriptor).len()..] {
        [] => None,
        [length, characters @ ..] => Some(&characters[..usize::from(*length)]),
    }
}

/// A copy of an accepted descriptor with other reserved bytes.
pub fn reserved(descriptor: &[u8], byte: &mut impl FnMut() -> u8) -> Vec<u8> {
    let mut copy = descriptor.to_vec();
    copy[2] = byte();
    for start in inside(descriptor) {
        let member = reserved(at(descriptor, start), byte);
        copy[start..start + member.len()].copy_from_slice(&member);
    }
    copy
}

/// Whether two accepted descriptors are equal: their normal forms are the same.
pub fn equal(first: &[u8], second: &[u8]) -> bool {
    let normal = |descriptor| reserved(descriptor, &mut || 0);
    normal(first) == normal(second)
}

/// What an accepted descriptor describes.
pub fn describes(descriptor: &[u8]) -> Type {
    let mut inside = members(descriptor).into_iter().map(describes);
    match descriptor[3] {
        0x30 => Type::Text,
        0x40 => Type::Array {
            dimensions: word(descriptor, 4),
            element: Box::new(inside.next().unwrap()),
        },
        0x50 => Type::Cluster(inside.collect()),
        0x54 => Type::Stamp(Box::new(inside.next().unwrap())),
        code => Type::Scalar {
            code,
            items: match code {
                0x15..=0x17 => word(descriptor, 4) as u32,
                _ => 0,
            },
        },
    }
}

fn answer(number: u32, input: u32, place: usize) -> Answer {
    Answer {
        number,
        input,
        place: place as u32,
    }
}

/// The answer in this much room, and the bytes that are given.
pub fn read_record(writer: &[u8], reader: &[u8], data: &[u8], room: usize) -> (Answer, Vec<u8>) {
    match joined(writer, reader, data) {
        Err(refusal) => (refusal, vec![]),
        Ok(bytes) if bytes.len() > room => (answer(50, 4, bytes.len()), vec![]),
        Ok(bytes) => (answer(0, 0, bytes.len()), bytes),
    }
}

/// The bytes of the reader's members.
fn joined(writer: &[u8], reader: &[u8], data: &[u8]) -> Result<Vec<u8>, Answer> {
    for (input, descriptor) in [(1, writer), (2, reader)] {
        let refusal = check_descriptor(descriptor).answer;
        if refusal.number != 0 {
            return Err(Answer { input, ..refusal });
        }
    }
    let top = describes(writer);
    if let Err((number, place)) = Walk::whole(&top, data, false) {
        return Err(answer(number, 3, place));
    }
    judge_reader(reader)?;
    if writer[3] != 0x50 {
        return Err(answer(41, 1, 0));
    }
    let mut bytes = vec![];
    for (number, member) in members(reader).into_iter().enumerate() {
        let found = search(writer, member).map_err(|refusal| answer(refusal, 2, number))?;
        let part = find(&top, data, &[found as u32]).unwrap();
        bytes.extend(&data[part.start..part.end]);
    }
    Ok(bytes)
}

/// 40.
fn judge_reader(reader: &[u8]) -> Result<(), Answer> {
    if reader[3] != 0x50 {
        return Err(answer(40, 2, 0));
    }
    let members = members(reader);
    for (number, member) in members.iter().enumerate() {
        let earlier = members[..number].iter();
        match name(member) {
            None | Some([]) => return Err(answer(40, 2, number)),
            name if earlier.clone().any(|other| self::name(other) == name) => {
                return Err(answer(40, 2, number));
            }
            Some(_) => {}
        }
    }
    Ok(())
}

/// The number of the writer's member that has this one's name and type, or 42, 43
/// or 44.
fn search(writer: &[u8], member: &[u8]) -> Result<usize, u32> {
    let members = members(writer);
    let numbers = 0..members.len();
    let found: Vec<usize> = numbers
        .filter(|number| name(members[*number]) == name(member))
        .collect();
    match found[..] {
        [] => Err(42),
        [found] if equal(members[found], member) => Ok(found),
        [_] => Err(44),
        _ => Err(43),
    }
}
