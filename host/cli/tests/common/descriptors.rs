//! Descriptors put together from their parts.

/// A descriptor without a name: size, code, body.
pub fn descriptor(code: u8, body: &[u8]) -> Vec<u8> {
    let head = vec![0, 0, 0, code];
    sized([&head, body].concat())
}

/// The same with a name.
pub fn named(mut descriptor: Vec<u8>, name: &[u8]) -> Vec<u8> {
    descriptor.push(name.len() as u8);
    descriptor.extend(name);
    sized(even(descriptor))
}

pub fn enumeration(code: u8, items: &[&[u8]]) -> Vec<u8> {
    let mut body = counted(items.len());
    for item in items {
        body.push(item.len() as u8);
        body.extend(*item);
    }
    descriptor(code, &even(body))
}

/// A physical quantity with these pairs of base index and exponent.
pub fn quantity(code: u8, pairs: &[(u16, i16)]) -> Vec<u8> {
    let mut body = counted(pairs.len());
    for (base, exponent) in pairs {
        body.extend(base.to_be_bytes());
        body.extend(exponent.to_be_bytes());
    }
    descriptor(code, &body)
}

pub fn string() -> Vec<u8> {
    descriptor(0x30, &[0xFF; 4])
}

pub fn array(dimensions: usize, element: &[u8]) -> Vec<u8> {
    let sizes = vec![0xFF; 4 * dimensions];
    descriptor(
        0x40,
        &[counted(dimensions), sizes, element.to_vec()].concat(),
    )
}

pub fn cluster(members: &[Vec<u8>]) -> Vec<u8> {
    descriptor(0x50, &[counted(members.len()), members.concat()].concat())
}

/// A time stamp's one part.
pub fn halves() -> Vec<u8> {
    cluster(&[3, 3, 7, 7].map(|code| descriptor(code, &[])))
}

pub fn time_stamp() -> Vec<u8> {
    descriptor(0x54, &[&[0, 6], &halves()[..]].concat())
}

fn counted(count: usize) -> Vec<u8> {
    (count as u16).to_be_bytes().to_vec()
}

fn even(mut bytes: Vec<u8>) -> Vec<u8> {
    bytes.resize(bytes.len().next_multiple_of(2), 0);
    bytes
}

/// Puts the size that they have into a descriptor's bytes.
fn sized(mut bytes: Vec<u8>) -> Vec<u8> {
    let size = (bytes.len() as u16).to_be_bytes();
    bytes[..2].copy_from_slice(&size);
    bytes
}
