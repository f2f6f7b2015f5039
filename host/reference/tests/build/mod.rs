//! Descriptors and answers put together by hand.

pub mod book;

use reference::{Answer, Row, check_descriptor};

/// A descriptor of this code with these bytes behind the header.
fn descriptor(code: u8, behind: &[u8]) -> Vec<u8> {
    let size = (4 + behind.len()) as u16;
    [&size.to_be_bytes(), &[0, code][..], behind].concat()
}

pub fn plain(code: u8) -> Vec<u8> {
    descriptor(code, &[])
}

pub fn text() -> Vec<u8> {
    descriptor(0x30, &[0xFF; 4])
}

/// An enumeration of so many items without characters.
pub fn enumeration(code: u8, items: u16) -> Vec<u8> {
    let mut behind = items.to_be_bytes().to_vec();
    behind.resize(2 + usize::from(items).next_multiple_of(2), 0);
    descriptor(code, &behind)
}

/// Metres.
pub fn quantity(code: u8) -> Vec<u8> {
    descriptor(code, &[0, 1, 0, 3, 0, 1])
}

pub fn array(dimensions: u8, element: &[u8]) -> Vec<u8> {
    let words = vec![0xFF; 4 * usize::from(dimensions)];
    descriptor(0x40, &[&[0, dimensions], &words[..], element].concat())
}

pub fn cluster(members: &[Vec<u8>]) -> Vec<u8> {
    let count = (members.len() as u16).to_be_bytes();
    descriptor(0x50, &[&count[..], &members.concat()].concat())
}

/// The descriptor with this name behind it.
pub fn named(mut descriptor: Vec<u8>, name: &str) -> Vec<u8> {
    descriptor.push(name.len() as u8);
    descriptor.extend(name.bytes());
    descriptor.resize(descriptor.len().next_multiple_of(2), 0);
    let size = (descriptor.len() as u16).to_be_bytes();
    descriptor[..2].copy_from_slice(&size);
    descriptor
}

pub fn answer(number: u32, input: u32, place: u32) -> Answer {
    Answer {
        number,
        input,
        place,
    }
}

/// Checks that the descriptor is accepted with exactly these rows.
#[track_caller]
pub fn accepted(descriptor: &[u8], rows: &[[u16; 7]]) {
    let checked = check_descriptor(descriptor);
    let expected = answer(0, 0, rows.len() as u32);
    assert_eq!(checked.answer, expected, "{descriptor:02X?}");
    for (index, row) in checked.rows.iter().enumerate() {
        let [code, start, size, depth, count, name_place, name_length] =
            rows.get(index).copied().unwrap_or_default();
        let stated = Row {
            code,
            start,
            size,
            depth,
            count,
            name_place,
            name_length,
        };
        assert_eq!(*row, stated, "{descriptor:02X?}, row {index}");
    }
}
