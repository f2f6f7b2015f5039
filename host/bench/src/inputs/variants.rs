//! Copies of an accepted descriptor that differ or are refused, early or late.
//! Early is in the first descriptor inside, late in the last name.

use reference::Row;

/// A copy with this value in every reserved byte.
pub fn with_reserved(bytes: &[u8], value: u8) -> Vec<u8> {
    let mut copy = bytes.to_vec();
    for row in rows(bytes) {
        copy[usize::from(row.start) + 2] = value;
    }
    copy
}

/// A copy in which the first member's name has another first character.
pub fn early_difference(bytes: &[u8]) -> Vec<u8> {
    let first = rows(bytes)[1];
    with_another(bytes, usize::from(first.name_place))
}

/// A copy in which the last row's name has another last character.
pub fn late_difference(bytes: &[u8]) -> Vec<u8> {
    let last = last(bytes);
    with_another(bytes, usize::from(last.name_place + last.name_length - 1))
}

/// A copy whose first row inside has a code that is not carried: 5.
pub fn refused_early(bytes: &[u8]) -> Vec<u8> {
    let first = rows(bytes)[1];
    let mut copy = bytes.to_vec();
    copy[usize::from(first.start) + 3] = 0;
    copy
}

/// A copy whose last row has a name that runs over: 11. Where it has no name, two
/// bytes stand after the top: 12.
pub fn refused_late(bytes: &[u8]) -> Vec<u8> {
    let mut copy = bytes.to_vec();
    match usize::from(last(bytes).name_place) {
        0 => copy.extend([0, 0]),
        place => copy[place - 1] += 2,
    }
    copy
}

fn rows(bytes: &[u8]) -> Vec<Row> {
    let checked = reference::check_descriptor(bytes);
    checked.rows[..checked.answer.place as usize].to_vec()
}

fn last(bytes: &[u8]) -> Row {
    let rows = rows(bytes);
    rows[rows.len() - 1]
}

fn with_another(bytes: &[u8], place: usize) -> Vec<u8> {
    let mut copy = bytes.to_vec();
    copy[place] ^= 1;
    copy
}
