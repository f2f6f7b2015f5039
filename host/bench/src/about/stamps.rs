//! The rows about the difference of two time stamps.

use crate::case::Case;
use crate::questions::stamp_difference;

pub fn rows() -> Vec<Case> {
    let half = 1 << 31;
    let (early, late) = ([0, 0xE206_CAA6, 3 << 30, 0], [0, 0xE206_CB00, half, 0]);
    let (first, last) = ([half, 0, 0, 0], [half - 1, u32::MAX, 0, 0]);
    [
        ("a second borrowed", late, early),
        ("the earlier first", early, late),
        ("refused: too far apart", last, first),
    ]
    .map(|(what, first, second)| {
        let asked = stamp_difference(first, second);
        Case::early("stamp_difference", what, asked)
    })
    .into()
}
