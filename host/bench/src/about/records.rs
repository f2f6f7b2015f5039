//! The rows about records in a reader's shape.

use crate::asked::Asked;
use crate::case::Case;
use crate::inputs::shapes::{self, Shape};
use crate::questions::{ROOM, read_record};

const ENTRY: &str = "read_record";

pub fn rows() -> Vec<Case> {
    let mut cases = Vec::new();
    for shape in shapes::accepted().iter().chain(&shapes::refused_last()) {
        let asked = ask(shape, ROOM);
        cases.push(Case::new(ENTRY, &shape.what, shape.data.len(), asked));
    }
    for shape in shapes::refused_soon() {
        cases.push(Case::early(ENTRY, &shape.what, ask(&shape, ROOM)));
    }
    let shape = &shapes::accepted()[1];
    let asked = ask(shape, shape.data.len() - 1);
    let what = "14 out of 14 members, refused: no room";
    cases.push(Case::new(ENTRY, what, shape.data.len(), asked));
    cases
}

pub fn ask(shape: &Shape, room: usize) -> Asked {
    read_record(&shape.writer, &shape.reader, &shape.data, room)
}
