//! The rows about a call by itself: a descriptor or a book that is too long is
//! refused before a byte of it is read.

use crate::case::Case;
use crate::questions::{self, ROOM};

pub fn rows() -> Vec<Case> {
    let long = [0; 4097];
    let mut rows: Vec<Case> = [
        ("check_descriptor", questions::check_descriptor(&long)),
        ("compare", questions::compare(&long, &[])),
        ("normal_form", questions::normal_form(&long, ROOM)),
        ("check_data", questions::check_data(&long, &[])),
        (
            "to_little_endian",
            questions::to_little_endian(&long, &[], ROOM),
        ),
        (
            "from_little_endian",
            questions::from_little_endian(&long, &[], ROOM),
        ),
        ("read_value", questions::read_value(&long, &[], &[vec![]])),
        ("view", questions::view(&long, &[], &[vec![]])),
        ("read_record", questions::read_record(&long, &[], &[], ROOM)),
    ]
    .map(|(entry, asked)| Case::early(entry, "4,097 bytes, refused at once", asked))
    .into();
    rows.extend(of_books());
    rows
}

fn of_books() -> [Case; 4] {
    let long = [0; 65537];
    [
        ("store_check", questions::store_check(&long)),
        ("store_add", questions::store_add(&long, &[], &[])),
        ("store_find", questions::store_find(&long, &[0])),
        ("store_list", questions::store_list(&long, 1)),
    ]
    .map(|(entry, asked)| Case::early(entry, "65,537 bytes, refused at once", asked))
}
