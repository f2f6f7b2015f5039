//! `book`: one file for a run of records.

pub mod calls;
mod file;
pub mod killed;
mod moments;
mod names;
mod questions;
mod together;

use crate::common::books::{blank, plain};
use crate::common::{Folder, Ran};

/// A folder with a book of four entries that has records 9 and 14, and a record's
/// descriptor.
pub fn shelf(test: &str) -> Folder {
    let folder = Folder::new(test);
    folder.put("book", &plain(4, 200, &[9, 14]));
    folder.put("types", &blank());
    folder
}

/// Adds a record of this identifier alone.
fn add(folder: &Folder, identifier: u32) -> Ran {
    let data = data(folder, identifier);
    folder.run(&["book", "add", "book", "types", &data])
}

/// A file with a record's data, by its name.
pub fn data(folder: &Folder, identifier: u32) -> String {
    let name = format!("data-{identifier}");
    folder.put(&name, &identifier.to_be_bytes());
    name
}

/// The identifiers that are listed.
fn identifiers(folder: &Folder) -> Vec<u32> {
    let listed = folder.run(&["book", "list", "book"]);
    let numbers = listed.text().lines().map(str::parse);
    numbers.map(|number| number.expect("it is one")).collect()
}
