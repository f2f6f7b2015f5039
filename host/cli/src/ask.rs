//! The questions: each asks the library and puts its answer into words.

mod book;
mod data;
mod descriptor;
mod dump;
mod explain;
mod record;
mod stamp;

pub use book::{
    add as book_add, check as book_check, find as book_find, list as book_list, new as book_new,
};
pub use data::{big, data, little, value, view};
pub use descriptor::{check, compare, normal};
pub use dump::dump;
pub use explain::explain;
pub use record::read;
pub use stamp::difference;
