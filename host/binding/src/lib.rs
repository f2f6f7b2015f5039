//! Safe entries over the proved library `libkerbcanopy.a`. Each passes its
//! slices or numbers on and hands the library's answer back unchanged.
//!
//! A program that wants `Result`s and types of its own for what was accepted
//! starts at [`accepted`].
#![deny(unsafe_op_in_unsafe_fn)]

pub mod accepted;
mod data;
mod descriptor;
#[cfg(test)]
mod layout;
pub mod lent;
mod limits;
mod meaning;
mod raw;
mod record;
mod stamp;
mod store;
mod version;

pub use data::{check_data, from_little_endian, read_value, to_little_endian, view};
pub use descriptor::{Compared, check_descriptor, compare, normal_form};
pub use limits::{BOOK_LIMIT, DATA_LIMIT, DESCRIPTOR_LIMIT};
pub use meaning::meaning;
pub use raw::{Answer, Checked, Difference, Part, Row, Value};
pub use record::read_record;
pub use stamp::{Stamp, stamp_difference};
pub use store::{store_add, store_check, store_find, store_list};
pub use version::{Version, version};
