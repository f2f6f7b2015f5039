//! All that is timed, by entry.

mod books;
mod calls;
mod data;
mod descriptors;
mod growth;
mod order;
mod paths;
mod records;
mod stamps;

use crate::case::Case;

pub use growth::{Along, Curve, curves};

/// The rows of the table.
pub fn rows() -> Vec<Case> {
    let mut rows = calls::rows();
    rows.extend(descriptors::rows());
    rows.extend(data::rows());
    rows.extend(order::rows());
    rows.extend(paths::rows());
    rows.extend(records::rows());
    rows.extend(stamps::rows());
    rows.extend(books::rows());
    rows
}
