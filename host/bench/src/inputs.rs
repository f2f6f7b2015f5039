//! What the questions are about.

pub mod books;
pub mod descriptors;
pub mod elements;
pub mod records;
pub mod shapes;
pub mod variants;
