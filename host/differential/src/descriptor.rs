//! The questions about descriptors: cases, and the two held against each other
//! over each.

pub mod case;
pub mod damage;
pub mod fault;
pub mod hold;
pub mod limits;
