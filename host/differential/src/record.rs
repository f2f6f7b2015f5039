//! The question about a record in a reader's shape: cases, and the two held
//! against each other over each.

pub mod case;
pub mod hold;
pub mod limits;
pub mod rig;
mod stated;
pub mod wanted;
mod wide;
