//! The questions about data: cases, and the two held against each other over
//! each.

pub mod ask;
pub mod both;
pub mod case;
pub mod damage;
pub mod fill;
mod form;
pub mod hold;
pub mod limits;
mod scalar;
