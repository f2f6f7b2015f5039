//! The blank book: cases of whole sequences of questions, and the two held against
//! each other over each.

pub mod case;
mod damage;
pub mod hold;
mod identifiers;
pub mod known;
pub mod limits;
mod long;
pub mod record;
mod shelf;
mod source;
mod strange;
