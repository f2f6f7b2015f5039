//! Differences of two time stamps: the cases and how they are held.

pub mod case;
pub mod hold;
pub mod limits;
pub mod time;
