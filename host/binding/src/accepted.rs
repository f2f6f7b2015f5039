//! Descriptors, data and blank books that the library has accepted, as types of their
//! own. A refusal is an error with its number, input and place. Nothing is judged here:
//! every question goes to the library, which judges all that it is lent again.
//! A descriptor is refused when it is made, as the first and only input: a
//! reader's then has input 1.
//!
//! ```
//! use kerbcanopy::accepted::{Descriptor, Refusal, Value};
//!
//! fn main() -> Result<(), Refusal> {
//!     // A cluster of a signed "t" and an unsigned "id", and what a rig sent.
//!     let rig = Descriptor::new(b"\x00\x14\x00\x50\x00\x02\x00\x06\x00\x02\x01t\x00\x08\x00\x07\x02id\x00")?;
//!     let sent = rig.data(&[0x00, 0x19, 0x00, 0x00, 0x00, 0x09])?;
//!     assert_eq!(sent.value(&[0])?, Value::Signed(25));
//!
//!     // What is asked for: the identifier, by its name and type.
//!     let reader = Descriptor::new(b"\x00\x0E\x00\x50\x00\x01\x00\x08\x00\x07\x02id\x00")?;
//!     let record = sent.read(&reader)?;
//!     assert_eq!(reader.data(&record)?.value(&[0])?, Value::Unsigned(9));
//!     Ok(())
//! }
//! ```

mod book;
mod data;
mod descriptor;
mod refusal;
mod stamp;
mod value;

pub use book::Book;
pub use data::Data;
pub use descriptor::Descriptor;
pub use refusal::Refusal;
pub use stamp::{Difference, Stamp};
pub use value::Value;

/// A row of a descriptor's table.
pub use crate::Row;

/// What an entry writes, given room for as much as it can write at most.
fn written(
    most: usize,
    ask: impl FnOnce(&mut [u8]) -> Result<usize, Refusal>,
) -> Result<Vec<u8>, Refusal> {
    let mut out = vec![0; most];
    let length = ask(&mut out)?;
    out.truncate(length);
    Ok(out)
}
