//! A number of the data.

use crate::raw;

/// A number by its kind. Singles and doubles have their exact bits.
#[derive(Clone, Copy, Debug, PartialEq)]
pub enum Value {
    /// Codes 05 to 08, and the enumerations 15 to 17.
    Unsigned(u64),
    /// Codes 01 to 04.
    Signed(i64),
    /// Codes 09 and 19.
    Single(f32),
    /// Codes 0A and 1A.
    Double(f64),
    /// Code 21: false for the byte 00, true for every other.
    Flag(bool),
}

impl Value {
    /// The value of an answer that accepts.
    ///
    /// # Panics
    ///
    /// If the library hands back a kind that its header does not have.
    pub(super) fn of(read: raw::Value) -> Value {
        match read.kind {
            1 => Value::Unsigned(read.bits),
            2 => Value::Signed(read.bits.cast_signed()),
            3 => Value::Single(f32::from_bits(read.bits as u32)),
            4 => Value::Double(f64::from_bits(read.bits)),
            5 => Value::Flag(read.bits == 1),
            kind => panic!("kc_read_value: kind is {kind}"),
        }
    }
}
