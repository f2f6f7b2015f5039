//! What a part of accepted data says.

use crate::descriptor::Descriptor;
use crate::value;
use crate::words::{counted, quoted};

/// How many characters of a string are shown where not all are asked for.
const CHARACTERS: usize = 60;
/// How many elements of an array are listed where not all are asked for.
pub const ELEMENTS: u64 = 8;

/// A number with its item where it is an enumeration's, a Boolean with its byte
/// where that is neither 00 nor 01.
pub fn number(descriptor: &Descriptor, row: usize, bytes: &[u8]) -> String {
    let own = descriptor.own(row);
    let code = descriptor.rows[row].code;
    let text = value::scalar(own, code, bytes);
    if let (0x21, [byte @ 2..=0xFF]) = (code, bytes) {
        return format!("{text} (byte {byte:02X})");
    }
    let number = kerbcanopy::read_value(own, bytes, &[]).bits;
    match descriptor.items(row).get(number as usize) {
        Some(item) => format!("{text} {}", quoted(item)),
        None => text,
    }
}

/// A string's characters in quotes, or their beginning where there are many.
pub fn characters(bytes: &[u8], all: bool) -> String {
    match bytes.get(..CHARACTERS) {
        Some(first) if bytes.len() > CHARACTERS && !all => {
            let more = bytes.len() - CHARACTERS;
            format!("{} .. {more} more", quoted(first))
        }
        _ => quoted(bytes),
    }
}

/// An array's sizes: `3 elements`, `2 x 3 elements`.
pub fn extent(sizes: &[u32]) -> String {
    match sizes {
        [size] => counted(*size as usize, "element"),
        _ => {
            let sizes: Vec<String> = sizes.iter().map(u32::to_string).collect();
            format!("{} elements", sizes.join(" x "))
        }
    }
}

#[cfg(test)]
mod tests {
    use super::*;

    #[test]
    fn extents() {
        assert_eq!(extent(&[1]), "1 element");
        assert_eq!(extent(&[2, 3]), "2 x 3 elements");
    }

    #[test]
    fn a_long_string_is_cut() {
        let long = vec![b'x'; CHARACTERS + 1];
        let shown = "x".repeat(CHARACTERS);
        assert_eq!(characters(&long, false), format!("\"{shown}\" .. 1 more"));
        assert_eq!(characters(&long[1..], false), format!("\"{shown}\""));
        assert_eq!(characters(&long, true), format!("\"{shown}x\""));
        assert_eq!(characters(b"", false), "\"\"");
    }

    #[test]
    fn an_enumeration_s_item_stands_beside_its_number() {
        let modes = b"\x00\x0E\x00\x15\x00\x03\x02on\x00\x03off";
        let modes = Descriptor::of(modes).expect("it is accepted");
        assert_eq!(number(&modes, 0, &[2]), "2 \"off\"");
        let plain = Descriptor::of(b"\x00\x04\x00\x05").expect("it is accepted");
        assert_eq!(number(&plain, 0, &[2]), "2");
    }

    #[test]
    fn a_byte_over_1_stands_beside_its_flag() {
        let flag = Descriptor::of(b"\x00\x04\x00\x21").expect("it is accepted");
        assert_eq!(number(&flag, 0, &[0]), "false");
        assert_eq!(number(&flag, 0, &[1]), "true");
        for byte in 2..=u8::MAX {
            let text = number(&flag, 0, &[byte]);
            assert_eq!(text, format!("true (byte {byte:02X})"));
        }
    }
}
