//! What a refusal of data or of a record was judged by, in figures, so that
//! nobody has to work it out of the bytes.

use crate::descriptor::Descriptor;
use crate::tokens::Order;
use crate::words::{counted, quoted};

/// How many names are listed.
const NAMES: usize = 12;

/// Of the piece of this row that starts at the place, refused with 21 to 23.
pub fn of_piece(
    types: &Descriptor,
    row: usize,
    data: &[u8],
    place: usize,
    number: u32,
    order: Order,
) -> String {
    let there = data.get(place..).unwrap_or_default();
    let left = there.len();
    let words = numbers(there, 4, order);
    let dimensions = usize::from(types.rows[row].count);
    match (number, types.rows[row].code, types.width(row)) {
        (21, 0x30, _) if left >= 4 => {
            format!(
                "length {}, {} behind it",
                words[0],
                counted(left - 4, "byte")
            )
        }
        (21, code, width) => {
            let needed = width.unwrap_or(if code == 0x40 { 4 * dimensions } else { 4 });
            format!("{} needed, {left} left", counted(needed, "byte"))
        }
        (22, 0x30, _) => format!("length {}", words[0]),
        (22, _, _) => {
            let sizes: Vec<String> = words.iter().take(dimensions).map(u64::to_string).collect();
            format!("sizes {}", sizes.join(" x "))
        }
        (23, _, Some(width)) => {
            let number = numbers(there, width, order)[0];
            format!("number {number} of {}", counted(dimensions, "item"))
        }
        _ => String::new(),
    }
}

/// The bytes as numbers of this width.
fn numbers(bytes: &[u8], width: usize, order: Order) -> Vec<u64> {
    let join = |number: u64, byte: &u8| number << 8 | u64::from(*byte);
    let number = |bytes: &[u8]| match order {
        Order::Big => bytes.iter().fold(0, join),
        Order::Little => bytes.iter().rev().fold(0, join),
    };
    bytes.chunks_exact(width).take(4).map(number).collect()
}

/// The names of a cluster's members, the first of them where there are many.
pub fn names(types: &Descriptor, row: usize) -> String {
    let members = types.inside(row);
    let names: Vec<_> = members.iter().map(|&member| types.name(member)).collect();
    let shown = names.iter().take(NAMES);
    let mut words: Vec<String> = shown
        .map(|name| name.map_or("one without a name".into(), quoted))
        .collect();
    if names.len() > NAMES {
        words.push(format!(".. {} more", names.len() - NAMES));
    }
    words.join(", ")
}

/// The numbers of the members of this name.
pub fn namesakes(types: &Descriptor, name: Option<&[u8]>) -> String {
    let members = types.inside(0).into_iter().enumerate();
    let same = members.filter(|(_, member)| types.name(*member) == name);
    let same: Vec<String> = same.map(|(number, _)| number.to_string()).collect();
    same.join(", ")
}

#[cfg(test)]
mod tests {
    use super::*;

    /// The facts of data that the library refuses, by its own place and number.
    fn facts(descriptor: &[u8], data: &[u8]) -> String {
        let answer = kerbcanopy::check_data(descriptor, data);
        let types = Descriptor::of(descriptor).expect("it is accepted");
        of_piece(
            &types,
            0,
            data,
            answer.place as usize,
            answer.number,
            Order::Big,
        )
    }

    const STRING: &[u8] = b"\x00\x08\x00\x30\xFF\xFF\xFF\xFF";
    const PLANE: &[u8] =
        b"\x00\x12\x00\x40\x00\x02\xFF\xFF\xFF\xFF\xFF\xFF\xFF\xFF\x00\x04\x00\x05";

    #[test]
    fn pieces_say_what_they_need() {
        assert_eq!(
            facts(b"\x00\x04\x00\x03", b"\0\0\0"),
            "4 bytes needed, 3 left"
        );
        assert_eq!(facts(STRING, b"\0\0"), "4 bytes needed, 2 left");
        assert_eq!(
            facts(STRING, b"\0\0\0\x09ab"),
            "length 9, 2 bytes behind it"
        );
        assert_eq!(facts(PLANE, b"\0\0\0\0\0"), "8 bytes needed, 5 left");
    }

    #[test]
    fn numbers_that_are_refused_are_said() {
        assert_eq!(facts(STRING, b"\x80\0\0\x01"), "length 2147483649");
        let sizes = facts(PLANE, b"\0\0\0\x02\xFF\xFF\xFF\xFF");
        assert_eq!(sizes, "sizes 2 x 4294967295");
        let modes = b"\x00\x0A\x00\x16\x00\x02\x01a\x01b";
        assert_eq!(facts(modes, b"\x01\x02"), "number 258 of 2 items");
        let types = Descriptor::of(modes).expect("it is accepted");
        let little = of_piece(&types, 0, b"\x02\0", 0, 23, Order::Little);
        assert_eq!(little, "number 2 of 2 items");
    }

    #[test]
    fn names_are_listed() {
        let rig = b"\x00\x14\x00\x50\x00\x03\x00\x06\x00\x02\x01t\x00\x04\x00\x02\x00\x04\x00\x02";
        let rig = Descriptor::of(rig).expect("it is accepted");
        assert_eq!(
            names(&rig, 0),
            "\"t\", one without a name, one without a name"
        );
        assert_eq!(namesakes(&rig, Some(b"t")), "0");
        assert_eq!(namesakes(&rig, None), "1, 2");
    }
}
