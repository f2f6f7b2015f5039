//! The questions, each put to both implementations.

use std::hint::black_box;

use crate::asked::{Asked, Lent, asked, asked_into};

/// Room for every output.
pub const ROOM: usize = 65536;

pub fn check_descriptor(descriptor: &[u8]) -> Asked {
    asked(
        Lent::new(&[descriptor]),
        |lent, _, _| kerbcanopy::check_descriptor(&lent.bytes[0]),
        |lent, _, _| reference::check_descriptor(&lent.bytes[0]),
    )
}

pub fn compare(first: &[u8], second: &[u8]) -> Asked {
    asked(
        Lent::new(&[first, second]),
        |lent, _, _| kerbcanopy::compare(&lent.bytes[0], &lent.bytes[1]),
        |lent, _, _| reference::compare(&lent.bytes[0], &lent.bytes[1]),
    )
}

pub fn normal_form(descriptor: &[u8], room: usize) -> Asked {
    asked(
        Lent::new(&[descriptor]).with_room(room),
        |lent, _, out| kerbcanopy::normal_form(&lent.bytes[0], out),
        |lent, _, out| reference::normal_form(&lent.bytes[0], out),
    )
}

pub fn check_data(descriptor: &[u8], data: &[u8]) -> Asked {
    asked(
        Lent::new(&[descriptor, data]),
        |lent, _, _| kerbcanopy::check_data(&lent.bytes[0], &lent.bytes[1]),
        |lent, _, _| reference::check_data(&lent.bytes[0], &lent.bytes[1]),
    )
}

pub fn to_little_endian(descriptor: &[u8], data: &[u8], room: usize) -> Asked {
    asked(
        Lent::new(&[descriptor, data]).with_room(room),
        |lent, _, out| kerbcanopy::to_little_endian(&lent.bytes[0], &lent.bytes[1], out),
        |lent, _, out| reference::to_little_endian(&lent.bytes[0], &lent.bytes[1], out),
    )
}

pub fn from_little_endian(descriptor: &[u8], data: &[u8], room: usize) -> Asked {
    asked(
        Lent::new(&[descriptor, data]).with_room(room),
        |lent, _, out| kerbcanopy::from_little_endian(&lent.bytes[0], &lent.bytes[1], out),
        |lent, _, out| reference::from_little_endian(&lent.bytes[0], &lent.bytes[1], out),
    )
}

/// Views the part at each of the paths.
pub fn view(descriptor: &[u8], data: &[u8], paths: &[Vec<u32>]) -> Asked {
    asked(
        Lent::new(&[descriptor, data]).with_paths(paths),
        |lent, path, _| kerbcanopy::view(&lent.bytes[0], &lent.bytes[1], path),
        |lent, path, _| reference::view(&lent.bytes[0], &lent.bytes[1], path),
    )
}

/// Reads the value at each of the paths.
pub fn read_value(descriptor: &[u8], data: &[u8], paths: &[Vec<u32>]) -> Asked {
    asked(
        Lent::new(&[descriptor, data]).with_paths(paths),
        |lent, path, _| kerbcanopy::read_value(&lent.bytes[0], &lent.bytes[1], path),
        |lent, path, _| reference::read_value(&lent.bytes[0], &lent.bytes[1], path),
    )
}

pub fn read_record(writer: &[u8], reader: &[u8], data: &[u8], room: usize) -> Asked {
    asked(
        Lent::new(&[writer, reader, data]).with_room(room),
        |lent, _, out| kerbcanopy::read_record(&lent.bytes[0], &lent.bytes[1], &lent.bytes[2], out),
        |lent, _, out| reference::read_record(&lent.bytes[0], &lent.bytes[1], &lent.bytes[2], out),
    )
}

/// The difference of two time stamps, each as its four integers.
pub fn stamp_difference(first: [u32; 4], second: [u32; 4]) -> Asked {
    asked(
        Lent::new(&[]),
        move |_, _, _| {
            let [first, second] =
                black_box([first, second]).map(|[a, b, c, d]| kerbcanopy::Stamp {
                    seconds_high: a as i32,
                    seconds_low: b as i32,
                    fraction_high: c,
                    fraction_low: d,
                });
            kerbcanopy::stamp_difference(first, second)
        },
        move |_, _, _| {
            let [first, second] = black_box([first, second]).map(|[a, b, c, d]| reference::Stamp {
                seconds_high: a as i32,
                seconds_low: b as i32,
                fraction_high: c,
                fraction_low: d,
            });
            reference::stamp_difference(first, second)
        },
    )
}

pub fn store_check(book: &[u8]) -> Asked {
    asked(
        Lent::new(&[book]),
        |lent, _, _| kerbcanopy::store_check(&lent.bytes[0]),
        |lent, _, _| reference::store_check(&lent.bytes[0]),
    )
}

/// Adds a record to the same book every time: before each call the book's count and the
/// entry that the call before wrote are set back, 18 bytes that are timed on both sides.
/// The body that it wrote stands in free bytes then, which no answer depends on.
pub fn store_add(book: &[u8], descriptor: &[u8], data: &[u8]) -> Asked {
    asked(
        Lent::new(&[book, descriptor, data]).with_output(book),
        |lent, _, book| {
            set_back(book, &lent.bytes[0]);
            kerbcanopy::store_add(book, &lent.bytes[1], &lent.bytes[2])
        },
        |lent, _, book| {
            set_back(book, &lent.bytes[0]);
            reference::store_add(book, &lent.bytes[1], &lent.bytes[2])
        },
    )
}

/// Sets the count, and the entry behind those it counts, to those of another book.
#[inline(always)]
fn set_back(book: &mut [u8], from: &[u8]) {
    let count = u16::from_be_bytes([from[2], from[3]]);
    let entry = 4 + 16 * usize::from(count);
    book[2..4].copy_from_slice(&from[2..4]);
    book[entry..entry + 16].copy_from_slice(&from[entry..entry + 16]);
}

/// Finds the body of each of the identifiers.
pub fn store_find(book: &[u8], identifiers: &[u32]) -> Asked {
    let identifiers: Vec<Vec<u32>> = identifiers.iter().map(|&one| vec![one]).collect();
    asked(
        Lent::new(&[book]).with_paths(&identifiers),
        |lent, identifier, _| kerbcanopy::store_find(&lent.bytes[0], identifier[0]),
        |lent, identifier, _| reference::store_find(&lent.bytes[0], identifier[0]),
    )
}

/// Lists the identifiers into so many places.
pub fn store_list(book: &[u8], places: usize) -> Asked {
    asked_into(
        Lent::new(&[book]).with_room(places),
        |lent, _, places: &mut [u32]| kerbcanopy::store_list(&lent.bytes[0], places),
        |lent, _, places: &mut [u32]| reference::store_list(&lent.bytes[0], places),
    )
}
