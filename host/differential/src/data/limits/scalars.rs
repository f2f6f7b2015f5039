//! Every scalar code at its edges, cut and with bytes left over; Booleans of every
//! byte, and enumerations at their limits.

use super::{Both, Limits, array, cluster, enumeration, every_scalar, plain};
use crate::data::scalar::{edges, numbers, value, width};
use crate::tree::Tree;

pub fn add(limits: &mut Limits) {
    for (code, tree) in every_scalar() {
        if !matches!(code, 0x15..=0x17 | 0x21) {
            for edge in edges(numbers(code).0) {
                add_edge(limits, code, &tree, &edge);
            }
        }
        for length in 0..width(code) {
            let what = format!("code {code:02X}, {length} bytes");
            limits.refused(what, &tree, zeros(length), 21, 0);
        }
        for more in [1, 2, 9] {
            let what = format!("code {code:02X}, {more} bytes left over");
            let data = zeros(width(code) + more);
            limits.refused(what, &tree, data, 25, width(code));
        }
    }
    flags(limits);
    enumerations(limits);
}

fn zeros(length: usize) -> Both {
    Both::new().plain(&vec![0; length])
}

/// A scalar whose last number is this one.
fn add_edge(limits: &mut Limits, code: u8, tree: &Tree, edge: &[u8]) {
    let (bytes, count) = numbers(code);
    let mut data = Both::new();
    for byte in 1..count as u8 {
        data.push_number(&vec![byte; bytes]);
    }
    data.push_number(edge);
    let value = value(code, &data.big);
    let length = data.len();
    limits.accepted(format!("code {code:02X}, {edge:02X?}"), tree, data, 1);
    limits.part(&[], 0, length, value);
    limits.nowhere(&[0], 0);
    limits.nowhere(&[u32::MAX; 9], 0);
}

/// Any byte but zero is true: alone, in an array, and beside a number there.
fn flags(limits: &mut Limits) {
    let flag = |byte| Some((5, u64::from(byte != 0)));
    for byte in 0..=255 {
        let data = Both::new().plain(&[byte]);
        limits.accepted(format!("Boolean {byte}"), &plain(0x21), data, 1);
        limits.part(&[], 0, 1, flag(byte));
    }
    let bytes: Vec<u8> = (0..=255).collect();
    let data = Both::new().word(256).plain(&bytes);
    limits.accepted("Booleans of every byte", &array(1, plain(0x21)), data, 257);
    for byte in 0..=255u8 {
        limits.part(&[byte.into()], 4 + usize::from(byte), 1, flag(byte));
    }
    let tree = array(1, cluster(vec![plain(0x06), plain(0x21)]));
    let element = |data: Both, byte: &u8| data.number(&[1, 2]).plain(&[*byte]);
    let data = bytes.iter().fold(Both::new().word(256), element);
    limits.accepted("every byte beside a number", &tree, data, 513);
    for byte in 0..=255u8 {
        let start = 4 + 3 * usize::from(byte) + 2;
        limits.part(&[byte.into(), 1], start, 1, flag(byte));
    }
}

/// Numbers around the item count, and high ones whose low bytes are below it.
fn enumerations(limits: &mut Limits) {
    for code in 0x15..=0x17 {
        let bytes = width(code);
        for items in [1, 2, 127, 128, 129, 255, 256, 257, 4000] {
            let tree = enumeration(code, items as usize);
            let low = items - 1;
            for number in [
                0,
                1,
                low,
                items,
                items + 1,
                low | 0x8000,
                low | 1 << 16,
                low | 1 << 24,
                low | 1 << 31,
                u32::MAX,
            ] {
                let number = number & (u64::MAX >> (64 - 8 * bytes)) as u32;
                let data = Both::new().number(&number.to_be_bytes()[4 - bytes..]);
                let what = format!("number {number} of {items} items, code {code:02X}");
                let value = Some((1, u64::from(number)));
                if number < items {
                    limits.accepted(what.clone(), &tree, data.clone(), 1);
                    limits.part(&[], 0, bytes, value);
                } else {
                    limits.refused(what.clone(), &tree, data.clone(), 23, 0);
                }
                last_of_many(limits, what, &tree, &data, number < items);
            }
        }
    }
}

/// The same as the last of several elements, which may be judged together.
fn last_of_many(limits: &mut Limits, what: String, element: &Tree, last: &Both, fits: bool) {
    let before = Both::new().word(9).plain(&vec![0; 8 * last.len()]);
    let place = before.len();
    let data = before.then(last);
    let tree = array(1, element.clone());
    let what = format!("{what}, the last of nine");
    match fits {
        true => limits.accepted(what, &tree, data, 10),
        false => limits.refused(what, &tree, data, 23, place),
    }
}
