//! The places of request 3 of document 02: the first of several wrong words, and
//! each fault in a descriptor that ends before what holds it does.

use super::combined::{twice, wrong};
use super::{Collect, Limit, array_words, raw, whole};

pub fn add(limits: &mut Vec<Limit>) {
    dimensions(limits);
    bases(limits);
    beside(limits);
}

/// Each byte of each dimension word, with those behind it right or wrong.
fn dimensions(limits: &mut Vec<Limit>) {
    let element = raw(4, 0x0A, &[]);
    for count in 1..=4 {
        let right = whole(
            0x40,
            &[array_words(count as u8, count), element.clone()].concat(),
        );
        for first in 0..count {
            let word = 6 + 4 * first;
            for byte in 0..4 {
                let mut bytes = right.clone();
                bytes[word + byte] = 0xFE;
                let what = format!("byte {byte} of dimension {first} of {count}");
                limits.refused(&what, bytes.clone(), 10, word);
                bytes[word + 4..6 + 4 * count].fill(0);
                limits.refused(format!("{what}, and all behind"), bytes, 10, word);
            }
        }
    }
}

/// Each base index of nine, with those behind it right or wrong.
fn bases(limits: &mut Vec<Limit>) {
    let right = whole(0x1D, &[&[0, 9], &[0, 8, 0xFF, 0xFF].repeat(9)[..]].concat());
    for first in 0..9 {
        let word = 6 + 4 * first;
        for base in [9u16, 0x0100, 0xFFFF] {
            let mut bytes = right.clone();
            bytes[word..word + 2].copy_from_slice(&base.to_be_bytes());
            let what = format!("base {base} in pair {first} of 9");
            limits.refused(&what, bytes.clone(), 10, word);
            bytes[word + 4..].fill(0x7F);
            limits.refused(format!("{what}, and all behind"), bytes, 10, word);
        }
    }
}

/// Each fault with others in front and behind: as a member, as an element, and in a
/// time stamp, all of them members again.
fn beside(limits: &mut Vec<Limit>) {
    let twice = ("an array in an array", twice(), 10, 13);
    for (what, bytes, number, place) in [wrong(), vec![twice]].concat() {
        // A wrong size is no end.
        if number < 5 {
            continue;
        }
        let other = raw(4, 0x21, &[]);
        let among = |inner: &[u8]| whole(0x50, &[&[0, 3], &other[..], inner, &other].concat());
        let what = format!("{what} among members");
        limits.refused(&what, among(&bytes), number, 10 + place);
        let deeper = among(&among(&bytes));
        limits.refused(format!("{what} of a member"), deeper, number, 20 + place);
        let name = [1, b'n'];
        let held = among(&whole(0x54, &[&[0, 6], &bytes[..], &name].concat()));
        let what = format!("{what}, in a time stamp");
        limits.refused(what, held, number, 16 + place);
        if bytes[3] != 0x40 {
            let element = [&array_words(4, 4), &bytes[..], &name].concat();
            let what = "the same as an element";
            limits.refused(what, among(&whole(0x40, &element)), number, 32 + place);
        }
    }
}
