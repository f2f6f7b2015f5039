//! Document 01's hand-checked data and the worked examples of source document
//! 004, asked of the library through its C interface.

use kerbcanopy::{Answer, Part, Value};
use kerbcanopy::{check_data, from_little_endian, read_value, to_little_endian, view};

const P1: [u8; 4] = [0, 4, 0, 3];
const P4: [u8; 14] = [0, 14, 0, 0x40, 0, 1, 0xFF, 0xFF, 0xFF, 0xFF, 0, 4, 0, 0x0A];
const P5: [u8; 14] = [0, 14, 0, 0x50, 0, 2, 0, 4, 0, 2, 0, 4, 0, 7];
const RIG: [u8; 20] = *b"\x00\x14\x00\x50\x00\x02\x00\x06\x00\x02\x01t\x00\x08\x00\x07\x02id\x00";

fn answer(number: u32, input: u32, place: u32) -> Answer {
    Answer {
        number,
        input,
        place,
    }
}

/// Checks the little-endian form and the way back, with room to spare.
fn reversed(descriptor: &[u8], data: &[u8], little: &[u8]) {
    let length = data.len();
    let mut out = vec![0xA5; length + 2];
    let written = to_little_endian(descriptor, data, &mut out);
    assert_eq!(written, answer(0, 0, length as u32));
    assert_eq!(out, [little, &[0xA5, 0xA5]].concat());
    let mut out = vec![0xA5; length + 2];
    let written = from_little_endian(descriptor, little, &mut out);
    assert_eq!(written, answer(0, 0, length as u32));
    assert_eq!(out, [data, &[0xA5, 0xA5]].concat());
}

fn holds(descriptor: &[u8], data: &[u8], path: &[u32], kind: u32, bits: u64) {
    let answer = answer(0, 0, 0);
    let read = read_value(descriptor, data, path);
    assert_eq!(read, Value { answer, kind, bits });
}

fn stands(descriptor: &[u8], data: &[u8], path: &[u32], start: usize, length: usize) {
    let part = Part {
        answer: answer(0, 0, 0),
        start,
        length,
    };
    assert_eq!(view(descriptor, data, path), part);
}

#[test]
fn p9_two_numbers() {
    let data = [0xFF, 0xFE, 0, 0, 0, 1];
    assert_eq!(check_data(&P5, &data), answer(0, 0, 2));
    holds(&P5, &data, &[0], 2, -2i64 as u64);
    holds(&P5, &data, &[1], 1, 1);
    stands(&P5, &data, &[], 0, 6);
    stands(&P5, &data, &[1], 2, 4);
    reversed(&P5, &data, &[0xFE, 0xFF, 1, 0, 0, 0]);
}

#[test]
fn p10_empty_and_cut() {
    assert_eq!(check_data(&P4, &[0, 0, 0, 0]), answer(0, 0, 1));
    assert_eq!(check_data(&P4, &[0, 0, 0, 1]), answer(21, 3, 4));
    assert_eq!(check_data(&P4, &[0x80, 0, 0, 0]), answer(22, 3, 0));
}

#[test]
fn p11_data_of_the_rig() {
    let data = [0, 0x19, 0, 0, 0, 9];
    assert_eq!(check_data(&RIG, &data), answer(0, 0, 2));
    holds(&RIG, &data, &[0], 2, 25);
    holds(&RIG, &data, &[1], 1, 9);
    reversed(&RIG, &data, &[0x19, 0, 9, 0, 0, 0]);
}

#[test]
fn a_refusal_has_no_part_no_value_and_writes_nothing() {
    let cut = [0, 0x19, 0, 0, 0];
    let refusal = answer(21, 3, 2);
    let part = view(&RIG, &cut, &[0]);
    assert_eq!((part.answer, part.start, part.length), (refusal, 0, 0));
    let value = read_value(&RIG, &cut, &[0]);
    assert_eq!((value.answer, value.kind, value.bits), (refusal, 0, 0));
    let mut out = [0xA5; 8];
    assert_eq!(to_little_endian(&RIG, &cut, &mut out), refusal);
    assert_eq!(from_little_endian(&RIG, &cut, &mut out), refusal);
    assert_eq!(out, [0xA5; 8]);
}

#[test]
fn refusals_of_the_request() {
    let data = [0, 0x19, 0, 0, 0, 9];
    assert_eq!(view(&RIG, &data, &[2]).answer, answer(30, 4, 0));
    assert_eq!(read_value(&RIG, &data, &[1, 0]).answer, answer(30, 4, 1));
    assert_eq!(read_value(&RIG, &data, &[]).answer, answer(31, 4, 0));
    let mut short = [0xA5; 5];
    assert_eq!(to_little_endian(&RIG, &data, &mut short), answer(50, 4, 6));
    assert_eq!(short, [0xA5; 5]);
}

#[test]
fn sizes_that_no_product_holds() {
    let words = [0xFF; 16];
    let cube = [&[0, 26, 0, 0x40, 0, 4][..], &words, &[0, 4, 0, 0x0A]].concat();
    let highest = [0x7F, 0xFF, 0xFF, 0xFF];
    let sizes = [highest, highest, highest, [0; 4]].concat();
    assert_eq!(check_data(&cube, &sizes), answer(0, 0, 1));
    let sizes = [highest; 4].concat();
    assert_eq!(check_data(&cube, &sizes), answer(21, 3, 16));
}

#[test]
fn scalars_of_004() {
    let minus_19 = [0xFF, 0xFF, 0xFF, 0xED];
    holds(&P1, &minus_19, &[], 2, -19i64 as u64);
    let quarter = 0.25f64.to_be_bytes();
    holds(&[0, 4, 0, 0x0A], &quarter, &[], 4, 0.25f64.to_bits());
    holds(&[0, 4, 0, 0x21], &[1], &[], 5, 1);
}

#[test]
fn a_string_an_array_and_halves() {
    let text = [0, 8, 0, 0x30, 0xFF, 0xFF, 0xFF, 0xFF];
    reversed(&text, b"\x00\x00\x00\x03ABC", b"\x03\x00\x00\x00ABC");
    let words = [0xFF; 8];
    let table = [&[0, 18, 0, 0x40, 0, 2][..], &words, &[0, 4, 0, 1]].concat();
    let data = [0, 0, 0, 2, 0, 0, 0, 3, 1, 2, 3, 4, 5, 6];
    assert_eq!(check_data(&table, &data), answer(0, 0, 7));
    holds(&table, &data, &[5], 2, 6);
    stands(&table, &data, &[5], 13, 1);
    reversed(
        &[0, 4, 0, 0x0C],
        &[1, 2, 3, 4, 5, 6, 7, 8],
        &[4, 3, 2, 1, 8, 7, 6, 5],
    );
}
