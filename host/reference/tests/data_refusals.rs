//! Each refusal number of the data questions, the limits, every code at its edge
//! values, and paths to each kind of part.

#[allow(dead_code, reason = "each test program uses a part of it")]
mod build;

use build::{answer, array, cluster, enumeration, plain, quantity, text};
use reference::{Answer, Part, Value, check_data, read_value, view};
use reference::{from_little_endian, to_little_endian};

/// Checks that all questions about data give this refusal.
fn all_refuse(descriptor: &[u8], data: &[u8], refusal: Answer) {
    assert_eq!(check_data(descriptor, data), refusal);
    let part = Part {
        answer: refusal,
        start: 0,
        length: 0,
    };
    assert_eq!(view(descriptor, data, &[0, 9]), part);
    let none = Value {
        answer: refusal,
        kind: 0,
        bits: 0,
    };
    assert_eq!(read_value(descriptor, data, &[0, 9]), none);
    let mut out = [];
    assert_eq!(to_little_endian(descriptor, data, &mut out), refusal);
}

fn refused(descriptor: &[u8], data: &[u8], number: u32, place: u32) {
    all_refuse(descriptor, data, answer(number, 3, place));
}

fn accepted(descriptor: &[u8], data: &[u8], pieces: u32) {
    assert_eq!(check_data(descriptor, data), answer(0, 0, pieces));
}

/// The refusal of a path in accepted data, given by a view.
fn path_refused(descriptor: &[u8], data: &[u8], path: &[u32], step: u32) {
    let refusal = answer(30, 4, step);
    assert_eq!(view(descriptor, data, path).answer, refusal);
    assert_eq!(read_value(descriptor, data, path).answer, refusal);
}

fn part(descriptor: &[u8], data: &[u8], path: &[u32]) -> (usize, usize) {
    let part = view(descriptor, data, path);
    assert_eq!(part.answer, answer(0, 0, 0), "{path:?}");
    (part.start, part.length)
}

fn value(descriptor: &[u8], data: &[u8], path: &[u32]) -> (u32, u64) {
    let value = read_value(descriptor, data, path);
    assert_eq!(value.answer, answer(0, 0, 0), "{path:?}");
    (value.kind, value.bits)
}

/// An array's data: its size and then its elements.
fn counted(count: u32, elements: &[u8]) -> Vec<u8> {
    [&count.to_be_bytes(), elements].concat()
}

#[test]
fn the_descriptor_comes_first() {
    let long = vec![0xFF; 65537];
    all_refuse(&[], &long, answer(2, 1, 0));
    all_refuse(&plain(0x22), &long, answer(5, 1, 3));
    all_refuse(&[0; 4097], &long, answer(1, 1, 0));
    let behind = [plain(0x21), vec![0]].concat();
    all_refuse(&behind, &long, answer(12, 1, 4));
}

#[test]
fn number_20_too_long() {
    let bytes = array(1, &plain(0x05));
    let mut data = counted(65532, &[7; 65532]);
    accepted(&bytes, &data, 65533);
    data.push(7);
    refused(&bytes, &data, 20, 0);
    data[3] += 1;
    refused(&bytes, &data, 20, 0);
    data.fill(0xFF);
    refused(&text(), &data, 20, 0);
    let mut out = vec![0xA5; 70000];
    let written = from_little_endian(&bytes, &data, &mut out);
    assert_eq!(written, answer(20, 3, 0));
    assert!(out.iter().all(|byte| *byte == 0xA5));
}

#[test]
fn number_21_scalars() {
    let widths = [
        (0x01, 1),
        (0x02, 2),
        (0x03, 4),
        (0x04, 8),
        (0x05, 1),
        (0x06, 2),
        (0x07, 4),
        (0x08, 8),
        (0x09, 4),
        (0x0A, 8),
        (0x0B, 16),
        (0x0C, 8),
        (0x0D, 16),
        (0x0E, 32),
        (0x21, 1),
    ];
    let quantities = [0x19, 0x1A, 0x1B, 0x1C, 0x1D, 0x1E].map(quantity);
    let quantities = quantities.into_iter().zip([4, 8, 16, 8, 16, 32]);
    let enumerations = [(0x15, 1), (0x16, 2), (0x17, 4)];
    let enumerations = enumerations.map(|(code, width)| (enumeration(code, 2), width));
    let all = (widths.map(|(code, width)| (plain(code), width)).into_iter())
        .chain(quantities)
        .chain(enumerations);
    for (bytes, width) in all {
        for length in 0..width {
            refused(&bytes, &vec![0; length], 21, 0);
        }
        accepted(&bytes, &vec![0; width], 1);
        refused(&bytes, &vec![0; width + 1], 25, width as u32);
    }
}

#[test]
fn number_21_inside_a_run() {
    let members = [
        plain(0x06),
        plain(0x06),
        plain(0x0D),
        cluster(&[plain(0x05)]),
    ];
    let bytes = cluster(&[plain(0x08), cluster(&members), plain(0x0A)]);
    let starts = [0, 8, 10, 12, 28, 29, 37];
    for length in 0..37 {
        let start = starts.iter().rev().find(|start| **start <= length);
        refused(&bytes, &vec![0xFF; length], 21, *start.unwrap() as u32);
        let data = counted(2, &vec![0xFF; 37 + length]);
        let place = 4 + 37 + *start.unwrap() as u32;
        refused(&array(1, &bytes), &data, 21, place);
    }
    accepted(&array(1, &bytes), &counted(2, &[0xFF; 74]), 13);
}

#[test]
fn number_21_in_the_first_of_many() {
    let bytes = array(2, &cluster(&[plain(0x21), plain(0x03)]));
    let data = [0x7F, 0xFF, 0xFF, 0xFF, 0x7F, 0xFF, 0xFF, 0xFF, 1, 0, 0, 0];
    refused(&bytes, &data[..8], 21, 8);
    refused(&bytes, &data[..9], 21, 9);
    refused(&bytes, &data, 21, 9);
    let bytes = array(1, &text());
    refused(&bytes, &counted(0x7FFF_FFFF, &[0; 4]), 21, 8);
}

#[test]
fn number_21_strings() {
    for length in 0..4 {
        refused(&text(), &vec![0xFF; length], 21, 0);
    }
    refused(&text(), &[0, 0, 0, 1], 21, 0);
    refused(&text(), &[0x7F, 0xFF, 0xFF, 0xFF, 65], 21, 0);
    accepted(&text(), &[0, 0, 0, 0], 1);
    accepted(&text(), &[0, 0, 0, 2, 0, 0xFF], 1);
    refused(
        &array(1, &text()),
        &counted(2, &[0, 0, 0, 1, 65, 0, 0, 0]),
        21,
        9,
    );
}

#[test]
fn number_22_strings_and_sizes() {
    refused(&text(), &[0x80, 0, 0, 0], 22, 0);
    refused(&text(), &[0xFF; 9], 22, 0);
    let late = cluster(&[plain(0x02), text()]);
    refused(&late, &[0, 0, 0x80, 0, 0, 0], 22, 2);
    let bytes = array(1, &plain(0x05));
    refused(&bytes, &[0x80, 0, 0, 0], 22, 0);
    refused(
        &cluster(&[plain(0x02), bytes]),
        &[0, 0, 0xFF, 0, 0, 0],
        22,
        2,
    );
}

#[test]
fn number_22_after_all_size_words() {
    for dimensions in 1..=4u8 {
        let bytes = array(dimensions, &plain(0x05));
        let length = 4 * usize::from(dimensions);
        for cut in 0..length {
            refused(&bytes, &vec![0xFF; cut], 21, 0);
        }
        for bad in 0..usize::from(dimensions) {
            let mut data = vec![0; length];
            accepted(&bytes, &data, 1);
            data[4 * bad] = 0x80;
            refused(&bytes, &data, 22, 0);
        }
    }
}

#[test]
fn number_23_enumerations() {
    for items in [1, 2, 255, 256, 257, 4000] {
        for (code, width) in [(0x15, 1), (0x16, 2), (0x17, 4)] {
            let bytes = enumeration(code, items);
            let data = |number: u32| number.to_be_bytes()[4 - width..].to_vec();
            let last = u32::from(items) - 1;
            accepted(&bytes, &data(last.min(255)), 1);
            if width > 1 {
                accepted(&bytes, &data(last), 1);
            }
            if width > 1 || items < 256 {
                refused(&bytes, &data(u32::from(items)), 23, 0);
                refused(&bytes, &vec![0xFF; width], 23, 0);
            }
        }
    }
}

#[test]
fn number_23_at_every_place_of_an_array() {
    for (code, width) in [(0x15, 1), (0x16, 2), (0x17, 4)] {
        let bytes = array(1, &enumeration(code, 7));
        for count in [1, 2, 3, 4, 5, 40, 1500] {
            let number = &6u32.to_be_bytes()[4 - width..];
            let mut data = counted(count as u32, &number.repeat(count));
            accepted(&bytes, &data, count as u32 + 1);
            for index in [0, count / 2, count - 1] {
                let end = 4 + (index + 1) * width;
                data[end - 1] = 7;
                data.push(9);
                refused(&bytes, &data, 23, (end - width) as u32);
                data.pop();
                data[end - 1] = 6;
            }
        }
    }
}

#[test]
fn booleans_of_every_byte() {
    let many = array(1, &plain(0x21));
    for byte in 0..=255 {
        let flag = (5, u64::from(byte != 0));
        accepted(&plain(0x21), &[byte], 1);
        assert_eq!(value(&plain(0x21), &[byte], &[]), flag);
        let data = counted(3, &[0, byte, 1]);
        accepted(&many, &data, 4);
        assert_eq!(value(&many, &data, &[1]), flag);
        assert_eq!(part(&many, &data, &[1]), (5, 1));
        refused(&many, &data[..6], 21, 6);
        refused(&many, &[&data[..], &[byte]].concat(), 25, 7);
    }
}

#[test]
fn booleans_keep_their_bytes() {
    let pair = cluster(&[plain(0x21), plain(0x06)]);
    for (element, width, pieces) in [(plain(0x21), 1, 1), (pair, 3, 2)] {
        let bytes = array(1, &element);
        for count in [1, 3, 4, 256, 12000] {
            let mut elements = vec![7; count * width];
            for (index, element) in elements.chunks_mut(width).enumerate() {
                element[0] = index as u8;
            }
            let data = counted(count as u32, &elements);
            accepted(&bytes, &data, (1 + count * pieces) as u32);
            let little = [&(count as u32).to_le_bytes(), &elements[..]].concat();
            let mut out = vec![0xA5; data.len()];
            let written = answer(0, 0, data.len() as u32);
            assert_eq!(to_little_endian(&bytes, &data, &mut out), written);
            assert!(out == little);
            assert_eq!(from_little_endian(&bytes, &little, &mut out), written);
            assert!(out == data);
        }
    }
}

#[test]
fn number_23_in_the_order_of_the_data() {
    let members = [
        plain(0x02),
        enumeration(0x15, 2),
        enumeration(0x16, 3),
        plain(0x21),
        enumeration(0x15, 2),
    ];
    let bytes = array(1, &cluster(&members));
    for count in [1, 2, 3, 4, 9, 3000] {
        let good = counted(count as u32, &[0xFF, 0xFF, 1, 0, 2, 0xFF, 0].repeat(count));
        accepted(&bytes, &good, 5 * count as u32 + 1);
        for element in [0, count / 2, count - 1] {
            let start = 4 + 7 * element;
            let mut data = good.clone();
            data[good.len() - 1] = 2;
            refused(&bytes, &data, 23, good.len() as u32 - 1);
            data[start + 4] = 3;
            refused(&bytes, &data, 23, start as u32 + 3);
            data[start + 2] = 2;
            refused(&bytes, &data, 23, start as u32 + 2);
            data.truncate(start + 3);
            refused(&bytes, &data, 23, start as u32 + 2);
            data.truncate(start + 2);
            refused(&bytes, &data, 21, start as u32 + 2);
        }
    }
}

#[test]
fn number_25_bytes_left_over() {
    refused(&plain(0x01), &[0, 0], 25, 1);
    refused(&array(1, &plain(0x02)), &counted(1, &[0, 0, 0, 0]), 25, 6);
    refused(&text(), &counted(1, &[65, 66]), 25, 5);
    refused(&array(1, &text()), &counted(0, &[0]), 25, 4);
    refused(&plain(0x21), &[2, 0], 25, 1);
    refused(&enumeration(0x15, 2), &[2, 0], 23, 0);
}

#[test]
fn little_endian_refusals_read_words_reversed() {
    let mut out = [0xA5; 16];
    let mut back = |descriptor: &[u8], data: &[u8]| {
        let given = from_little_endian(descriptor, data, &mut out);
        assert!(given.number == 0 || out == [0xA5; 16]);
        out.fill(0xA5);
        given
    };
    assert_eq!(back(&text(), &[1, 0, 0, 0]), answer(21, 3, 0));
    assert_eq!(back(&text(), &[0, 0, 0, 0x80]), answer(22, 3, 0));
    assert_eq!(back(&text(), &[0x80, 0, 0]), answer(21, 3, 0));
    assert_eq!(back(&text(), &[1, 0, 0, 0, 65]), answer(0, 0, 5));
    assert_eq!(back(&text(), &[1, 0, 0, 0, 65, 66]), answer(25, 3, 5));
    let bytes = enumeration(0x16, 3);
    assert_eq!(back(&bytes, &[2, 0]), answer(0, 0, 2));
    assert_eq!(back(&bytes, &[0, 2]), answer(23, 3, 0));
    let bytes = array(1, &enumeration(0x17, 3));
    let good = [1, 0, 0, 0, 2, 0, 0, 0];
    assert_eq!(back(&bytes, &good), answer(0, 0, 8));
    assert_eq!(back(&bytes, &[2, 0, 0, 0, 0, 0, 0, 0, 0]), answer(21, 3, 8));
    assert_eq!(back(&bytes, &[1, 0, 0, 0, 0, 0, 0, 2]), answer(23, 3, 4));
    assert_eq!(back(&plain(0x21), &[2]), answer(0, 0, 1));
    assert_eq!(
        back(&array(1, &plain(0x21)), &[0, 0, 0, 0x80]),
        answer(22, 3, 0)
    );
}

/// A cluster that holds every kind of part, and data for it.
fn every_kind() -> (Vec<u8>, Vec<u8>) {
    let record = cluster(&[plain(0x02), text()]);
    let pair = cluster(&[plain(0x05), plain(0x06)]);
    let members = [
        plain(0x03),
        text(),
        array(2, &pair),
        array(1, &record),
        cluster(&[plain(0x21), array(1, &plain(0x0A))]),
        plain(0x0B),
        quantity(0x1C),
    ];
    let pairs = [
        counted(2, &2u32.to_be_bytes()),
        vec![1, 0, 2, 3, 0, 4, 5, 0, 6, 7, 0, 8],
    ];
    let parts = [
        vec![0xFF, 0xFF, 0xFF, 0xED],
        counted(3, b"ABC"),
        pairs.concat(),
        counted(2, &[0, 7, 0, 0, 0, 1, 65, 0, 8, 0, 0, 0, 0]),
        [vec![1], counted(1, &0.25f64.to_be_bytes())].concat(),
        vec![9; 16],
        vec![8; 8],
    ];
    (cluster(&members), parts.concat())
}

#[test]
fn views_of_every_kind() {
    let (bytes, data) = every_kind();
    accepted(&bytes, &data, 21);
    let parts: [(&[u32], usize, usize); 20] = [
        (&[], 0, 85),
        (&[0], 0, 4),
        (&[1], 4, 7),
        (&[2], 11, 20),
        (&[2, 0], 19, 3),
        (&[2, 3], 28, 3),
        (&[2, 3, 0], 28, 1),
        (&[2, 3, 1], 29, 2),
        (&[3], 31, 17),
        (&[3, 0], 35, 7),
        (&[3, 0, 1], 37, 5),
        (&[3, 1], 42, 6),
        (&[3, 1, 0], 42, 2),
        (&[3, 1, 1], 44, 4),
        (&[4], 48, 13),
        (&[4, 0], 48, 1),
        (&[4, 1], 49, 12),
        (&[4, 1, 0], 53, 8),
        (&[5], 61, 16),
        (&[6], 77, 8),
    ];
    for (path, start, length) in parts {
        assert_eq!(part(&bytes, &data, path), (start, length), "{path:?}");
    }
}

#[test]
fn number_30_one_step_past() {
    let (bytes, data) = every_kind();
    let paths: [(&[u32], u32); 14] = [
        (&[7], 0),
        (&[u32::MAX], 0),
        (&[7, 0, 0], 0),
        (&[0, 0], 1),
        (&[1, 0], 1),
        (&[2, 4], 1),
        (&[2, 3, 2], 2),
        (&[2, 3, 1, 0], 3),
        (&[3, 2], 1),
        (&[3, 1, 1, 0], 3),
        (&[4, 1, 1], 2),
        (&[4, 1, 0, 0], 3),
        (&[5, 0], 1),
        (&[6, 0], 1),
    ];
    for (path, step) in paths {
        path_refused(&bytes, &data, path, step);
        let nothing = view(&bytes, &data, path);
        assert_eq!((nothing.start, nothing.length), (0, 0));
        let none = read_value(&bytes, &data, path);
        assert_eq!((none.kind, none.bits), (0, 0));
    }
}

#[test]
fn number_30_in_empty_arrays_and_scalars() {
    let bytes = array(2, &plain(0x05));
    path_refused(&bytes, &[0x7F, 0xFF, 0xFF, 0xFF, 0, 0, 0, 0], &[0], 0);
    path_refused(&array(1, &text()), &[0; 4], &[0], 0);
    path_refused(&plain(0x05), &[0], &[0, 0, 0], 0);
    let long = [0; 9];
    path_refused(&plain(0x05), &[0], &long, 0);
}

#[test]
fn number_31_no_single_number() {
    let (bytes, data) = every_kind();
    let paths: [&[u32]; 9] = [&[], &[1], &[2], &[2, 0], &[3], &[3, 0, 1], &[4], &[5], &[6]];
    for path in paths {
        let none = Value {
            answer: answer(31, 4, 0),
            kind: 0,
            bits: 0,
        };
        assert_eq!(read_value(&bytes, &data, path), none, "{path:?}");
    }
    for (code, width) in [(0x0B, 16), (0x0C, 8), (0x0D, 16), (0x0E, 32)] {
        let none = read_value(&plain(code), &vec![0; width], &[]);
        assert_eq!(none.answer, answer(31, 4, 0));
    }
    for (code, width) in [(0x1B, 16), (0x1C, 8), (0x1D, 16), (0x1E, 32)] {
        let none = read_value(&quantity(code), &vec![0; width], &[]);
        assert_eq!(none.answer, answer(31, 4, 0));
    }
}

#[test]
fn values_of_every_kind() {
    let (bytes, data) = every_kind();
    assert_eq!(value(&bytes, &data, &[0]), (2, -19i64 as u64));
    assert_eq!(value(&bytes, &data, &[2, 2, 0]), (1, 5));
    assert_eq!(value(&bytes, &data, &[2, 3, 1]), (1, 8));
    assert_eq!(value(&bytes, &data, &[3, 1, 0]), (2, 8));
    assert_eq!(value(&bytes, &data, &[4, 0]), (5, 1));
    assert_eq!(value(&bytes, &data, &[4, 1, 0]), (4, 0.25f64.to_bits()));
}

#[test]
fn integers_at_their_edges() {
    for (power, code) in (0..4).zip(0x01..) {
        let width = 1 << power;
        let bits = 8 * width as u32;
        let least = i64::MIN >> (64 - bits);
        for number in [least, least + 1, -1, 0, 1, -(least + 1)] {
            let data = &number.to_be_bytes()[8 - width..];
            assert_eq!(value(&plain(code), data, &[]), (2, number as u64));
        }
        let most = u64::MAX >> (64 - bits);
        for number in [0, 1, most / 2, most / 2 + 1, most - 1, most] {
            let data = &number.to_be_bytes()[8 - width..];
            assert_eq!(value(&plain(code + 4), data, &[]), (1, number));
        }
    }
}

#[test]
fn enumerations_are_unsigned() {
    for (code, width) in [(0x15, 1), (0x16, 2), (0x17, 4)] {
        let bytes = enumeration(code, 256);
        for number in [0u32, 1, 127, 128, 255] {
            let data = &number.to_be_bytes()[4 - width..];
            assert_eq!(value(&bytes, data, &[]), (1, u64::from(number)));
        }
    }
}

#[test]
fn reals_by_their_exact_bits() {
    let singles = [
        0,
        0x8000_0000,
        1,
        0x7F80_0000,
        0xFF80_0000,
        0x7F80_0001,
        0x7FC0_0000,
        0xFFFF_FFFF,
        f32::MAX.to_bits(),
    ];
    for bits in singles {
        let data = bits.to_be_bytes();
        assert_eq!(value(&plain(0x09), &data, &[]), (3, u64::from(bits)));
        assert_eq!(value(&quantity(0x19), &data, &[]), (3, u64::from(bits)));
    }
    let doubles = [
        0,
        1 << 63,
        1,
        f64::INFINITY.to_bits(),
        f64::NEG_INFINITY.to_bits(),
        0x7FF0_0000_0000_0001,
        0x7FF8_0000_0000_0000,
        u64::MAX,
        f64::MAX.to_bits(),
    ];
    for bits in doubles {
        let data = bits.to_be_bytes();
        assert_eq!(value(&plain(0x0A), &data, &[]), (4, bits));
        assert_eq!(value(&quantity(0x1A), &data, &[]), (4, bits));
    }
}

#[test]
fn number_50_comes_last() {
    let bytes = cluster(&[plain(0x02), plain(0x07)]);
    let data = [1, 2, 3, 4, 5, 6];
    for room in 0..6 {
        let mut out = vec![0xA5; room];
        let refusal = answer(50, 4, 6);
        assert_eq!(to_little_endian(&bytes, &data, &mut out), refusal);
        assert_eq!(from_little_endian(&bytes, &data, &mut out), refusal);
        assert_eq!(out, vec![0xA5; room]);
        let refusal = answer(25, 3, 6);
        assert_eq!(to_little_endian(&bytes, &[0; 7], &mut out), refusal);
    }
    for room in [6, 7, 100] {
        let mut out = vec![0xA5; room];
        assert_eq!(to_little_endian(&bytes, &data, &mut out), answer(0, 0, 6));
        assert_eq!(out[..6], [2, 1, 6, 5, 4, 3]);
        assert!(out[6..].iter().all(|byte| *byte == 0xA5));
    }
}

#[test]
fn the_longest_data_is_reversed_whole() {
    for (code, width) in [(0x06, 2), (0x07, 4), (0x08, 8), (0x0C, 4), (0x0D, 8)] {
        let size = width << u32::from(code > 0x0A);
        let count = 65532 / size;
        let mut data = counted(count as u32, &vec![0; count * size]);
        for (index, byte) in data[4..].iter_mut().enumerate() {
            *byte = (index % 251) as u8;
        }
        let mut stated = data.clone();
        stated[..4].reverse();
        stated[4..].chunks_mut(width).for_each(<[u8]>::reverse);
        let bytes = array(1, &plain(code));
        let mut out = vec![0; data.len()];
        let written = answer(0, 0, data.len() as u32);
        assert_eq!(to_little_endian(&bytes, &data, &mut out), written);
        assert!(out == stated);
        let mut back = vec![0; data.len()];
        assert_eq!(from_little_endian(&bytes, &out, &mut back), written);
        assert!(back == data);
    }
}

#[test]
fn arrays_at_every_second_level() {
    let inner = |element: &[u8]| cluster(&[plain(0x05), array(1, element)]);
    let deepest = inner(&inner(&inner(&enumeration(0x15, 2))));
    let bytes = array(1, &deepest);
    let mut data = counted(2, &[1, 0]);
    for _ in 0..3 {
        data = counted(
            2,
            &[[&[9], &data[..]].concat(), vec![8, 0, 0, 0, 0]].concat(),
        );
    }
    accepted(&bytes, &data, 15);
    assert_eq!(value(&bytes, &data, &[0, 1, 0, 1, 0, 1, 1]), (1, 0));
    assert_eq!(part(&bytes, &data, &[0, 1, 0, 1, 0, 1]), (15, 6));
    assert_eq!(part(&bytes, &data, &[0, 1, 1]), (26, 5));
    path_refused(&bytes, &data, &[0, 1, 0, 1, 0, 1, 1, 0], 7);
    path_refused(&bytes, &data, &[1, 1, 0], 2);
    data[20] = 2;
    refused(&bytes, &data, 23, 20);
}

#[test]
fn the_widest_clusters() {
    let members = vec![plain(0x0E); 255];
    let bytes = cluster(&members);
    accepted(&bytes, &[7; 8160], 255);
    refused(&bytes, &[7; 8159], 21, 8128);
    assert_eq!(part(&bytes, &[7; 8160], &[254]), (8128, 32));
    path_refused(&bytes, &[7; 8160], &[255], 0);
    let bytes = array(1, &cluster(&members[1..]));
    let data = counted(8, &[7; 65024]);
    accepted(&bytes, &data, 2033);
    refused(&bytes, &data[..65027], 21, 64996);
    assert_eq!(part(&bytes, &data, &[7, 253]), (64996, 32));
    for odd in [plain(0x21), enumeration(0x15, 2)] {
        let bytes = array(1, &cluster(&[&[odd], &members[2..]].concat()));
        let data = counted(8, &[1; 8 * 8097]);
        accepted(&bytes, &data, 2033);
        assert_eq!(part(&bytes, &data, &[7, 253]), (64748, 32));
    }
}
