//! The cases that document 01 lists as checked by hand, two of them with the places
//! of document 02, and the worked examples of source document 004 under carried
//! codes.

#[allow(dead_code, reason = "each test program uses a part of it")]
mod build;

use build::answer;
use reference::{Answer, Row, Value, check_data, check_descriptor, compare, normal_form};
use reference::{from_little_endian, read_record, read_value, to_little_endian, view};

/// The bytes written as groups of hexadecimal digits.
fn bytes(text: &str) -> Vec<u8> {
    let digits: Vec<u8> = text.bytes().filter(|byte| *byte != b' ').collect();
    let pairs = digits.as_chunks::<2>().0.iter();
    pairs
        .map(|pair| u8::from_str_radix(std::str::from_utf8(pair).unwrap(), 16).unwrap())
        .collect()
}

/// Checks that the descriptor is accepted with exactly these rows.
#[track_caller]
fn accepted(text: &str, rows: &[[u16; 7]]) {
    build::accepted(&bytes(text), rows);
}

/// Checks that every question refuses the descriptor with this number and place.
fn refused(text: &str, number: u32, place: u32) {
    let descriptor = bytes(text);
    let checked = check_descriptor(&descriptor);
    assert_eq!(checked.answer, answer(number, 1, place), "{text}");
    assert!(checked.rows.iter().all(|row| *row == Row::ZERO), "{text}");
    let compared = compare(&bytes(P1), &descriptor);
    assert_eq!(compared.answer, answer(number, 2, place), "{text}");
    assert!(!compared.equal);
    let mut out = [0xA5; 64];
    let written = normal_form(&descriptor, &mut out);
    assert_eq!(written, answer(number, 1, place), "{text}");
    assert_eq!(out, [0xA5; 64]);
}

/// Checks that the data is accepted with this many pieces, and that this is its
/// little-endian form.
fn walked(descriptor: &str, data: &str, pieces: u32, little: &str) {
    let (descriptor, data, little) = (bytes(descriptor), bytes(data), bytes(little));
    assert_eq!(check_data(&descriptor, &data), answer(0, 0, pieces));
    let length = data.len();
    let mut out = vec![0xA5; length + 2];
    let written = to_little_endian(&descriptor, &data, &mut out);
    assert_eq!(written, answer(0, 0, length as u32));
    assert_eq!(out, [&little[..], &[0xA5, 0xA5]].concat());
    let mut out = vec![0xA5; length + 2];
    let written = from_little_endian(&descriptor, &little, &mut out);
    assert_eq!(written, answer(0, 0, length as u32));
    assert_eq!(out, [&data[..], &[0xA5, 0xA5]].concat());
}

/// Checks that every question about data refuses it with this number and place.
fn data_refused(descriptor: &str, data: &str, number: u32, place: u32) {
    let (descriptor, data) = (bytes(descriptor), bytes(data));
    let refusal = answer(number, 3, place);
    assert_eq!(check_data(&descriptor, &data), refusal);
    let part = view(&descriptor, &data, &[]);
    assert_eq!((part.answer, part.start, part.length), (refusal, 0, 0));
    let read = read_value(&descriptor, &data, &[]);
    assert_eq!((read.answer, read.kind, read.bits), (refusal, 0, 0));
    let mut out = [0xA5; 64];
    assert_eq!(to_little_endian(&descriptor, &data, &mut out), refusal);
    assert_eq!(out, [0xA5; 64]);
}

/// Checks the value at the end of a path.
fn holds(descriptor: &str, data: &str, path: &[u32], kind: u32, bits: u64) {
    let read = read_value(&bytes(descriptor), &bytes(data), path);
    let answer = answer(0, 0, 0);
    assert_eq!(read, Value { answer, kind, bits });
}

/// Checks the part of the data at the end of a path.
fn stands(descriptor: &str, data: &str, path: &[u32], start: usize, length: usize) {
    let part = view(&bytes(descriptor), &bytes(data), path);
    let accepted = (answer(0, 0, 0), start, length);
    assert_eq!((part.answer, part.start, part.length), accepted);
}

const P1: &str = "0004 0003";
const P4: &str = "000E 0040 0001 FFFF FFFF 0004 000A";
const P5: &str = "000E 0050 0002 0004 0002 0004 0007";

#[test]
fn p1_one_integer() {
    accepted(P1, &[[0x03, 0, 4, 1, 0, 0, 0]]);
}

#[test]
fn p2_no_bytes() {
    refused("", 2, 0);
}

#[test]
fn p3_odd_size() {
    refused("0005 0003 00", 4, 0);
}

#[test]
fn p4_array_of_doubles() {
    accepted(P4, &[[0x40, 0, 14, 1, 1, 0, 0], [0x0A, 10, 4, 2, 0, 0, 0]]);
}

#[test]
fn p5_cluster_of_two() {
    accepted(
        P5,
        &[
            [0x50, 0, 14, 1, 2, 0, 0],
            [0x02, 6, 4, 2, 0, 0, 0],
            [0x07, 10, 4, 2, 0, 0, 0],
        ],
    );
}

#[test]
fn p6_enumeration_of_three() {
    accepted(
        "0016 0015 0003 0261 6D02 666D 0966 6D20 7374 6572 656F",
        &[[0x15, 0, 22, 1, 3, 0, 0]],
    );
}

#[test]
fn p7_array_in_array() {
    refused(&format!("0018 0040 0001 FFFF FFFF {P4}"), 10, 13);
}

#[test]
fn p8_reserved_byte_is_ignored() {
    let compared = compare(&bytes("0004 4003"), &bytes(P1));
    assert_eq!((compared.answer, compared.equal), (answer(0, 0, 0), true));
    let compared = compare(&bytes("0004 0007"), &bytes(P1));
    assert_eq!((compared.answer, compared.equal), (answer(0, 0, 0), false));
}

#[test]
fn two_dimensional_array_of_booleans() {
    accepted(
        "0012 0040 0002 FFFF FFFF FFFF FFFF 0004 0021",
        &[[0x40, 0, 18, 1, 2, 0, 0], [0x21, 14, 4, 2, 0, 0, 0]],
    );
}

#[test]
fn metres_per_second() {
    accepted(
        "000E 001A 0002 0002 FFFF 0003 0001",
        &[[0x1A, 0, 14, 1, 2, 0, 0]],
    );
}

#[test]
fn name_that_runs_over() {
    refused("0006 0003 0261", 11, 4);
}

#[test]
fn empty_name() {
    accepted("0006 0003 0000", &[[0x03, 0, 6, 1, 0, 5, 0]]);
    assert!(!compare(&bytes("0006 0003 0000"), &bytes(P1)).equal);
}

#[test]
fn named_members_of_p11() {
    accepted(
        "0014 0050 0002 0006 0002 0174 0008 0007 0269 6400",
        &[
            [0x50, 0, 20, 1, 2, 0, 0],
            [0x02, 6, 6, 2, 0, 11, 1],
            [0x07, 12, 8, 2, 0, 17, 2],
        ],
    );
}

#[test]
fn normal_form_zeroes_reserved_bytes_only() {
    let descriptor = bytes("000E 7740 0001 FFFF FFFF 0004 550A");
    let mut out = [0xA5; 16];
    assert_eq!(normal_form(&descriptor, &mut out), answer(0, 0, 14));
    assert_eq!(out[..14], bytes(P4));
    assert_eq!(out[14..], [0xA5, 0xA5]);
}

#[test]
fn normal_form_without_room() {
    let mut out = [0xA5; 13];
    assert_eq!(normal_form(&bytes(P4), &mut out), answer(50, 4, 14));
    assert_eq!(out, [0xA5; 13]);
    assert_eq!(normal_form(&bytes(P1), &mut []), answer(50, 4, 4));
}

#[test]
fn p9_two_numbers() {
    let data = "FFFE 0000 0001";
    walked(P5, data, 2, "FEFF 0100 0000");
    holds(P5, data, &[0], 2, -2i64 as u64);
    holds(P5, data, &[1], 1, 1);
    stands(P5, data, &[], 0, 6);
    stands(P5, data, &[0], 0, 2);
    stands(P5, data, &[1], 2, 4);
}

#[test]
fn p10_empty_and_cut() {
    walked(P4, "0000 0000", 1, "0000 0000");
    data_refused(P4, "0000 0001", 21, 4);
    data_refused(P4, "8000 0000", 22, 0);
}

#[test]
fn p11_data_of_the_rig() {
    let rig = "0014 0050 0002 0006 0002 0174 0008 0007 0269 6400";
    walked(rig, "0019 0000 0009", 2, "1900 0900 0000");
    stands(rig, "0019 0000 0009", &[1], 2, 4);
}

/// What a reader's shape gives of the record of P11, in plenty of room.
fn read_rig(reader: &str) -> (Answer, Vec<u8>) {
    let rig = bytes("0014 0050 0002 0006 0002 0174 0008 0007 0269 6400");
    let mut out = vec![0xA5; 6];
    let data = bytes("0019 0000 0009");
    let answer = read_record(&rig, &bytes(reader), &data, &mut out);
    (answer, out)
}

#[test]
fn p11_record_in_a_readers_shape() {
    let (given, out) = read_rig("000E 0050 0001 0008 0007 0269 6400");
    assert_eq!(given, answer(0, 0, 4));
    assert_eq!(out, bytes("0000 0009 A5A5"));
}

#[test]
fn p12_another_type_and_another_name() {
    let kept = vec![0xA5; 6];
    let other_type = read_rig("000E 0050 0001 0008 0003 0269 6400");
    assert_eq!(other_type, (answer(44, 2, 0), kept.clone()));
    let other_name = read_rig("000E 0050 0001 0008 0007 026E 6F00");
    assert_eq!(other_name, (answer(42, 2, 0), kept));
}

#[test]
fn a_size_of_zero_makes_the_array_empty() {
    for element in ["0004 000A", "0004 0021", "0008 0030 FFFF FFFF"] {
        let two = ["7FFF FFFF 0000 0000", "0000 0000 7FFF FFFF"];
        for sizes in two {
            let size = 14 + bytes(element).len();
            let array = format!("{size:04X} 0040 0002 FFFF FFFF FFFF FFFF {element}");
            assert_eq!(check_data(&bytes(&array), &bytes(sizes)), answer(0, 0, 1));
        }
        let size = 22 + bytes(element).len();
        let words = "FFFF FFFF ".repeat(4);
        let array = format!("{size:04X} 0040 0004 {words} {element}");
        let four = "7FFF FFFF 7FFF FFFF 7FFF FFFF 0000 0000";
        assert_eq!(check_data(&bytes(&array), &bytes(four)), answer(0, 0, 1));
    }
}

#[test]
fn four_sizes_of_two_to_the_31() {
    let sizes = "7FFF FFFF ".repeat(4);
    let words = "FFFF FFFF ".repeat(4);
    let doubles = format!("001A 0040 0004 {words} 0004 000A");
    data_refused(&doubles, &sizes, 21, 16);
    data_refused(&doubles, &format!("{sizes} 0102 0304 0506 0708 09"), 21, 24);
    let booleans = format!("001A 0040 0004 {words} 0004 0021");
    data_refused(&booleans, &sizes, 21, 16);
    data_refused(&booleans, &format!("{sizes} 02"), 21, 17);
    data_refused(&booleans, &format!("{sizes} 0100 0100 01FF 01"), 21, 23);
    let strings = format!("001E 0040 0004 {words} 0008 0030 FFFF FFFF");
    data_refused(&strings, &format!("{sizes} 0000 0000 8000 0000"), 22, 20);
    let wraps = "0001 0000 ".repeat(4);
    data_refused(&doubles, &wraps, 21, 16);
    let enumerations = format!("001E 0040 0004 {words} 0008 0016 0001 0141");
    data_refused(&enumerations, &format!("{sizes} 0001"), 23, 16);
    let late = format!("{sizes} 0000 0000 0001 0000 00");
    data_refused(&enumerations, &late, 23, 20);
}

#[test]
fn the_halves_of_complex_numbers() {
    walked("0004 000C", "0102 0304 0506 0708", 1, "0403 0201 0807 0605");
    walked(
        "000A 001D 0001 0003 0001",
        "0001 0203 0405 0607 0809 0A0B 0C0D 0E0F",
        1,
        "0706 0504 0302 0100 0F0E 0D0C 0B0A 0908",
    );
    let forward: String = (0..32).map(|byte| format!("{byte:02X}")).collect();
    let halves = (0..16).rev().chain((16..32).rev());
    let reversed: String = halves.map(|byte| format!("{byte:02X}")).collect();
    walked("0004 000E", &forward, 1, &reversed);
}

#[test]
fn scalars_of_004() {
    walked(P1, "FFFF FFED", 1, "EDFF FFFF");
    holds(P1, "FFFF FFED", &[], 2, -19i64 as u64);
    walked("0004 000A", "3FD0 0000 0000 0000", 1, "0000 0000 0000 D03F");
    holds(
        "0004 000A",
        "3FD0 0000 0000 0000",
        &[],
        4,
        0.25f64.to_bits(),
    );
    holds("0004 0021", "00", &[], 5, 0);
    holds("0004 0021", "01", &[], 5, 1);
    holds("0004 0021", "FF", &[], 5, 1);
    walked("0004 0021", "FF", 1, "FF");
    let speed = "000E 001A 0002 0002 FFFF 0003 0001";
    holds(speed, "3FD0 0000 0000 0000", &[], 4, 0.25f64.to_bits());
}

#[test]
fn strings_and_arrays_of_004() {
    let text = "0008 0030 FFFF FFFF";
    walked(text, "0000 0003 4142 43", 1, "0300 0000 4142 43");
    let table = "0012 0040 0002 FFFF FFFF FFFF FFFF 0004 0001";
    let data = "0000 0002 0000 0003 0102 0304 0506";
    walked(table, data, 7, "0200 0000 0300 0000 0102 0304 0506");
    for flat in 0..6 {
        holds(table, data, &[flat], 2, u64::from(flat) + 1);
    }
    let booleans = "000E 0040 0001 FFFF FFFF 0004 0021";
    walked(booleans, "0000 0004 0100 0101", 5, "0400 0000 0100 0101");
    holds(booleans, "0000 0004 0100 0101", &[1], 5, 0);
    let lamps = "0000 0004 FF00 0280";
    walked(booleans, lamps, 5, "0400 0000 FF00 0280");
    for (lamp, lit) in (0..).zip([1, 0, 1, 1]) {
        holds(booleans, lamps, &[lamp], 5, lit);
        stands(booleans, lamps, &[lamp], 4 + lamp as usize, 1);
    }
}

#[test]
fn clusters_of_004() {
    let two = "000E 0050 0002 0004 0002 0004 0003";
    walked(two, "0004 0000 000C", 2, "0400 0C00 0000");
    let text = "0012 0050 0002 0008 0030 FFFF FFFF 0004 0002";
    let data = "0000 0003 4142 4300 04";
    walked(text, data, 2, "0300 0000 4142 4304 00");
    stands(text, data, &[0], 0, 7);
    holds(text, data, &[1], 2, 4);
    let data = "0007 0008 0009";
    let last_inside = "0018 0050 0002 0004 0002 000E 0050 0002 0004 0002 0004 0002";
    walked(last_inside, data, 3, "0700 0800 0900");
    holds(last_inside, data, &[1, 1], 2, 9);
    let last_outside = "0018 0050 0003 0004 0002 000A 0050 0001 0004 0002 0004 0002";
    walked(last_outside, data, 3, "0700 0800 0900");
    holds(last_outside, data, &[1, 0], 2, 8);
    holds(last_outside, data, &[2], 2, 9);
}

#[test]
fn multiplot_graph_of_004() {
    let graph = "0028 0040 0001 FFFF FFFF 001E 0050 0001 0018 0040 0001 FFFF FFFF \
                 000E 0050 0002 0004 000A 0004 0003";
    let data = "0000 0002 0000 0000 0000 0001 3FD0 0000 0000 0000 FFFF FFED";
    let little = "0200 0000 0000 0000 0100 0000 0000 0000 0000 D03F EDFF FFFF";
    walked(graph, data, 5, little);
    stands(graph, data, &[0], 4, 4);
    stands(graph, data, &[1], 8, 16);
    stands(graph, data, &[1, 0, 0], 12, 12);
    holds(graph, data, &[1, 0, 0, 1], 2, -19i64 as u64);
}
