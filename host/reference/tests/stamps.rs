//! Time stamps as document 02 asks for them: their descriptor, their data, and the
//! exact difference of two.

#[allow(dead_code, reason = "each test program uses a part of it")]
mod build;

use build::{accepted, answer, array, cluster, plain, text};
use reference::{Answer, Difference, Part, Row, Stamp, Value, stamp_difference};
use reference::{check_data, check_descriptor, compare, normal_form, read_record};
use reference::{from_little_endian, read_value, to_little_endian, view};

/// A time stamp as source document 001 begins it (`001C 0054 0006`) and document 02
/// goes on.
const STAMP: [u8; 28] = *b"\
    \x00\x1C\x00\x54\x00\x06\x00\x16\x00\x50\x00\x04\
    \x00\x04\x00\x03\x00\x04\x00\x03\x00\x04\x00\x07\x00\x04\x00\x07";

/// The whole one of source document 004, which has four signed integers.
const OLD_STAMP: [u8; 28] = *b"\
    \x00\x1C\x00\x54\x00\x06\x00\x16\x00\x50\x00\x04\
    \x00\x04\x00\x03\x00\x04\x00\x03\x00\x04\x00\x03\x00\x04\x00\x03";

/// The places of the reserved bytes.
const RESERVED: [usize; 6] = [2, 8, 14, 18, 22, 26];

/// A code 54 with these bytes behind its header.
fn coded(behind: &[u8]) -> Vec<u8> {
    let size = (4 + behind.len()) as u16;
    [&size.to_be_bytes(), &[0, 0x54][..], behind].concat()
}

/// A time stamp that holds this.
fn holding(held: &[u8]) -> Vec<u8> {
    coded(&[&[0, 6], held].concat())
}

/// A cluster of integers of these codes.
fn integers(codes: &[u8]) -> Vec<u8> {
    let members: Vec<Vec<u8>> = codes.iter().map(|code| plain(*code)).collect();
    cluster(&members)
}

/// What a time stamp holds.
fn halves() -> Vec<u8> {
    integers(&[0x03, 0x03, 0x07, 0x07])
}

/// The descriptor with these bytes behind it, its size following.
fn longer(mut descriptor: Vec<u8>, behind: &[u8]) -> Vec<u8> {
    descriptor.extend(behind);
    let size = (descriptor.len() as u16).to_be_bytes();
    descriptor[..2].copy_from_slice(&size);
    descriptor
}

/// The descriptor inside this many clusters.
fn nested(descriptor: Vec<u8>, clusters: usize) -> Vec<u8> {
    (0..clusters).fold(descriptor, |inner, _| cluster(&[inner]))
}

/// Checks that every question refuses the descriptor with this number and place.
fn refused(descriptor: &[u8], number: u32, place: u32) {
    let refusal = answer(number, 1, place);
    let checked = check_descriptor(descriptor);
    assert_eq!(checked.answer, refusal, "{descriptor:02X?}");
    assert!(checked.rows.iter().all(|row| *row == Row::ZERO));
    let compared = compare(&STAMP, descriptor);
    assert_eq!(compared.answer, answer(number, 2, place));
    assert!(!compared.equal);
    let mut out = [0xA5; 64];
    assert_eq!(normal_form(descriptor, &mut out), refusal);
    assert_eq!(to_little_endian(descriptor, &[0; 16], &mut out), refusal);
    assert_eq!(from_little_endian(descriptor, &[0; 16], &mut out), refusal);
    assert_eq!(
        read_record(descriptor, &STAMP, &[0; 16], &mut out),
        answer(number, 1, place)
    );
    assert_eq!(out, [0xA5; 64]);
    assert_eq!(check_data(descriptor, &[0; 16]), refusal);
    assert_eq!(view(descriptor, &[0; 16], &[]).answer, refusal);
    assert_eq!(read_value(descriptor, &[0; 16], &[]).answer, refusal);
}

/// Checks that this is accepted by itself, and that a time stamp which holds it is 10
/// at its start: as the top, as a member and as an element.
fn wrong_inside(held: &[u8]) {
    assert_eq!(check_descriptor(held).answer.number, 0, "{held:02X?}");
    refused(&holding(held), 10, 0);
    refused(&cluster(&[plain(0x05), holding(held)]), 10, 10);
    refused(&array(1, &holding(held)), 10, 10);
}

#[test]
fn the_stamp_of_001() {
    assert_eq!(holding(&halves()), STAMP);
    let rows = [
        [0x54, 0, 28, 1, 0, 0, 0],
        [0x50, 6, 22, 2, 4, 0, 0],
        [0x03, 12, 4, 3, 0, 0, 0],
        [0x03, 16, 4, 3, 0, 0, 0],
        [0x07, 20, 4, 3, 0, 0, 0],
        [0x07, 24, 4, 3, 0, 0, 0],
    ];
    accepted(&STAMP, &rows);
    for (name, size, length) in [
        (&b"\0\0"[..], 30, 0),
        (b"\x01t", 30, 1),
        (b"\x02t0\0", 32, 2),
    ] {
        let mut named = rows;
        named[0] = [0x54, 0, size, 1, 0, 29, length];
        accepted(&longer(STAMP.to_vec(), name), &named);
    }
}

#[test]
fn the_stamp_of_004() {
    refused(&OLD_STAMP, 10, 0);
}

#[test]
fn a_missing_subtype_is_8() {
    refused(&coded(&[]), 8, 4);
    refused(&cluster(&[plain(0x03), coded(&[])]), 8, 14);
    refused(&cluster(&[coded(&[]), plain(0x03)]), 8, 10);
}

#[test]
fn another_subtype_is_5() {
    // Waveforms, digital data and dynamic data; then such as have a 6 in them.
    for subtype in [0, 3, 5, 7, 8, 9, 0x0106, 0x0600, 0x8006, 0xFFFF] {
        let [high, low] = u16::to_be_bytes(subtype);
        for held in [&[][..], &[0], &[9, 9], &halves(), &integers(&[0x03])] {
            let mut descriptor = coded(&[&[high, low], held].concat());
            descriptor.resize(descriptor.len().next_multiple_of(2), 0);
            descriptor[1] = descriptor.len() as u8;
            refused(&descriptor, 5, 3);
            refused(&cluster(&[plain(0x03), descriptor.clone()]), 5, 13);
            refused(&cluster(&[descriptor.clone(), plain(0x03)]), 5, 9);
            refused(&array(2, &descriptor), 5, 17);
            refused(&holding(&descriptor), 5, 9);
        }
    }
}

#[test]
fn numbers_6_and_7_come_before_another_subtype() {
    let other = coded(&[0, 3]);
    refused(&nested(other.clone(), 7), 5, 42 + 3);
    refused(&nested(other.clone(), 8), 6, 48);
    let wide = |numbers, last: &[u8]| {
        let members = [vec![plain(0x05); numbers], vec![last.to_vec()]].concat();
        cluster(&members)
    };
    refused(&wide(254, &other), 5, 6 + 4 * 254 + 3);
    refused(&wide(255, &other), 7, 6 + 4 * 255);
    refused(&wide(255, &coded(&[])), 7, 6 + 4 * 255);
}

#[test]
fn a_missing_child_is_2() {
    refused(&coded(&[0, 6]), 2, 6);
    refused(&coded(&[0, 6, 0, 4]), 2, 6);
    refused(&cluster(&[plain(0x03), coded(&[0, 6])]), 2, 16);
    // The next member is no child.
    refused(&cluster(&[coded(&[0, 6]), halves()]), 2, 12);
}

#[test]
fn what_is_held_is_judged_by_itself_first() {
    let at = |place: usize, byte: u8| {
        let mut descriptor = STAMP.to_vec();
        descriptor[place] = byte;
        descriptor
    };
    refused(&at(6, 0x80), 3, 6);
    refused(&at(7, 0x18), 4, 6);
    refused(&at(7, 0x15), 4, 6);
    refused(&at(9, 0x51), 5, 9);
    refused(&at(9, 0x40), 10, 12);
    refused(&at(11, 0), 9, 10);
    refused(&at(11, 5), 2, 28);
    refused(&at(11, 3), 11, 24);
    refused(&at(13, 6), 11, 16);
    refused(&at(12, 0x80), 3, 12);
    refused(&at(15, 0x0F), 5, 15);
    refused(&at(15, 0x30), 8, 16);
    refused(&at(27, 0x30), 8, 28);
    refused(&at(27, 0x54), 8, 28);
    // Even where something before it is wrong for a time stamp alone.
    let mut descriptor = OLD_STAMP;
    descriptor[27] = 0x40;
    refused(&descriptor, 8, 28);
}

#[test]
fn a_wrong_word_inside_has_its_own_place() {
    let string = [0, 8, 0, 0x30, 0xFF, 0xFF, 0xFF, 0xFE];
    refused(&holding(&string), 10, 10);
    refused(&holding(&array(1, &string)), 10, 20);
    refused(&holding(&array(2, &array(1, &plain(0x03)))), 10, 23);
    refused(&holding(&[0, 8, 0, 0x15, 0, 1, 0, 1]), 10, 13);
    refused(&holding(&[0, 10, 0, 0x19, 0, 1, 0, 9, 0, 1]), 10, 12);
    // The stamp's own 10 stays at its start.
    refused(&holding(&text()), 10, 0);
}

#[test]
fn anything_else_inside_is_10() {
    for code in 0x01..=0x0E {
        wrong_inside(&plain(code));
    }
    wrong_inside(&text());
    wrong_inside(&array(1, &plain(0x03)));
    wrong_inside(&array(4, &halves()));
    let right = [0x03, 0x03, 0x07, 0x07];
    for place in 0..4 {
        for code in (0x01..=0x0E)
            .chain([0x21])
            .filter(|code| *code != right[place])
        {
            let mut codes = right;
            codes[place] = code;
            wrong_inside(&integers(&codes));
        }
    }
    wrong_inside(&integers(&[0x07, 0x07, 0x03, 0x03]));
    wrong_inside(&integers(&[0x04, 0x08]));
    for count in 1..4 {
        wrong_inside(&integers(&right[..count]));
    }
    wrong_inside(&integers(&[0x03, 0x03, 0x07, 0x07, 0x07]));
    wrong_inside(&cluster(&[halves()]));
    wrong_inside(&cluster(&[
        plain(0x03),
        plain(0x03),
        integers(&[0x07, 0x07]),
    ]));
}

#[test]
fn a_name_inside_is_10() {
    for name in [&b"\0\0"[..], b"\x01t", b"\x02t0\0"] {
        wrong_inside(&longer(halves(), name));
        for place in 0..4 {
            let mut members = [0x03, 0x03, 0x07, 0x07].map(plain);
            members[place] = longer(members[place].clone(), name);
            wrong_inside(&cluster(&members));
        }
    }
}

#[test]
fn a_stamp_in_a_stamp_is_10() {
    refused(&holding(&STAMP), 10, 0);
    refused(&holding(&OLD_STAMP), 10, 6);
    refused(&holding(&cluster(&[STAMP.to_vec()])), 10, 0);
    refused(&holding(&holding(&STAMP)), 10, 6);
}

#[test]
fn what_is_held_comes_before_11() {
    for behind in [&[9, 9][..], &[0, 1], &[1, 65, 0, 0], &[0, 4, 0, 3]] {
        refused(&longer(STAMP.to_vec(), behind), 11, 28);
        refused(&longer(OLD_STAMP.to_vec(), behind), 10, 0);
        let member = longer(STAMP.to_vec(), behind);
        refused(&cluster(&[plain(0x05), member, plain(0x05)]), 11, 38);
    }
    refused(&longer(STAMP.to_vec(), &halves()), 11, 28);
    // Bytes behind the top come last.
    refused(&[&STAMP[..], &[0, 0]].concat(), 12, 28);
    refused(&[&OLD_STAMP[..], &[0, 0]].concat(), 10, 0);
}

#[test]
fn the_depth_of_a_stamp() {
    assert_eq!(
        check_descriptor(&nested(STAMP.to_vec(), 5)).answer,
        answer(0, 0, 11)
    );
    refused(&nested(STAMP.to_vec(), 6), 6, 36 + 12);
    refused(&nested(STAMP.to_vec(), 7), 6, 42 + 6);
    refused(&nested(STAMP.to_vec(), 8), 6, 48);
    // Too deep comes before what is wrong inside.
    refused(&nested(holding(&integers(&[0x05])), 6), 6, 36 + 12);
    refused(&nested(holding(&plain(0x05)), 6), 10, 36);
}

#[test]
fn the_rows_of_a_stamp() {
    let wide = |numbers: usize| {
        let members = [vec![plain(0x05); numbers], vec![STAMP.to_vec()]].concat();
        cluster(&members)
    };
    assert_eq!(check_descriptor(&wide(249)).answer, answer(0, 0, 256));
    for (more, start) in [(0, 24), (1, 20), (2, 16), (3, 12), (4, 6), (5, 0)] {
        let numbers = 250 + more;
        refused(&wide(numbers), 7, 6 + 4 * numbers as u32 + start);
    }
}

#[test]
fn reserved_bytes_do_not_matter() {
    let mut other = STAMP;
    for place in RESERVED {
        other[place] = 0x40;
        assert_eq!(check_descriptor(&other).answer, answer(0, 0, 6));
        for [first, second] in [[STAMP, other], [other, STAMP]] {
            let compared = compare(&first, &second);
            assert_eq!((compared.answer, compared.equal), (answer(0, 0, 0), true));
        }
        let mut out = [0xA5; 30];
        assert_eq!(normal_form(&other, &mut out), answer(0, 0, 28));
        assert_eq!(out, *[&STAMP[..], &[0xA5; 2]].concat());
    }
    let mut out = [0xA5; 27];
    assert_eq!(normal_form(&other, &mut out), answer(50, 4, 28));
    assert_eq!(out, [0xA5; 27]);
    assert_eq!(check_data(&other, &[0xFF; 16]), answer(0, 0, 4));
}

#[test]
fn equal_stamps() {
    let named = |name: &[u8]| longer(STAMP.to_vec(), name);
    let all = [
        STAMP.to_vec(),
        named(b"\0\0"),
        named(b"\x01t"),
        named(b"\x01u"),
        halves(),
    ];
    for (index, first) in all.iter().enumerate() {
        for (other, second) in all.iter().enumerate() {
            let compared = compare(first, second);
            assert_eq!(compared.answer, answer(0, 0, 0));
            assert_eq!(compared.equal, index == other);
        }
    }
}

/// One second and a quarter before the start of 1904, and 2^-64 second.
const DATA: [u8; 16] = *b"\xFF\xFF\xFF\xFF\xFF\xFF\xFF\xFE\xC0\0\0\0\0\0\0\x01";

#[test]
fn the_data_is_that_of_the_cluster() {
    let named = longer(STAMP.to_vec(), b"\x01t");
    for descriptor in [&STAMP[..], &named, &halves()] {
        assert_eq!(check_data(descriptor, &DATA), answer(0, 0, 4));
        for length in 0..16 {
            let refusal = answer(21, 3, length as u32 / 4 * 4);
            assert_eq!(check_data(descriptor, &DATA[..length]), refusal);
        }
        let refusal = answer(25, 3, 16);
        assert_eq!(check_data(descriptor, &[0; 17]), refusal);
    }
    let data = [&2u32.to_be_bytes()[..], &DATA, &DATA].concat();
    let stamps = array(1, &STAMP);
    assert_eq!(check_data(&stamps, &data), answer(0, 0, 9));
    for length in 4..36 {
        let refusal = answer(21, 3, length as u32 / 4 * 4);
        assert_eq!(check_data(&stamps, &data[..length]), refusal);
    }
}

/// Checks the part at the end of a path.
fn stands(descriptor: &[u8], data: &[u8], path: &[u32], start: usize, length: usize) {
    let answer = answer(0, 0, 0);
    let part = Part {
        answer,
        start,
        length,
    };
    assert_eq!(view(descriptor, data, path), part, "{path:?}");
}

/// Checks that a path leads to no part, or to no single number.
fn no_value(descriptor: &[u8], data: &[u8], path: &[u32], refusal: Answer) {
    let none = Value {
        answer: refusal,
        ..Value::default()
    };
    assert_eq!(read_value(descriptor, data, path), none, "{path:?}");
    if refusal.number == 30 {
        let nothing = Part {
            answer: refusal,
            ..Part::default()
        };
        assert_eq!(view(descriptor, data, path), nothing, "{path:?}");
    }
}

#[test]
fn the_parts_of_a_stamp() {
    stands(&STAMP, &DATA, &[], 0, 16);
    stands(&STAMP, &DATA, &[0], 0, 16);
    no_value(&STAMP, &DATA, &[], answer(31, 4, 0));
    no_value(&STAMP, &DATA, &[0], answer(31, 4, 0));
    let numbers = [
        (2, -1i64 as u64),
        (2, -2i64 as u64),
        (1, 0xC000_0000),
        (1, 1),
    ];
    for (half, (kind, bits)) in numbers.into_iter().enumerate() {
        stands(&STAMP, &DATA, &[0, half as u32], 4 * half, 4);
        let answer = answer(0, 0, 0);
        let value = Value { answer, kind, bits };
        assert_eq!(read_value(&STAMP, &DATA, &[0, half as u32]), value);
    }
    for step in [1, 4, 6, u32::MAX] {
        no_value(&STAMP, &DATA, &[step], answer(30, 4, 0));
        no_value(&STAMP, &DATA, &[step, 0], answer(30, 4, 0));
    }
    no_value(&STAMP, &DATA, &[0, 4], answer(30, 4, 1));
    no_value(&STAMP, &DATA, &[0, 0, 0], answer(30, 4, 2));
}

#[test]
fn parts_beside_stamps() {
    let record = cluster(&[text(), STAMP.to_vec(), plain(0x02)]);
    let descriptor = cluster(&[plain(0x05), array(1, &record), STAMP.to_vec(), text()]);
    let mut data = vec![7, 0, 0, 0, 2];
    for text in [&b"\0\0\0\x01A"[..], b"\0\0\0\x03ABC"] {
        data.extend([text, &DATA, &[0, 9]].concat());
    }
    data.extend([&DATA[..], b"\0\0\0\0"].concat());
    assert_eq!(check_data(&descriptor, &data), answer(0, 0, 19));
    stands(&descriptor, &data, &[1, 0, 1], 10, 16);
    stands(&descriptor, &data, &[1, 0, 1, 0], 10, 16);
    stands(&descriptor, &data, &[1, 0, 2], 26, 2);
    stands(&descriptor, &data, &[1, 1, 1, 0, 3], 47, 4);
    stands(&descriptor, &data, &[1, 1, 2], 51, 2);
    stands(&descriptor, &data, &[2], 53, 16);
    stands(&descriptor, &data, &[2, 0, 1], 57, 4);
    stands(&descriptor, &data, &[3], 69, 4);
    no_value(&descriptor, &data, &[2, 1], answer(30, 4, 1));
    no_value(&descriptor, &data, &[1, 1, 1], answer(31, 4, 0));
}

#[test]
fn little_endian_stamps() {
    let little = *b"\xFF\xFF\xFF\xFF\xFE\xFF\xFF\xFF\0\0\0\xC0\x01\0\0\0";
    for count in [1, 2, 3, 4, 5, 1000] {
        let size = (count as u32).to_be_bytes();
        let data = [&size[..], &DATA.repeat(count)].concat();
        let size = (count as u32).to_le_bytes();
        let form = [&size[..], &little.repeat(count)].concat();
        let stamps = array(1, &STAMP);
        let mut out = vec![0; data.len()];
        let written = answer(0, 0, data.len() as u32);
        assert_eq!(to_little_endian(&stamps, &data, &mut out), written);
        assert!(out == form);
        assert_eq!(from_little_endian(&stamps, &form, &mut out), written);
        assert!(out == data);
    }
    let mut out = [0xA5; 17];
    assert_eq!(to_little_endian(&STAMP, &DATA, &mut out), answer(0, 0, 16));
    assert_eq!(out, *[&little[..], &[0xA5]].concat());
    let mut out = [0xA5; 15];
    assert_eq!(to_little_endian(&STAMP, &DATA, &mut out), answer(50, 4, 16));
    assert_eq!(out, [0xA5; 15]);
}

#[test]
fn the_most_stamps() {
    let stamps = array(1, &STAMP);
    let data = [&4095u32.to_be_bytes()[..], &DATA.repeat(4095)].concat();
    assert_eq!(check_data(&stamps, &data), answer(0, 0, 16381));
    stands(&stamps, &data, &[4094, 0, 3], 65520, 4);
    no_value(&stamps, &data, &[4095], answer(30, 4, 0));
    let data = [&data[..], &[0]].concat();
    assert_eq!(check_data(&stamps, &data), answer(25, 3, 65524));
    let data = [&4096u32.to_be_bytes()[..], &DATA.repeat(4095)].concat();
    assert_eq!(check_data(&stamps, &data), answer(21, 3, 65524));
}

#[test]
fn a_stamp_is_no_cluster() {
    let named = longer(STAMP.to_vec(), b"\x01t");
    let record = cluster(std::slice::from_ref(&named));
    let mut out = [0xA5; 16];
    let mut read = |writer: &[u8], reader: &[u8]| {
        let answer = read_record(writer, reader, &DATA, &mut out);
        (answer, out)
    };
    for top in [&STAMP[..], &named] {
        assert_eq!(read(&record, top), (answer(40, 2, 0), [0xA5; 16]));
        assert_eq!(read(top, &record), (answer(41, 1, 0), [0xA5; 16]));
        assert_eq!(read(top, top), (answer(40, 2, 0), [0xA5; 16]));
    }
    let bare = cluster(&[STAMP.to_vec()]);
    assert_eq!(read(&record, &bare), (answer(40, 2, 0), [0xA5; 16]));
    // The cluster inside is another type, and so is a member of another name.
    let inside = cluster(&[longer(halves(), b"\x01t")]);
    assert_eq!(read(&record, &inside), (answer(44, 2, 0), [0xA5; 16]));
    assert_eq!(read(&inside, &record), (answer(44, 2, 0), [0xA5; 16]));
    let other = cluster(&[longer(STAMP.to_vec(), b"\x01u")]);
    assert_eq!(read(&record, &other), (answer(42, 2, 0), [0xA5; 16]));
    assert_eq!(read(&record, &record), (answer(0, 0, 16), DATA));
}

#[test]
fn records_with_stamps() {
    let named = |descriptor: &[u8], name: &[u8]| longer(descriptor.to_vec(), name);
    let (at, by, of) = (
        named(&STAMP, b"\x02at\0"),
        named(&array(1, &STAMP), b"\x02by\0"),
        named(&plain(0x02), b"\x02of\0"),
    );
    let writer = cluster(&[at.clone(), of.clone(), by.clone()]);
    let stamps = [&2u32.to_be_bytes()[..], &[1; 16], &[2; 16]].concat();
    let data = [&DATA[..], &[0, 9], &stamps].concat();
    let mut reader = cluster(&[by, of, at]);
    // The reserved bytes of all six rows of the first stamp.
    for place in RESERVED {
        reader[16 + place] = 0x40;
    }
    let mut out = [0xA5; 54];
    let given = read_record(&writer, &reader, &data, &mut out);
    assert_eq!(given, answer(0, 0, 54));
    assert_eq!(out, *[&stamps[..], &[0, 9], &DATA].concat());
}

/// The stamp of a number of seconds and a fraction.
fn of(seconds: i64, fraction: u64) -> Stamp {
    Stamp {
        seconds_high: (seconds >> 32) as i32,
        seconds_low: seconds as i32,
        fraction_high: (fraction >> 32) as u32,
        fraction_low: fraction as u32,
    }
}

/// Checks the difference of two stamps.
fn differ(first: (i64, u64), second: (i64, u64), stated: (i64, u64)) {
    let (seconds, fraction) = stated;
    let difference = Difference {
        answer: answer(0, 0, 0),
        seconds,
        fraction,
    };
    let given = stamp_difference(of(first.0, first.1), of(second.0, second.1));
    assert_eq!(given, difference, "{first:?} {second:?}");
}

/// Checks that the seconds of the difference don't fit.
fn too_far(first: (i64, u64), second: (i64, u64)) {
    let difference = Difference {
        answer: answer(32, 4, 0),
        seconds: 0,
        fraction: 0,
    };
    let given = stamp_difference(of(first.0, first.1), of(second.0, second.1));
    assert_eq!(given, difference, "{first:?} {second:?}");
}

const MOST: i64 = i64::MAX;
const LEAST: i64 = i64::MIN;
const LAST: u64 = u64::MAX;
const HALF: u64 = 1 << 63;

#[test]
fn small_differences() {
    differ((0, 0), (0, 0), (0, 0));
    differ((5, 7), (5, 7), (0, 0));
    differ((5, 7), (3, 2), (2, 5));
    differ((3, 2), (5, 2), (-2, 0));
    differ((-1, HALF), (0, 0), (-1, HALF));
    differ((0, 0), (-1, HALF), (0, HALF));
    differ((1 << 32, 0), (1, 0), ((1 << 32) - 1, 0));
}

#[test]
fn a_second_is_borrowed() {
    differ((0, 0), (0, 1), (-1, LAST));
    differ((1, 0), (0, 1), (0, LAST));
    differ((1, 0), (0, LAST), (0, 1));
    differ((3, 2), (5, 7), (-3, LAST - 4));
    differ((0, LAST), (0, 0), (0, LAST));
    differ((0, 0), (0, LAST), (-1, 1));
    differ((0, HALF - 1), (0, HALF), (-1, LAST));
    differ((0, 1 << 32), (0, (1 << 32) + 1), (-1, LAST));
    differ((0, 1 << 32), (0, 1), (0, (1 << 32) - 1));
}

#[test]
fn the_low_half_counts_by_its_bits() {
    let low = |seconds_low| Stamp {
        seconds_low,
        ..Stamp::default()
    };
    let seconds = |first, second| stamp_difference(low(first), low(second)).seconds;
    assert_eq!(seconds(-1, 0), 0xFFFF_FFFF);
    assert_eq!(seconds(i32::MIN, i32::MAX), 1);
    assert_eq!(seconds(0, -1), -0xFFFF_FFFF);
    let high = Stamp {
        seconds_high: -1,
        seconds_low: -1,
        ..Stamp::default()
    };
    assert_eq!(stamp_difference(high, Stamp::default()).seconds, -1);
}

#[test]
fn the_farthest_differences() {
    differ((MOST, LAST), (0, 0), (MOST, LAST));
    differ((LEAST, 0), (0, 0), (LEAST, 0));
    differ((MOST, 5), (MOST, 5), (0, 0));
    differ((LEAST, 5), (LEAST, 5), (0, 0));
    differ((-1, LAST), (LEAST, 0), (MOST, LAST));
    differ((-1, 0), (MOST, 0), (LEAST, 0));
    too_far((LEAST, 0), (0, 1));
    too_far((LEAST, LAST), (1, 0));
    too_far((0, 0), (LEAST, 0));
    too_far((0, 5), (LEAST, 5));
    too_far((-1, 0), (MOST, 1));
    too_far((-2, LAST), (MOST, 0));
    too_far((MOST, 0), (-1, 0));
    too_far((MOST, 0), (LEAST, 0));
    too_far((LEAST, LAST), (MOST, 0));
    too_far((LEAST, 0), (MOST, LAST));
}

#[test]
fn the_borrow_comes_before_32() {
    differ((0, 0), (LEAST, 1), (MOST, LAST));
    differ((0, 4), (LEAST, 5), (MOST, LAST));
    differ((MOST, 0), (-1, LAST), (MOST, 1));
    too_far((1, 0), (LEAST, 1));
    too_far((MOST, 0), (-2, 1));
    differ((-1, 5), (MOST, 5), (LEAST, 0));
    too_far((-1, 4), (MOST, 5));
}

/// A number by chance, often at an edge.
fn any(state: &mut u64) -> u64 {
    *state ^= *state << 13;
    *state ^= *state >> 7;
    *state ^= *state << 17;
    let number = state.wrapping_mul(0x2545_F491_4F6C_DD1D);
    let near = (number >> 32) % 3;
    match number >> 61 {
        0 => near.wrapping_sub(1),
        1 => HALF.wrapping_add(near).wrapping_sub(1),
        2 => (1 << 32) + near - 1,
        3 => number >> 33,
        _ => number,
    }
}

#[test]
fn differences_by_chance() {
    let mut state = 0x9E37_79B9_7F4A_7C15;
    let (mut borrowed, mut far) = (0, 0);
    for _ in 0..200_000 {
        let [first, second] = [(); 2].map(|()| (any(&mut state) as i64, any(&mut state)));
        let fraction = i128::from(first.1) - i128::from(second.1);
        let borrow = i128::from(fraction < 0);
        let seconds = i128::from(first.0) - i128::from(second.0) - borrow;
        let fraction = (fraction + (borrow << 64)) as u64;
        borrowed += borrow;
        match i64::try_from(seconds) {
            Ok(seconds) => differ(first, second, (seconds, fraction)),
            Err(_) => {
                far += 1;
                too_far(first, second);
            }
        }
    }
    assert!(borrowed > 10_000 && far > 10_000, "{borrowed} {far}");
}
