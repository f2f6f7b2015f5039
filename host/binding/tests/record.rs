//! Document 01's hand-checked records, asked of the library through its C
//! interface.

use kerbcanopy::{Answer, read_record};

const RIG: [u8; 20] = *b"\x00\x14\x00\x50\x00\x02\x00\x06\x00\x02\x01t\x00\x08\x00\x07\x02id\x00";
const READER: [u8; 14] = *b"\x00\x0E\x00\x50\x00\x01\x00\x08\x00\x07\x02id\x00";
const DATA: [u8; 6] = [0, 0x19, 0, 0, 0, 9];

fn answer(number: u32, input: u32, place: u32) -> Answer {
    Answer {
        number,
        input,
        place,
    }
}

/// Checks a refusal, which changes nothing in the room.
fn refused(writer: &[u8], reader: &[u8], data: &[u8], refusal: Answer) {
    let mut out = [0xA5; 6];
    assert_eq!(read_record(writer, reader, data, &mut out), refusal);
    assert_eq!(out, [0xA5; 6]);
}

/// The reader of P11 with another byte at this place.
fn reader_with(place: usize, byte: u8) -> [u8; 14] {
    let mut reader = READER;
    reader[place] = byte;
    reader
}

#[test]
fn p11_the_identifier_alone() {
    let mut out = [0xA5; 6];
    let given = read_record(&RIG, &READER, &DATA, &mut out);
    assert_eq!(given, answer(0, 0, 4));
    assert_eq!(out, [0, 0, 0, 9, 0xA5, 0xA5]);
}

#[test]
fn p12_another_type_and_another_name() {
    refused(&RIG, &reader_with(9, 3), &DATA, answer(44, 2, 0));
    let mut other_name = READER;
    other_name[11..13].copy_from_slice(b"no");
    refused(&RIG, &other_name, &DATA, answer(42, 2, 0));
}

#[test]
fn the_reserved_byte_is_ignored() {
    let mut out = [0xA5; 4];
    let given = read_record(&RIG, &reader_with(8, 0x40), &DATA, &mut out);
    assert_eq!((given, out), (answer(0, 0, 4), [0, 0, 0, 9]));
}

#[test]
fn a_reader_equal_to_the_writer_gets_the_data() {
    let mut out = [0xA5; 6];
    let given = read_record(&RIG, &RIG, &DATA, &mut out);
    assert_eq!((given, out), (answer(0, 0, 6), DATA));
}

#[test]
fn inputs_are_judged_one_after_the_other() {
    let number = [0, 4, 0, 5];
    refused(&[], &[], &[], answer(2, 1, 0));
    refused(&number, &[], &[], answer(2, 2, 0));
    refused(&number, &number, &[], answer(21, 3, 0));
    refused(&number, &number, &[1], answer(40, 2, 0));
    refused(&number, &READER, &[1], answer(41, 1, 0));
    refused(&RIG, &READER, &DATA[..5], answer(21, 3, 2));
}

#[test]
fn a_member_found_twice() {
    let twice = *b"\x00\x16\x00\x50\x00\x02\x00\x08\x00\x07\x02id\x00\x00\x08\x00\x07\x02id\x00";
    refused(&twice, &READER, &[0; 8], answer(43, 2, 0));
    refused(&RIG, &twice, &DATA, answer(40, 2, 1));
}

#[test]
fn too_little_room() {
    let mut out = [0xA5; 3];
    let refusal = read_record(&RIG, &READER, &DATA, &mut out);
    assert_eq!((refusal, out), (answer(50, 4, 4), [0xA5; 3]));
}
