//! The record in a reader's shape compared with a slow search and walk, over
//! writers, readers and data by chance.

#[allow(dead_code, reason = "each test program uses a part of it")]
mod naive;

use naive::random::{Random, any_data, any_type, encode, spoil};
use naive::record::{self, members, name};
use naive::rigs::{agreeing, any_reader, any_writer, record as joined, wide_writer};
use reference::{Answer, check_data, read_record};

/// Fewer without optimisation, where each takes longer.
const CASES: usize = if cfg!(debug_assertions) {
    10_000
} else {
    100_000
};

/// How many cases ended in each number.
type Answers = [usize; 64];

/// Compares both in this much room, every byte of it. Returns the answer and the
/// bytes given.
fn compare(writer: &[u8], reader: &[u8], data: &[u8], room: usize) -> (Answer, Vec<u8>) {
    let mut out = vec![0xA5; room];
    let given = read_record(writer, reader, data, &mut out);
    let (stated, bytes) = record::read_record(writer, reader, data, room);
    let about = || format!("{writer:02X?} {reader:02X?} {data:02X?} {room}");
    assert_eq!(given, stated, "{}", about());
    let (written, kept) = out.split_at(bytes.len());
    assert!(written == bytes, "{}", about());
    assert!(kept.iter().all(|byte| *byte == 0xA5), "{}", about());
    (given, bytes)
}

/// Room by chance around the length that is needed.
fn any_room(writer: &[u8], reader: &[u8], data: &[u8], random: &mut Random) -> usize {
    let needed = record::read_record(writer, reader, data, 0).0.place as usize;
    let rooms = [
        needed,
        needed,
        needed + 1,
        needed + 40,
        needed.saturating_sub(1),
        needed / 2,
        0,
    ];
    rooms[random.below(rooms.len())].min(70_000)
}

#[test]
fn readers_made_from_writers() {
    let mut random = Random(0x8CB9_2BA7_2F3D_8DD7);
    let mut answers: Answers = [0; 64];
    for _ in 0..CASES {
        let members = any_writer(&mut random);
        let (writer, mut data) = joined(&members, &mut random);
        let mut reader = any_reader(&members, &mut random);
        if random.once_in(8) {
            spoil(&mut data, &mut random);
        }
        if random.once_in(60) {
            spoil(&mut reader, &mut random);
        }
        let room = any_room(&writer, &reader, &data, &mut random);
        let (given, _) = compare(&writer, &reader, &data, room);
        answers[given.number as usize] += 1;
    }
    for number in [0, 21, 25, 40, 42, 43, 44, 50] {
        assert!(answers[number] > CASES / 500, "{number}: {answers:?}");
    }
}

#[test]
fn many_members() {
    let mut random = Random(0xA076_1D64_78BD_642F);
    let mut answers: Answers = [0; 64];
    for _ in 0..CASES / 100 {
        let members = wide_writer(&mut random);
        let (writer, data) = joined(&members, &mut random);
        let reader = any_reader(&members, &mut random);
        let room = any_room(&writer, &reader, &data, &mut random);
        let (given, _) = compare(&writer, &reader, &data, room);
        answers[given.number as usize] += 1;
    }
    for number in [0, 40, 42, 43, 44, 50] {
        assert!(answers[number] > 0, "{number}: {answers:?}");
    }
}

#[test]
fn tops_of_every_kind() {
    let mut random = Random(0x5851_F42D_4C95_7F2D);
    let mut answers: Answers = [0; 64];
    for _ in 0..CASES / 10 {
        let members = any_writer(&mut random);
        let (mut writer, mut data) = joined(&members, &mut random);
        let mut reader = any_reader(&members, &mut random);
        if random.once_in(2) {
            let of = any_type(&mut random, 3);
            writer = encode(&of, &mut random);
            data.clear();
            any_data(&of, &mut random, 4, &mut data);
        }
        if random.once_in(2) {
            reader = encode(&any_type(&mut random, 3), &mut random);
        }
        let room = any_room(&writer, &reader, &data, &mut random);
        let (given, _) = compare(&writer, &reader, &data, room);
        answers[given.number as usize] += 1;
    }
    for number in [40, 41] {
        assert!(answers[number] > CASES / 100, "{number}: {answers:?}");
    }
}

#[test]
fn records_that_agree_on_the_readers_members() {
    let mut random = Random(0xDA94_2042_E4DD_58B5);
    let mut answers: Answers = [0; 64];
    for _ in 0..CASES / 2 {
        let first = any_writer(&mut random);
        let reader = any_reader(&first, &mut random);
        let wanted: Vec<&[u8]> = members(&reader).into_iter().filter_map(name).collect();
        let second = agreeing(&first, &wanted, &mut random);
        let (first, first_data) = joined(&first, &mut random);
        let (second, second_data) = joined(&second, &mut random);
        let accepted = [(&first, &first_data), (&second, &second_data)]
            .map(|(writer, data)| check_data(writer, data).number == 0);
        if accepted != [true, true] {
            continue;
        }
        let room = any_room(&first, &reader, &first_data, &mut random);
        let one = compare(&first, &reader, &first_data, room);
        let other = compare(&second, &reader, &second_data, room);
        assert_eq!(one, other, "{first:02X?} {second:02X?} {reader:02X?}");
        answers[one.0.number as usize] += 1;
    }
    for number in [0, 40, 42, 43, 44, 50] {
        assert!(answers[number] > CASES / 2000, "{number}: {answers:?}");
    }
}
