//! The record in a reader's shape: each refusal with its place, its input and its
//! order; members moved, added and dropped; and the faults that lost blanks.

#[allow(dead_code, reason = "each test program uses a part of it")]
mod build;

use build::{answer, array, cluster, enumeration, named, plain, quantity, text};
use reference::{Answer, check_data, compare, read_record};

fn number(code: u8, name: &str) -> Vec<u8> {
    named(plain(code), name)
}

/// The identifier of a blank.
fn identifier() -> Vec<u8> {
    number(0x07, "id")
}

/// The temperature of a bath.
fn temperature() -> Vec<u8> {
    number(0x02, "t")
}

/// Checks that these bytes are given in any room that holds them, that the room
/// beyond keeps its bytes, and that less room is refused.
fn given(writer: &[u8], reader: &[u8], data: &[u8], bytes: &[u8]) {
    let length = bytes.len();
    for more in [0, 1, 100] {
        let mut out = vec![0xA5; length + more];
        let answered = read_record(writer, reader, data, &mut out);
        assert_eq!(answered, answer(0, 0, length as u32));
        assert!(out == [bytes, &vec![0xA5; more]].concat());
    }
    for room in [0, length / 2, length - 1] {
        let refusal = answer(50, 4, length as u32);
        assert_eq!(in_room(writer, reader, data, room), refusal);
    }
}

/// The refusal in this much room, of which no byte may change.
fn in_room(writer: &[u8], reader: &[u8], data: &[u8], room: usize) -> Answer {
    let mut out = vec![0xA5; room];
    let refusal = read_record(writer, reader, data, &mut out);
    assert_ne!(refusal.number, 0);
    assert!(out.iter().all(|byte| *byte == 0xA5));
    refusal
}

/// Checks a refusal in no room, little and plenty.
fn refused(writer: &[u8], reader: &[u8], data: &[u8], refusal: Answer) {
    for room in [0, 1, 5, 100] {
        assert_eq!(in_room(writer, reader, data, room), refusal);
    }
}

#[test]
fn the_temperature_put_ahead_of_the_identifier() {
    let reader = cluster(&[identifier()]);
    let before = cluster(&[identifier()]);
    given(&before, &reader, &[0, 0, 0, 9], &[0, 0, 0, 9]);
    let after = cluster(&[temperature(), identifier()]);
    let blanks = [[0, 25, 0, 0, 0, 9], [0, 25, 0, 0, 0, 14]];
    given(&after, &reader, &blanks[0], &[0, 0, 0, 9]);
    given(&after, &reader, &blanks[1], &[0, 0, 0, 14]);
}

#[test]
fn two_integers_in_the_other_order() {
    let reader = cluster(&[identifier()]);
    let pulses = number(0x07, "pulses");
    let one = cluster(&[identifier(), pulses.clone()]);
    given(&one, &reader, &[0, 0, 0, 9, 0, 0, 4, 0], &[0, 0, 0, 9]);
    let other = cluster(&[pulses, identifier()]);
    given(&other, &reader, &[0, 0, 4, 0, 0, 0, 0, 9], &[0, 0, 0, 9]);
}

#[test]
fn the_reserved_byte_set() {
    let data = [0, 25, 0, 0, 0, 9];
    let reader = cluster(&[identifier()]);
    let set = |mut descriptor: Vec<u8>| {
        descriptor[2] = 0x40;
        descriptor
    };
    for member in [identifier(), set(identifier())] {
        let writer = set(cluster(&[temperature(), member.clone()]));
        given(&writer, &reader, &data, &[0, 0, 0, 9]);
        given(&writer, &set(cluster(&[member])), &data, &[0, 0, 0, 9]);
    }
}

#[test]
fn a_cut_record_after_a_longer_one() {
    let writer = cluster(&[temperature(), identifier()]);
    let reader = cluster(&[identifier(), temperature()]);
    let mut out = [0xA5; 6];
    let whole = [0, 25, 0, 0, 0, 9];
    assert_eq!(
        read_record(&writer, &reader, &whole, &mut out),
        answer(0, 0, 6)
    );
    assert_eq!(out, [0, 0, 0, 9, 0, 25]);
    for length in 0..6 {
        let cut = &[0, 26, 0, 0, 0, 14][..length];
        let place = if length < 2 { 0 } else { 2 };
        let refusal = read_record(&writer, &reader, cut, &mut out);
        assert_eq!(refusal, answer(21, 3, place));
        assert_eq!(out, [0, 0, 0, 9, 0, 25]);
    }
}

#[test]
fn inputs_are_judged_one_after_the_other() {
    let number = plain(0x05);
    let named = cluster(&[identifier()]);
    let foreign = plain(0x22);
    let long = vec![2; 65537];
    refused(&foreign, &foreign, &long, answer(5, 1, 3));
    refused(&[], &foreign, &long, answer(2, 1, 0));
    let behind = [number.clone(), vec![0]].concat();
    refused(&behind, &[0; 4097], &long, answer(12, 1, 4));
    refused(&number, &[0; 4097], &long, answer(1, 2, 0));
    refused(&number, &behind, &long, answer(12, 2, 4));
    refused(&number, &number, &long, answer(20, 3, 0));
    refused(&number, &number, &[], answer(21, 3, 0));
    refused(&number, &number, &[1, 2], answer(25, 3, 1));
    refused(&number, &number, &[1], answer(40, 2, 0));
    refused(&number, &named, &[1], answer(41, 1, 0));
    refused(
        &cluster(&[temperature()]),
        &named,
        &[0, 1],
        answer(42, 2, 0),
    );
    let mut out = [0xA5; 3];
    let refusal = read_record(&named, &named, &[0, 0, 0, 9], &mut out);
    assert_eq!((refusal, out), (answer(50, 4, 4), [0xA5; 3]));
}

#[test]
fn data_that_nobody_asks_for_is_judged_too() {
    let state = named(enumeration(0x15, 2), "state");
    let writer = cluster(&[identifier(), state, named(text(), "note")]);
    let reader = cluster(&[identifier()]);
    let data = [0, 0, 0, 9, 1, 0, 0, 0, 1, b'x'];
    given(&writer, &reader, &data, &[0, 0, 0, 9]);
    refused(&writer, &reader, &data[..9], answer(21, 3, 5));
    let high = [0, 0, 0, 9, 2, 0x80, 0, 0, 0];
    refused(&writer, &reader, &high, answer(23, 3, 4));
    let more = [&data[..], &[0]].concat();
    refused(&writer, &reader, &more, answer(25, 3, 10));
}

#[test]
fn booleans_keep_their_bytes() {
    let lamp = number(0x21, "lamp");
    let lamps = named(array(1, &plain(0x21)), "lamps");
    let writer = cluster(&[identifier(), lamp.clone(), lamps.clone()]);
    let reader = cluster(&[lamps, lamp]);
    for byte in 0..=255 {
        let data = [0, 0, 0, 9, byte, 0, 0, 0, 2, 0xFF, byte];
        let record = [0, 0, 0, 2, 0xFF, byte, byte];
        given(&writer, &reader, &data, &record);
    }
}

#[test]
fn number_40_no_cluster() {
    let writer = cluster(&[identifier()]);
    let data = [0, 0, 0, 9];
    let record = cluster(&[identifier()]);
    for top in [
        identifier(),
        named(text(), "id"),
        named(array(1, &record), "id"),
        named(array(1, &identifier()), "id"),
        quantity(0x1A),
    ] {
        refused(&writer, &top, &data, answer(40, 2, 0));
    }
}

#[test]
fn number_40_names() {
    let data = [0, 0, 0, 9];
    let nameless = plain(0x07);
    let empty = number(0x07, "");
    let readers = [
        (vec![nameless.clone()], 0),
        (vec![empty.clone()], 0),
        (vec![identifier(), nameless.clone()], 1),
        (vec![identifier(), empty.clone()], 1),
        (vec![identifier(), identifier()], 1),
        (vec![identifier(), temperature(), identifier()], 2),
        (vec![identifier(), temperature(), temperature()], 2),
        (vec![temperature(), temperature(), nameless.clone()], 1),
        (vec![empty.clone(), empty.clone()], 0),
        (vec![identifier(), number(0x21, "id"), empty.clone()], 1),
        (vec![identifier(), named(text(), "id")], 1),
        (vec![number(0x07, "absent"), identifier(), identifier()], 2),
    ];
    for (members, place) in readers {
        let reader = cluster(&members);
        refused(&cluster(&members), &reader, &[], answer(21, 3, 0));
        refused(&identifier(), &reader, &data, answer(40, 2, place));
        let writer = cluster(&[identifier()]);
        refused(&writer, &reader, &data, answer(40, 2, place));
    }
}

#[test]
fn number_41_no_cluster() {
    let reader = cluster(&[identifier()]);
    let record = cluster(&[identifier()]);
    let data = [0, 0, 0, 1, 0, 0, 0, 9];
    refused(&identifier(), &reader, &data[4..], answer(41, 1, 0));
    let records = array(1, &record);
    refused(&records, &reader, &data, answer(41, 1, 0));
    let numbers = array(1, &identifier());
    refused(&numbers, &reader, &data, answer(41, 1, 0));
    let absent = cluster(&[number(0x07, "absent")]);
    refused(&records, &absent, &data, answer(41, 1, 0));
}

#[test]
fn number_42_missing() {
    let data = [0, 25, 0, 0, 0, 9];
    let names = ["ID", "i", "d", "idx", "id ", "xid", "di", "id\0", "\0id"];
    let writer = cluster(&[temperature(), identifier()]);
    for name in names {
        let absent = number(0x07, name);
        let reader = cluster(std::slice::from_ref(&absent));
        refused(&writer, &reader, &data, answer(42, 2, 0));
        let reader = cluster(&[identifier(), temperature(), absent.clone()]);
        refused(&writer, &reader, &data, answer(42, 2, 2));
        let writer = cluster(&[temperature(), absent]);
        refused(&writer, &cluster(&[identifier()]), &data, answer(42, 2, 0));
    }
}

#[test]
fn number_42_only_members_of_the_top_count() {
    let inner = named(cluster(&[identifier(), temperature()]), "bath");
    let elements = named(array(1, &cluster(&[identifier()])), "baths");
    let element = named(array(1, &identifier()), "ids");
    let writer = cluster(&[inner.clone(), elements, element.clone()]);
    let data = [
        0, 0, 0, 9, 0, 25, 0, 0, 0, 1, 0, 0, 0, 8, 0, 0, 0, 1, 0, 0, 0, 7,
    ];
    let reader = cluster(&[inner, identifier()]);
    refused(&writer, &reader, &data, answer(42, 2, 1));
    let outside = named(writer, "id");
    refused(&outside, &reader, &data, answer(42, 2, 1));
    let beside = cluster(&[identifier(), element]);
    let bytes = [0, 0, 0, 5, 0, 0, 0, 1, 0, 0, 0, 7];
    given(&beside, &cluster(&[identifier()]), &bytes, &[0, 0, 0, 5]);
}

#[test]
fn number_42_nothing_matches_a_writers_member_without_a_name() {
    let reader = cluster(&[identifier()]);
    let writer = cluster(&[plain(0x07), number(0x07, "")]);
    refused(&writer, &reader, &[0; 8], answer(42, 2, 0));
    let members = [plain(0x07), number(0x07, ""), identifier()];
    let writer = cluster(&[&members[..], &members[..2]].concat());
    let data = [[0; 8], [0, 0, 0, 9, 0, 0, 0, 0], [0; 8]].concat();
    given(&writer, &reader, &data[..20], &[0, 0, 0, 9]);
}

#[test]
fn number_43_doubled() {
    let reader = cluster(&[temperature(), identifier()]);
    let data = [0, 25, 0, 0, 0, 9, 0, 0, 0, 9, 0, 0, 0, 9];
    let twice = [temperature(), identifier(), identifier()];
    refused(&cluster(&twice), &reader, &data[..10], answer(43, 2, 1));
    let thrice = [temperature(), identifier(), identifier(), identifier()];
    refused(&cluster(&thrice), &reader, &data, answer(43, 2, 1));
    for other in [number(0x03, "id"), number(0x09, "id")] {
        for members in [[identifier(), other.clone()], [other.clone(), identifier()]] {
            let members = [&[temperature()], &members[..]].concat();
            refused(&cluster(&members), &reader, &data[..10], answer(43, 2, 1));
        }
        let neither = cluster(&[temperature(), other.clone(), other]);
        refused(&neither, &reader, &data[..10], answer(43, 2, 1));
    }
}

#[test]
fn doubled_names_matter_only_when_they_are_asked_for() {
    let pulses = number(0x05, "pulses");
    let members = [pulses.clone(), identifier(), pulses.clone(), temperature()];
    let writer = cluster(&members);
    let data = [7, 0, 0, 0, 9, 8, 0, 25];
    let reader = cluster(&[temperature(), identifier()]);
    given(&writer, &reader, &data, &[0, 25, 0, 0, 0, 9]);
    let reader = cluster(&[temperature(), pulses]);
    refused(&writer, &reader, &data, answer(43, 2, 1));
}

#[test]
fn number_44_another_type() {
    let data = [0, 25, 0, 0, 0, 9];
    let writer = cluster(&[temperature(), identifier()]);
    for code in [0x03, 0x09, 0x05, 0x08, 0x21] {
        let other = number(code, "id");
        refused(
            &writer,
            &cluster(&[temperature(), other]),
            &data,
            answer(44, 2, 1),
        );
    }
    let wrapped = named(cluster(&[plain(0x07)]), "id");
    refused(&writer, &cluster(&[wrapped]), &data, answer(44, 2, 0));
    let unit = named(quantity(0x19), "id");
    refused(&writer, &cluster(&[unit]), &data, answer(44, 2, 0));
}

/// Types that differ in one thing each, all of them named alike.
fn relatives() -> Vec<Vec<u8>> {
    let mut other_unit = quantity(0x1A);
    other_unit[7] = 4;
    let mut other_power = quantity(0x1A);
    other_power[8] = 0xFF;
    let mut other_item = enumeration(0x16, 3);
    other_item[6..8].copy_from_slice(&[1, b'a']);
    let inner = |name: &str| cluster(&[number(0x05, name)]);
    let types = [
        quantity(0x1A),
        quantity(0x1B),
        other_unit,
        other_power,
        plain(0x0A),
        enumeration(0x16, 3),
        enumeration(0x16, 4),
        enumeration(0x15, 3),
        other_item,
        text(),
        array(1, &plain(0x05)),
        array(2, &plain(0x05)),
        array(1, &plain(0x01)),
        array(1, &number(0x05, "")),
        array(1, &number(0x05, "e")),
        array(1, &inner("e")),
        inner("e"),
        inner("f"),
        inner(""),
        cluster(&[plain(0x05)]),
        cluster(&[plain(0x05), plain(0x05)]),
        cluster(&[inner("e")]),
        named(inner("e"), "e"),
    ];
    let wrap = |of: &Vec<u8>| named(cluster(std::slice::from_ref(of)), "id");
    types.iter().map(wrap).collect()
}

/// As many zeros as are data of this type.
fn zeros(descriptor: &[u8]) -> Vec<u8> {
    let mut zeros = (1..).map(|length| vec![0; length]);
    let found = zeros.find(|zeros| check_data(descriptor, zeros).number == 0);
    found.unwrap()
}

#[test]
fn number_44_one_thing_different_inside() {
    let relatives = relatives();
    for (index, written) in relatives.iter().enumerate() {
        let writer = cluster(&[temperature(), written.clone()]);
        let data = zeros(&writer);
        for (other, read) in relatives.iter().enumerate() {
            let reader = cluster(&[temperature(), read.clone()]);
            let equal = compare(written, read).equal;
            assert_eq!(equal, index == other);
            match equal {
                true => given(&writer, &reader, &data, &data),
                false => refused(&writer, &reader, &data, answer(44, 2, 1)),
            }
        }
    }
}

#[test]
fn reserved_bytes_inside_do_not_matter() {
    let inner = cluster(&[number(0x05, "x"), array(1, &cluster(&[text()]))]);
    let member = named(inner, "id");
    let data = [7, 0, 0, 0, 1, 0, 0, 0, 1, b'x'];
    let reader = cluster(std::slice::from_ref(&member));
    let starts = [0, 6, 12, 22, 28];
    for set in 0..1 << starts.len() {
        let mut other = member.clone();
        for (bit, start) in starts.iter().enumerate() {
            if set >> bit & 1 == 1 {
                other[start + 2] = 0x40 + bit as u8;
            }
        }
        given(&cluster(&[other]), &reader, &data, &data);
    }
    for place in (0..member.len()).filter(|place| !starts.contains(&place.wrapping_sub(2))) {
        let mut other = member.clone();
        other[place] ^= 1;
        let mut out = [0xA5; 10];
        let refusal = read_record(&cluster(&[other]), &reader, &data, &mut out);
        assert_ne!(refusal.number, 0, "{place}");
    }
}

#[test]
fn the_first_member_at_fault_is_named() {
    let twice = number(0x05, "twice");
    let members = [twice.clone(), identifier(), twice.clone(), temperature()];
    let writer = cluster(&members);
    let data = [7, 0, 0, 0, 9, 8, 0, 25];
    let absent = number(0x05, "absent");
    let other = number(0x03, "id");
    let faults = [(absent, 42), (twice, 43), (other, 44)];
    for (first, number) in &faults {
        for (second, _) in &faults {
            let reader = match first == second {
                true => cluster(&[temperature(), first.clone()]),
                false => cluster(&[temperature(), first.clone(), second.clone()]),
            };
            refused(&writer, &reader, &data, answer(*number, 2, 1));
        }
    }
}

#[test]
fn the_names_of_the_tops_do_not_matter() {
    let data = [0, 25, 0, 0, 0, 9];
    let writer = cluster(&[temperature(), identifier()]);
    let reader = cluster(&[identifier()]);
    for name in ["", "id", "blank"] {
        let named_writer = named(writer.clone(), name);
        given(&named_writer, &reader, &data, &[0, 0, 0, 9]);
        let named_reader = named(reader.clone(), name);
        given(&writer, &named_reader, &data, &[0, 0, 0, 9]);
        given(&named_writer, &named_reader, &data, &[0, 0, 0, 9]);
    }
}

/// A member of every kind, and its bytes.
fn every_kind() -> Vec<(Vec<u8>, Vec<u8>)> {
    let pairs = array(2, &cluster(&[plain(0x05), plain(0x06)]));
    let baths = cluster(&[number(0x0A, "t"), named(text(), "note")]);
    let bath = [&25.5f64.to_be_bytes()[..], &[0, 0, 0, 2], b"ok"].concat();
    vec![
        (number(0x01, "byte"), vec![0xFF]),
        (identifier(), vec![0, 0, 0, 9]),
        (number(0x0B, "extended"), vec![3; 16]),
        (number(0x0E, "complex"), vec![4; 32]),
        (named(enumeration(0x16, 3), "state"), vec![0, 2]),
        (named(quantity(0x1A), "flow"), vec![0x40; 8]),
        (number(0x21, "finished"), vec![0xFF]),
        (named(text(), "operator"), b"\0\0\0\x05Priya".to_vec()),
        (named(text(), "empty"), vec![0; 4]),
        (
            named(pairs, "pairs"),
            vec![0, 0, 0, 1, 0, 0, 0, 2, 1, 0, 2, 3, 0, 4],
        ),
        (named(array(1, &plain(0x0A)), "none"), vec![0; 4]),
        (named(baths.clone(), "bath"), bath.clone()),
        (
            named(array(1, &baths), "baths"),
            [&[0, 0, 0, 2][..], &bath, &bath].concat(),
        ),
    ]
}

/// The cluster of these members and their bytes joined.
fn joined(members: &[(Vec<u8>, Vec<u8>)]) -> (Vec<u8>, Vec<u8>) {
    let descriptors: Vec<Vec<u8>> = members.iter().map(|member| member.0.clone()).collect();
    let bytes = members.iter().flat_map(|member| member.1.clone());
    (cluster(&descriptors), bytes.collect())
}

#[test]
fn a_reader_equal_to_the_writer_gets_the_data() {
    let (writer, data) = joined(&every_kind());
    given(&writer, &writer, &data, &data);
}

#[test]
fn members_moved() {
    let members = every_kind();
    let (reader, bytes) = joined(&members);
    for turn in 1..members.len() {
        let mut moved = members.clone();
        moved.rotate_left(turn);
        let (writer, data) = joined(&moved);
        given(&writer, &reader, &data, &bytes);
        moved.reverse();
        let (writer, data) = joined(&moved);
        given(&writer, &reader, &data, &bytes);
    }
}

#[test]
fn members_added_and_dropped() {
    let members = every_kind();
    let (writer, data) = joined(&members);
    for place in 0..members.len() {
        let (reader, bytes) = joined(&members[place..=place]);
        given(&writer, &reader, &data, &bytes);
        let mut fewer = members.clone();
        fewer.remove(place);
        let (reader, bytes) = joined(&fewer);
        given(&writer, &reader, &data, &bytes);
        let (dropped, data) = (reader, bytes);
        refused(&dropped, &writer, &data, answer(42, 2, place as u32));
    }
}

#[test]
fn every_pair_of_members() {
    let members = every_kind();
    let (writer, data) = joined(&members);
    for first in &members {
        for second in members.iter().filter(|second| second.0 != first.0) {
            let (reader, bytes) = joined(&[first.clone(), second.clone()]);
            given(&writer, &reader, &data, &bytes);
        }
    }
}

#[test]
fn number_50_gives_the_length_of_what_was_asked_for() {
    let (writer, data) = joined(&every_kind());
    let (reader, bytes) = joined(&every_kind()[7..10]);
    for room in 0..bytes.len() {
        let refusal = answer(50, 4, bytes.len() as u32);
        assert_eq!(in_room(&writer, &reader, &data, room), refusal);
    }
}

#[test]
fn the_widest_clusters() {
    let member = |index: usize| {
        let bytes = (index as u32).to_be_bytes().to_vec();
        (number(0x07, &format!("m{index:03}")), bytes)
    };
    let members: Vec<_> = (0..255).map(member).collect();
    let (writer, data) = joined(&members);
    let (reader, bytes) = joined(&members.iter().rev().cloned().collect::<Vec<_>>());
    given(&writer, &reader, &data, &bytes);
    given(&reader, &writer, &bytes, &data);
    let (last, bytes) = joined(&members[254..]);
    given(&writer, &last, &data, &bytes);
    let (fewer, bytes) = joined(&members[..254]);
    refused(&fewer, &writer, &bytes, answer(42, 2, 254));
    let mut doubled = members.clone();
    doubled[0].0 = number(0x07, "m254");
    let (doubled, data) = joined(&doubled);
    refused(&writer, &doubled, &data, answer(40, 2, 254));
    refused(&doubled, &last, &data, answer(43, 2, 0));
    let rest = joined(&members[1..254]);
    given(&doubled, &rest.0, &data, &rest.1);
}

#[test]
fn names_as_long_as_they_can_be() {
    let long = "n".repeat(255);
    let names = [&long[..], &long[1..], &long[2..], "n", "nn"];
    let members: Vec<_> = (names.iter().enumerate())
        .map(|(index, name)| (number(0x05, name), vec![index as u8]))
        .collect();
    let (writer, data) = joined(&members);
    for (index, member) in members.iter().enumerate() {
        let reader = cluster(std::slice::from_ref(&member.0));
        given(&writer, &reader, &data, &[index as u8]);
    }
    let absent = cluster(&[number(0x05, &long[3..])]);
    refused(&writer, &absent, &data, answer(42, 2, 0));
}

#[test]
fn the_longest_data() {
    for last in [1usize, 2, 4, 8] {
        let code = [0x05, 0x06, 0x07, 0x08][last.trailing_zeros() as usize];
        let count = 65536 - 4 - last;
        let mut long = (count as u32).to_be_bytes().to_vec();
        long.extend((0..count).map(|index| (index % 251) as u8));
        let members = [
            (named(array(1, &plain(0x05)), "long"), long),
            (number(code, "last"), vec![0xEE; last]),
        ];
        let (writer, data) = joined(&members);
        assert_eq!(data.len(), 65536);
        let (reader, bytes) = joined(&[members[1].clone(), members[0].clone()]);
        given(&writer, &reader, &data, &bytes);
        given(&reader, &writer, &bytes, &data);
        for member in members {
            let (reader, bytes) = joined(&[member]);
            given(&writer, &reader, &data, &bytes);
        }
        let longer = [&data[..], &[0]].concat();
        refused(&writer, &reader, &longer, answer(20, 3, 0));
    }
}

#[test]
fn what_the_reader_does_not_ask_for_changes_nothing() {
    let members = every_kind();
    let (asked, others) = members.split_at(6);
    let (reader, bytes) = joined(asked);
    for before in 0..others.len() {
        for behind in before..others.len() {
            let around = [&others[..before], asked, &others[behind..]].concat();
            let (writer, data) = joined(&around);
            given(&writer, &reader, &data, &bytes);
        }
    }
}
