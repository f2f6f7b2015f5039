//! 65,536 bytes and one more.

use super::{Both, Limits, array, cluster, enumeration, plain, text};

pub fn add(limits: &mut Limits) {
    bytes_and_texts(limits);
    records(limits);
    last_pieces(limits);
    far_elements(limits);
    too_long(limits);
}

/// One size or length word, then that many bytes.
fn counted(count: usize, byte: u8) -> Both {
    Both::new().word(count as u32).plain(&vec![byte; count])
}

fn bytes_and_texts(limits: &mut Limits) {
    let bytes = array(1, plain(0x05));
    for count in [65531, 65532] {
        let what = format!("{count} bytes in an array");
        limits.accepted(what, &bytes, counted(count, 7), count + 1);
        let last = count as u32 - 1;
        limits.part(&[last], 4 + count - 1, 1, Some((1, 7)));
        limits.nowhere(&[last + 1], 0);
        limits.nowhere(&[last + 0x1_0000], 0);
        limits.accepted(format!("{count} characters"), &text(), counted(count, 7), 1);
    }
    limits.refused("65,533 bytes in an array", &bytes, counted(65533, 7), 20, 0);
    limits.refused("65,533 characters", &text(), counted(65533, 7), 20, 0);
    let empty_texts = Both::new().word(16383).words(&[0; 16383]);
    limits.accepted(
        "16,383 empty strings",
        &array(1, text()),
        empty_texts,
        16384,
    );
}

/// Arrays of wider elements, with what is missing to 65,536 bytes behind them.
fn records(limits: &mut Limits) {
    let doubles = array(1, plain(0x0A));
    let full = cluster(vec![doubles.clone(), plain(0x07)]);
    let number = [0x40, 0x39, 1, 2, 3, 4, 5, 6];
    let data = (0..8191).fold(Both::new().word(8191), |data, _| data.number(&number));
    limits.accepted("8,191 doubles", &full, data.clone().word(9), 8193);
    limits.part(
        &[0, 8190],
        4 + 8 * 8190,
        8,
        Some((4, u64::from_be_bytes(number))),
    );
    limits.part(&[1], 65532, 4, Some((1, 9)));
    let over = cluster(vec![doubles, plain(0x08)]);
    limits.refused(
        "8,191 doubles, 4 bytes more",
        &over,
        data.word(0).word(9),
        20,
        0,
    );

    let pair = cluster(vec![plain(0x0A), plain(0x0A)]);
    let full = cluster(vec![array(1, pair), plain(0x0A), plain(0x03)]);
    let data = (0..8191).fold(Both::new().word(4095), |data, _| data.number(&number));
    limits.accepted("4,095 clusters", &full, data.word(u32::MAX), 8193);
    limits.part(
        &[0, 4094, 1],
        4 + 16 * 4094 + 8,
        8,
        Some((4, u64::from_be_bytes(number))),
    );
}

/// A refusal in the very last bytes, and a Boolean there.
fn last_pieces(limits: &mut Limits) {
    let flags = array(1, plain(0x21));
    let mut data = counted(65532, 1);
    data.set_number(65535, &[0xFF]);
    limits.accepted("65,532 Booleans", &flags, data, 65533);
    limits.part(&[65531], 65535, 1, Some((5, 1)));

    let states = array(1, enumeration(0x15, 2));
    let mut data = counted(65532, 1);
    limits.accepted("65,532 enumerations", &states, data.clone(), 65533);
    data.set_number(65535, &[2]);
    limits.refused("the last of 65,532 enumerations", &states, data, 23, 65535);

    let states = array(1, enumeration(0x16, 300));
    let highest = 299u16.to_be_bytes();
    let mut data = (0..32766).fold(Both::new().word(32766), |data, _| data.number(&highest));
    limits.accepted("32,766 enumerations", &states, data.clone(), 32767);
    data.set_number(65534, &300u16.to_be_bytes());
    limits.refused("the last of 32,766 enumerations", &states, data, 23, 65534);

    let left_over = counted(65531, 7).plain(&[7]);
    let bytes = array(1, plain(0x05));
    limits.refused("65,531 bytes and one", &bytes, left_over, 25, 65535);
    let cut = counted(65532, 7).cut(65535);
    limits.refused("65,532 bytes less one", &bytes, cut, 21, 65535);
    let cut = counted(65532, 7).cut(65535);
    limits.refused("65,532 characters less one", &text(), cut, 21, 0);
}

/// An enumeration at fault far behind the first element, where elements have a
/// width that divides no power of two.
fn far_elements(limits: &mut Limits) {
    let (count, width) = (5000, 3);
    let tree = array(1, cluster(vec![enumeration(0x15, 2), plain(0x06)]));
    let element = |data: Both, _| data.plain(&[1]).number(&[2, 3]);
    let data = (0..count).fold(Both::new().word(count as u32), element);
    limits.accepted("5,000 clusters", &tree, data.clone(), 1 + 2 * count);
    for index in [0, 682, 683, 1364, 1365, 1366, 2731, 4096, 4999] {
        let mut wrong = data.clone();
        let place = 4 + width * index;
        wrong.set_number(place, &[2]);
        let what = format!("cluster {index} of 5,000 at fault");
        limits.refused(what, &tree, wrong, 23, place);
    }
}

/// Too long, and wrong from the first byte.
fn too_long(limits: &mut Limits) {
    let state = enumeration(0x15, 2);
    for length in [65537, 65538, 131_072, 200_000] {
        let data = Both::new().plain(&vec![2; length]);
        let what = format!("{length} bytes for an enumeration");
        limits.refused(what, &state, data, 20, 0);
    }
    let data = Both::new().plain(&[2; 65536]);
    limits.refused(
        "65,536 bytes for an enumeration",
        &state,
        data.clone(),
        23,
        0,
    );
    limits.refused("65,536 bytes for a Boolean", &plain(0x21), data, 25, 1);
}
