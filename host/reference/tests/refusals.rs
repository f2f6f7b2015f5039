//! Each refusal number from 1 to 12 with its place, and what comes first where two
//! would do.

use reference::{Answer, Row, check_descriptor, compare};

/// A descriptor of this size and code with these bytes behind the header.
fn descriptor(size: usize, code: u8, behind: &[u8]) -> Vec<u8> {
    let mut bytes = vec![(size >> 8) as u8, size as u8, 0, code];
    bytes.extend_from_slice(behind);
    bytes
}

/// A cluster around these members.
fn cluster(members: &[Vec<u8>]) -> Vec<u8> {
    let mut behind = (members.len() as u16).to_be_bytes().to_vec();
    behind.extend(members.concat());
    descriptor(4 + behind.len(), 0x50, &behind)
}

fn plain() -> Vec<u8> {
    descriptor(4, 0x03, &[])
}

/// An array of this many dimensions.
fn array(dimensions: u8, element: &[u8]) -> Vec<u8> {
    let words = vec![0xFF; 4 * usize::from(dimensions)];
    let behind = [&[0, dimensions], &words[..], element].concat();
    descriptor(4 + behind.len(), 0x40, &behind)
}

fn judge(bytes: &[u8]) -> (u32, u32) {
    let checked = check_descriptor(bytes);
    let answer = checked.answer;
    if answer.number == 0 {
        assert_eq!(answer.input, 0);
    } else {
        assert_eq!(answer.input, 1);
        assert!(checked.rows.iter().all(|row| *row == Row::ZERO));
    }
    (answer.number, answer.place)
}

/// Checks a refusal of the descriptor by itself, with a byte behind it, and with
/// others around it, so that it ends before what holds it does.
fn judge_alone_and_inside(refused: &[u8], (number, place): (u32, u32)) {
    assert_eq!(judge(refused), (number, place), "{refused:02X?}");
    assert_eq!(judge(&[refused, &[0]].concat()), (number, place));
    let member = cluster(&[plain(), refused.to_vec(), plain()]);
    assert_eq!(judge(&member), (number, place + 10), "{refused:02X?}");
    let deeper = cluster(&[member, plain()]);
    assert_eq!(judge(&deeper), (number, place + 16), "{refused:02X?}");
    if refused[3] != 0x40 {
        let element = cluster(&[array(1, refused), plain()]);
        assert_eq!(judge(&element), (number, place + 16), "{refused:02X?}");
    }
    let behind = [&[0, 6], refused, &[0, 0]].concat();
    let held = descriptor(4 + behind.len(), 0x54, &behind);
    assert_eq!(judge(&held), (number, place + 6), "{refused:02X?}");
}

#[test]
fn number_1_too_long() {
    let mut bytes = plain();
    bytes.resize(4096, 0);
    assert_eq!(judge(&bytes), (12, 4));
    bytes.push(0);
    assert_eq!(judge(&bytes), (1, 0));
}

#[test]
fn number_2_no_header() {
    assert_eq!(judge(&[0, 4, 0]), (2, 0));
    assert_eq!(judge(&descriptor(6, 0x50, &[0, 1])), (2, 6));
    assert_eq!(judge(&descriptor(8, 0x50, &[0, 1, 0, 4])), (2, 6));
    let no_element = [0, 1, 0xFF, 0xFF, 0xFF, 0xFF];
    assert_eq!(judge(&descriptor(10, 0x40, &no_element)), (2, 10));
}

#[test]
fn number_3_high_bit() {
    assert_eq!(judge(&descriptor(0x8000, 0x03, &[])), (3, 0));
    assert_eq!(judge(&descriptor(0xFFFF, 0x00, &[])), (3, 0));
}

#[test]
fn number_4_size() {
    for size in [0, 2, 3, 5, 6, 0x7FFE, 0x7FFF] {
        assert_eq!(judge(&descriptor(size, 0x03, &[0])), (4, 0), "{size}");
    }
    let member_too_long = cluster(&[plain(), descriptor(6, 0x03, &[])]);
    assert_eq!(judge(&[member_too_long, vec![0, 0]].concat()), (4, 10));
}

#[test]
fn number_5_code() {
    for code in [0x00, 0x0F, 0x14, 0x18, 0x1F, 0x20, 0x32, 0x53, 0x55, 0xFF] {
        let foreign = descriptor(4, code, &[]);
        assert_eq!(judge(&foreign), (5, 3), "{code:02X}");
        assert_eq!(judge(&cluster(&[foreign.clone(), plain()])), (5, 9));
        assert_eq!(judge(&array(2, &foreign)), (5, 17));
    }
    assert_eq!(judge(&descriptor(5, 0x00, &[0])), (4, 0));
}

#[test]
fn number_6_depth() {
    let nested = |depth| (1..depth).fold(plain(), |inner, _| cluster(&[inner]));
    assert_eq!(judge(&nested(8)), (0, 8));
    assert_eq!(judge(&nested(9)), (6, 48));
}

#[test]
fn number_7_rows() {
    let wide = |members| cluster(&vec![plain(); members]);
    assert_eq!(judge(&wide(255)), (0, 256));
    assert_eq!(judge(&wide(256)), (7, 6 + 255 * 4));
}

#[test]
fn number_6_comes_before_7() {
    let deep = (1..8).fold(plain(), |inner, _| cluster(&[inner]));
    let members = [vec![plain(); 248], vec![deep]].concat();
    let start = 6 + 248 * 4 + 7 * 6;
    assert_eq!(judge(&cluster(&members)), (6, start));
}

/// Each body that is too long, at its descriptor's end.
#[test]
fn number_8_body() {
    for code in [0x15, 0x19, 0x30, 0x40, 0x50, 0x54] {
        judge_alone_and_inside(&descriptor(4, code, &[]), (8, 4));
    }
    let bodies: [(u8, &[u8]); 9] = [
        (0x30, &[0xFF, 0xFF]),
        (0x16, &[0, 1]),
        (0x16, &[0, 1, 2, 65]),
        (0x16, &[0, 2, 1, 65]),
        (0x16, &[0, 3, 0, 0, 4, 65]),
        (0x1E, &[0, 1, 0, 8]),
        (0x1E, &[0, 2, 0, 9, 0, 1]),
        (0x40, &[0, 1, 0xFF, 0xFF]),
        (0x40, &[0, 2, 0, 0, 0, 0]),
    ];
    for (code, behind) in bodies {
        let size = 4 + behind.len();
        judge_alone_and_inside(&descriptor(size, code, behind), (8, size as u32));
    }
}

/// At the count word, whatever stands behind it.
#[test]
fn number_9_count() {
    let counts = [
        (0x15, 0),
        (0x19, 0),
        (0x1E, 10),
        (0x40, 0),
        (0x40, 5),
        (0x50, 0),
    ];
    for (code, count) in counts {
        judge_alone_and_inside(&descriptor(6, code, &[0, count]), (9, 4));
        judge_alone_and_inside(&descriptor(10, code, &[0, count, 9, 9, 9, 9]), (9, 4));
    }
    judge_alone_and_inside(&descriptor(6, 0x40, &[1, 1]), (9, 4));
}

/// At the first byte of the word, whichever of its bytes is wrong.
#[test]
fn number_10_length_word() {
    for byte in 0..4 {
        let mut word = [0xFF; 4];
        word[byte] = 0xFE;
        judge_alone_and_inside(&descriptor(8, 0x30, &word), (10, 4));
    }
}

/// At the first dimension that is wrong, others behind it or not.
#[test]
fn number_10_dimension() {
    for first in 0..4 {
        for byte in 0..4 {
            let mut array = array(4, &plain());
            array[6 + 4 * first + byte] = 0x7F;
            let place = 6 + 4 * first as u32;
            judge_alone_and_inside(&array, (10, place));
            array[18..22].fill(0);
            judge_alone_and_inside(&array, (10, place));
        }
    }
}

/// At the first base index over 8, others behind it or not.
#[test]
fn number_10_base() {
    for first in 0..9 {
        for base in [9u16, 256, 0x8000] {
            let mut behind = [&[0, 9], &[0, 8, 0x80, 0].repeat(9)[..]].concat();
            assert_eq!(judge(&descriptor(42, 0x1A, &behind)), (0, 1));
            behind[2 + 4 * first..][..2].copy_from_slice(&base.to_be_bytes());
            let place = 6 + 4 * first as u32;
            judge_alone_and_inside(&descriptor(42, 0x1A, &behind), (10, place));
            behind[34] = 1;
            judge_alone_and_inside(&descriptor(42, 0x1A, &behind), (10, place));
        }
    }
}

/// At the fill byte, whatever stands behind it.
#[test]
fn number_10_fill_byte() {
    for fill in [1, 0x80, 0xFF] {
        judge_alone_and_inside(&descriptor(8, 0x17, &[0, 1, 0, fill]), (10, 7));
        let two = [0, 2, 2, 65, 66, 1, 67, fill];
        judge_alone_and_inside(&descriptor(12, 0x17, &two), (10, 11));
        let named = [&two[..], &[1, 65]].concat();
        judge_alone_and_inside(&descriptor(14, 0x17, &named), (10, 11));
    }
    assert_eq!(judge(&descriptor(8, 0x17, &[0, 1, 0, 0])), (0, 1));
}

/// At the inner array's low code byte, before anything of its body.
#[test]
fn number_10_array_in_array() {
    let inner = descriptor(4, 0x40, &[]);
    for dimensions in 1..=4 {
        let place = 6 + 4 * u32::from(dimensions) + 3;
        let outer = array(dimensions, &inner);
        judge_alone_and_inside(&outer, (10, place));
        judge_alone_and_inside(&array(dimensions, &array(1, &plain())), (10, place));
    }
    assert_eq!(judge(&array(1, &descriptor(3, 0x40, &[]))), (4, 10));
}

/// At the first byte behind the body and what it holds.
#[test]
fn number_11_name() {
    let left: [&[u8]; 5] = [
        &[2, 65],
        &[0, 1],
        &[2, 65, 65, 1],
        &[1, 65, 0, 0],
        &[255, 0],
    ];
    let bodies: [&[u8]; 5] = [
        &plain(),
        &descriptor(8, 0x30, &[0xFF; 4]),
        &descriptor(8, 0x15, &[0, 1, 1, 65]),
        &descriptor(10, 0x19, &[0, 1, 0, 3, 0, 1]),
        &cluster(&[plain(), cluster(&[plain()])]),
    ];
    for behind in left {
        for body in bodies {
            let mut whole = [body, behind].concat();
            whole[1] = whole.len() as u8;
            judge_alone_and_inside(&whole, (11, body.len() as u32));
        }
        let mut whole = [&array(3, &plain()), behind].concat();
        whole[1] = whole.len() as u8;
        judge_alone_and_inside(&whole, (11, 22));
    }
}

#[test]
fn number_12_bytes_behind() {
    assert_eq!(judge(&descriptor(4, 0x03, &[0])), (12, 4));
}

#[test]
fn the_first_descriptor_is_judged_completely_before_the_second() {
    let refusal = |number, input, place| Answer {
        number,
        input,
        place,
    };
    let behind = descriptor(4, 0x03, &[0]);
    let too_long = vec![0; 4097];
    assert_eq!(compare(&behind, &too_long).answer, refusal(12, 1, 4));
    assert_eq!(compare(&plain(), &too_long).answer, refusal(1, 2, 0));
    assert_eq!(compare(&too_long, &behind).answer, refusal(1, 1, 0));
}
