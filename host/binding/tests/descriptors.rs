//! Document 01's hand-checked descriptors, asked of the library through its C
//! interface.

use kerbcanopy::{Answer, check_descriptor, compare, normal_form};

const P1: [u8; 4] = [0, 4, 0, 3];
const P5: [u8; 14] = [0, 14, 0, 0x50, 0, 2, 0, 4, 0, 2, 0, 4, 0, 7];

fn answer(number: u32, input: u32, place: u32) -> Answer {
    Answer {
        number,
        input,
        place,
    }
}

#[test]
fn no_bytes_are_refused() {
    assert_eq!(check_descriptor(&[]).answer, answer(2, 1, 0));
    assert_eq!(compare(&P1, &[]).answer, answer(2, 2, 0));
    assert_eq!(normal_form(&[], &mut []), answer(2, 1, 0));
}

#[test]
fn a_cluster_has_three_rows() {
    let checked = check_descriptor(&P5);
    assert_eq!(checked.answer, answer(0, 0, 3));
    let stated = [
        [0x50, 0, 14, 1, 2, 0, 0],
        [2, 6, 4, 2, 0, 0, 0],
        [7, 10, 4, 2, 0, 0, 0],
    ];
    for (index, row) in checked.rows.iter().enumerate() {
        let [place, length] = [row.name_place, row.name_length];
        let words = [
            row.code, row.start, row.size, row.depth, row.count, place, length,
        ];
        assert_eq!(words, stated.get(index).copied().unwrap_or_default());
    }
}

#[test]
fn an_array_in_an_array_is_refused_at_the_inner_one() {
    let inner = [0, 14, 0, 0x40, 0, 1, 0xFF, 0xFF, 0xFF, 0xFF, 0, 4, 0, 0x0A];
    let outer = [0, 24, 0, 0x40, 0, 1, 0xFF, 0xFF, 0xFF, 0xFF];
    let checked = check_descriptor(&[&outer[..], &inner].concat());
    assert_eq!(checked.answer, answer(10, 1, 13));
    assert!(
        checked
            .rows
            .iter()
            .all(|row| row.size == 0 && row.code == 0)
    );
}

/// Document 02, CR 3: the place of 5 and 8 to 11 is the byte, not the start. Each
/// stands in a cluster, at 6, before a member that is right.
#[test]
fn a_refusal_points_at_the_byte() {
    let cases: [(&[u8], u32, u32); 16] = [
        (b"\x00\x04\x00\x32", 5, 9),
        (b"\x00\x06\x00\x54\x00\x05", 5, 9),
        (b"\x00\x04\x00\x50", 8, 10),
        (b"\x00\x04\x00\x54", 8, 10),
        (b"\x00\x06\x00\x30\xFF\xFF", 8, 12),
        (b"\x00\x08\x00\x15\x00\x02\x01a", 8, 14),
        (b"\x00\x0A\x00\x19\x00\x02\x00\x09\x00\x01", 8, 16),
        (b"\x00\x06\x00\x15\x00\x00", 9, 10),
        (b"\x00\x06\x00\x40\x00\x05", 9, 10),
        (b"\x00\x08\x00\x30\xFF\xFF\xFF\xFE", 10, 10),
        (
            b"\x00\x0E\x00\x19\x00\x02\x00\x08\x00\x09\x00\x09\x00\x01",
            10,
            16,
        ),
        (b"\x00\x0A\x00\x15\x00\x01\x02ab\x01", 10, 15),
        (b"\x00\x0A\x00\x54\x00\x06\x00\x04\x00\x03", 10, 6),
        (b"\x00\x06\x00\x03\x02a", 11, 10),
        (b"\x00\x08\x00\x03\x02ab\x01", 11, 10),
        (b"\x00\x0C\x00\x50\x00\x01\x00\x04\x00\x03\x02a", 11, 16),
    ];
    for (member, number, place) in cases {
        let size = 10 + member.len() as u8;
        let types = [&[0, size, 0, 0x50, 0, 2], member, &P1].concat();
        let checked = check_descriptor(&types);
        assert_eq!(checked.answer, answer(number, 1, place), "{member:02X?}");
        let compared = compare(&P1, &types);
        assert_eq!(compared.answer, answer(number, 2, place), "{member:02X?}");
    }
}

#[test]
fn the_reserved_byte_is_ignored() {
    let compared = compare(&[0, 4, 0x40, 3], &P1);
    assert_eq!((compared.answer, compared.equal), (answer(0, 0, 0), true));
    let compared = compare(&[0, 4, 0, 7], &P1);
    assert_eq!((compared.answer, compared.equal), (answer(0, 0, 0), false));
}

#[test]
fn the_normal_form_keeps_what_is_beyond_it() {
    let mut out = [0xA5; 6];
    assert_eq!(normal_form(&[0, 4, 0x40, 3], &mut out), answer(0, 0, 4));
    assert_eq!(out, [0, 4, 0, 3, 0xA5, 0xA5]);
    assert_eq!(normal_form(&P5, &mut out), answer(50, 4, 14));
    assert_eq!(out, [0, 4, 0, 3, 0xA5, 0xA5]);
}
