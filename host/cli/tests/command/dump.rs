//! `dump`: every value of accepted data.

use crate::common::descriptors::{
    array, cluster, descriptor, enumeration, named, quantity, string,
};
use crate::common::{Folder, hex};

#[test]
fn every_value_has_path_name_type_and_place() {
    let folder = Folder::with_samples("dump-bath", &["bath.hex", "data/bath.hex"]);
    folder.run(&["dump", "bath.hex", "data-bath.hex"]).gives(
        "data-bath.hex: accepted, 9 pieces
  -    cluster of 4 members \"bath\", 45 bytes at 0
  0    8-bit enumeration of 4 items \"mode\" = 1 \"heat\", 1 byte at 0
  1    double quantity in K \"temp\" = 298.15, 8 bytes at 1
  2    array of 1 dimension \"profile\", 3 elements, 16 bytes at 9
  2 0  single = 20.5, 4 bytes at 13
  2 1  single = 21.25, 4 bytes at 17
  2 2  single = 22.0, 4 bytes at 21
  3    cluster of 3 members \"blank\", 20 bytes at 25
  3 0  unsigned 32-bit integer \"id\" = 9, 4 bytes at 25
  3 1  string \"note\" = \"second coat\", 15 bytes at 29
  3 2  Boolean \"ok\" = true, 1 byte at 44
",
    );
}

/// Dumps a cluster of these members with these bytes, and expects these words.
#[track_caller]
fn dumps(test: &str, members: &[(Vec<u8>, &str, &str)]) {
    let folder = Folder::new(test);
    let types: Vec<_> = members.iter().map(|(types, ..)| types.clone()).collect();
    let data: Vec<_> = members.iter().map(|(_, data, _)| hex(data)).collect();
    folder.put("types", &cluster(&types));
    folder.put("data", &data.concat());
    let count = members.len();
    let whole = data.concat().len();
    let width = (count - 1).to_string().len();
    let mut expected = format!("data: accepted, {count} pieces\n");
    let dash = "-";
    expected += &format!("  {dash:width$}  cluster of {count} members, {whole} bytes at 0\n");
    let mut start = 0;
    for (index, (bytes, (_, _, says))) in data.iter().zip(members).enumerate() {
        let length = bytes.len();
        let ending = if length == 1 { "" } else { "s" };
        expected += &format!("  {index:<width$}  {says}, {length} byte{ending} at {start}\n");
        start += length;
    }
    folder.run(&["dump", "types", "data"]).gives(&expected);
}

fn plain(code: u8) -> Vec<u8> {
    descriptor(code, &[])
}

#[test]
fn whole_numbers() {
    let members = [
        (plain(0x01), "80", "signed 8-bit integer = -128"),
        (plain(0x02), "FFFE", "signed 16-bit integer = -2"),
        (
            plain(0x03),
            "7FFFFFFF",
            "signed 32-bit integer = 2147483647",
        ),
        (
            plain(0x04),
            "8000000000000000",
            "signed 64-bit integer = -9223372036854775808",
        ),
        (plain(0x05), "FF", "unsigned 8-bit integer = 255"),
        (plain(0x06), "FFFE", "unsigned 16-bit integer = 65534"),
        (
            plain(0x07),
            "80000000",
            "unsigned 32-bit integer = 2147483648",
        ),
        (
            plain(0x08),
            "FFFFFFFFFFFFFFFF",
            "unsigned 64-bit integer = 18446744073709551615",
        ),
    ];
    dumps("dump-whole", &members);
}

#[test]
fn flags_and_enumerations() {
    let members = [
        (plain(0x21), "00", "Boolean = false"),
        (plain(0x21), "01", "Boolean = true"),
        (plain(0x21), "02", "Boolean = true (byte 02)"),
        (plain(0x21), "FF", "Boolean = true (byte FF)"),
        (
            enumeration(0x15, &[b"on", b"off"]),
            "01",
            "8-bit enumeration of 2 items = 1 \"off\"",
        ),
        (
            enumeration(0x16, &[b"\x1B"]),
            "0000",
            "16-bit enumeration of 1 item = 0 \"\\x1B\"",
        ),
        (
            enumeration(0x17, &[b"", b"b"]),
            "00000000",
            "32-bit enumeration of 2 items = 0 \"\"",
        ),
    ];
    dumps("dump-flags", &members);
}

#[test]
fn singles_and_doubles() {
    let newton = [(4, 1), (3, 1), (2, -2)];
    let members = [
        (plain(0x09), "3DCCCCCD", "single = 0.1"),
        (plain(0x09), "80000000", "single = -0.0"),
        (plain(0x09), "00000001", "single = 1e-45"),
        (plain(0x09), "7F800000", "single = inf"),
        (plain(0x09), "7F800001", "single = NaN 7F800001"),
        (plain(0x09), "FFC00000", "single = NaN FFC00000"),
        (plain(0x0A), "3FB999999999999A", "double = 0.1"),
        (plain(0x0A), "FFF0000000000000", "double = -inf"),
        (plain(0x0A), "7E37E43C8800759C", "double = 1e300"),
        (
            plain(0x0A),
            "7FF8000000000000",
            "double = NaN 7FF8000000000000",
        ),
        (
            plain(0x0A),
            "FFF0000000000001",
            "double = NaN FFF0000000000001",
        ),
        (
            quantity(0x19, &newton),
            "41200000",
            "single quantity in kg m s^-2 = 10.0",
        ),
        (
            quantity(0x1A, &[(6, 1)]),
            "8000000000000000",
            "double quantity in K = -0.0",
        ),
    ];
    dumps("dump-real", &members);
}

#[test]
fn complex_numbers() {
    let second = [(2, 1)];
    let members = [
        (
            plain(0x0C),
            "3FC00000 BF800000",
            "complex single = 1.5 and -1.0 i",
        ),
        (
            plain(0x0C),
            "7F800001 80000000",
            "complex single = NaN 7F800001 and -0.0 i",
        ),
        (
            plain(0x0D),
            "3FB999999999999A FFF0000000000000",
            "complex double = 0.1 and -inf i",
        ),
        (
            quantity(0x1C, &second),
            "3FC00000 BF800000",
            "complex single quantity in s = 1.5 and -1.0 i",
        ),
        (
            quantity(0x1D, &second),
            "0000000000000000 7FF8000000000002",
            "complex double quantity in s = 0.0 and NaN 7FF8000000000002 i",
        ),
    ];
    dumps("dump-complex", &members);
}

#[test]
fn extended_numbers_are_shown_by_their_bytes() {
    let extended = "3FFF8000000000000000000000000000";
    let shown = "bytes 3FFF 8000 0000 0000 0000 0000 0000 0000";
    let twice = format!("{extended}{extended}");
    let second = [(2, 1)];
    let words = [
        format!("extended = {shown}"),
        format!("complex extended = {shown} {}", &shown[6..]),
        format!("extended quantity in s = {shown}"),
        format!("complex extended quantity in s = {shown} {}", &shown[6..]),
    ];
    let members = [
        (plain(0x0B), extended, &words[0][..]),
        (plain(0x0E), &twice, &words[1]),
        (quantity(0x1B, &second), extended, &words[2]),
        (quantity(0x1E, &second), &twice, &words[3]),
    ];
    dumps("dump-extended", &members);
}

#[test]
fn strings_are_escaped() {
    let members = [
        (string(), "00000000", "string = \"\""),
        (
            named(string(), b"\x1B"),
            "00000006 1B5B324A0D0A",
            "string \"\\x1B\" = \"\\x1B[2J\\x0D\\x0A\"",
        ),
        (
            string(),
            "00000005 C3A90022 5C",
            "string = \"\\xC3\\xA9\\x00\\\"\\\\\"",
        ),
    ];
    dumps("dump-strings", &members);
}

#[test]
fn a_long_string_is_cut_unless_all_is_asked_for() {
    let folder = Folder::new("dump-long-string");
    folder.put("types", &string());
    folder.put("data", &[&hex("0000003D")[..], &[b'x'; 61]].concat());
    let of = |says: &str| format!("data: accepted, 1 piece\n  -  string = {says}, 65 bytes at 0\n");
    let (cut, whole) = ("x".repeat(60), "x".repeat(61));
    let run = |words: &[&str]| folder.run(words);
    run(&["dump", "types", "data"]).gives(&of(&format!("\"{cut}\" .. 1 more")));
    run(&["dump", "types", "data", "--all"]).gives(&of(&format!("\"{whole}\"")));
}

#[test]
fn elements_are_cut_after_eight_unless_all_are_asked_for() {
    let folder = Folder::new("dump-elements");
    folder.put("types", &cluster(&[array(2, &plain(0x02)), plain(0x05)]));
    let elements: Vec<u8> = (0..12).flat_map(|element| [0, element]).collect();
    folder.put(
        "data",
        &[&hex("00000002 00000006")[..], &elements, &[7]].concat(),
    );
    let expected = |width: usize, listed: usize, more: Option<&str>| {
        let mut lines = vec![
            (
                "-".to_string(),
                "cluster of 2 members, 33 bytes at 0".to_string(),
            ),
            (
                "0".into(),
                "array of 2 dimensions, 2 x 6 elements, 32 bytes at 0".into(),
            ),
        ];
        lines.extend((0..listed).map(|at| {
            let says = format!("signed 16-bit integer = {at}, 2 bytes at {}", 8 + 2 * at);
            (format!("0 {at}"), says)
        }));
        lines.extend(more.map(|more| ("0".into(), more.into())));
        lines.push((
            "1".into(),
            "unsigned 8-bit integer = 7, 1 byte at 32".into(),
        ));
        let lines = lines
            .iter()
            .map(|(path, says)| format!("  {path:width$}  {says}\n"));
        format!("data: accepted, 14 pieces\n{}", lines.collect::<String>())
    };
    let cut = expected(3, 8, Some(".. 4 more, 8 bytes at 24"));
    folder.run(&["dump", "types", "data"]).gives(&cut);
    folder
        .run(&["dump", "--all", "types", "data"])
        .gives(&expected(4, 12, None));
}

#[test]
fn empty_arrays_have_their_sizes() {
    let folder = Folder::new("dump-empty");
    folder.put(
        "types",
        &cluster(&[array(1, &string()), array(3, &plain(0x0A))]),
    );
    folder.put("data", &hex("00000000 7FFFFFFF 7FFFFFFF 00000000"));
    folder.run(&["dump", "types", "data"]).gives(
        "data: accepted, 2 pieces
  -  cluster of 2 members, 16 bytes at 0
  0  array of 1 dimension, 0 elements, 4 bytes at 0
  1  array of 3 dimensions, 2147483647 x 2147483647 x 0 elements, 12 bytes at 4
",
    );
}

#[test]
fn arrays_in_clusters_in_arrays() {
    let inner = cluster(&[named(array(1, &plain(0x05)), b"a"), plain(0x21)]);
    let folder = Folder::new("dump-nested");
    folder.put("types", &array(1, &inner));
    let nine = "00000009 010203040506070809 01";
    folder.put("data", &hex(&format!("00000002 00000001 05 00 {nine}")));
    folder.run(&["dump", "types", "data"]).gives(
        "data: accepted, 15 pieces
  -      array of 1 dimension, 2 elements, 24 bytes at 0
  0      cluster of 2 members, 6 bytes at 4
  0 0    array of 1 dimension \"a\", 1 element, 5 bytes at 4
  0 0 0  unsigned 8-bit integer = 5, 1 byte at 8
  0 1    Boolean = false, 1 byte at 9
  1      cluster of 2 members, 14 bytes at 10
  1 0    array of 1 dimension \"a\", 9 elements, 13 bytes at 10
  1 0 0  unsigned 8-bit integer = 1, 1 byte at 14
  1 0 1  unsigned 8-bit integer = 2, 1 byte at 15
  1 0 2  unsigned 8-bit integer = 3, 1 byte at 16
  1 0 3  unsigned 8-bit integer = 4, 1 byte at 17
  1 0 4  unsigned 8-bit integer = 5, 1 byte at 18
  1 0 5  unsigned 8-bit integer = 6, 1 byte at 19
  1 0 6  unsigned 8-bit integer = 7, 1 byte at 20
  1 0 7  unsigned 8-bit integer = 8, 1 byte at 21
  1 0    .. 1 more, 1 byte at 22
  1 1    Boolean = true, 1 byte at 23
",
    );
}
