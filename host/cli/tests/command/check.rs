//! `check`: the types of a descriptor.

use crate::common::Folder;
use crate::common::descriptors::{
    array, cluster, descriptor, enumeration, named, quantity, string, time_stamp,
};

#[test]
fn the_tree_has_items_units_and_names() {
    let folder = Folder::with_samples("check-tree", &["bath.hex"]);
    folder.run(&["check", "bath.hex"]).gives(
        "bath.hex: accepted, 9 types
  cluster of 4 members \"bath\", 124 bytes at 0
    8-bit enumeration of 4 items \"mode\": \"off\", \"heat\", \"cool\", \"hold\", 32 bytes at 6
    double quantity in K \"temp\", 16 bytes at 38
    array of 1 dimension \"profile\", 22 bytes at 54
      single, 4 bytes at 64
    cluster of 3 members \"blank\", 42 bytes at 76
      unsigned 32-bit integer \"id\", 8 bytes at 82
      string \"note\", 14 bytes at 90
      Boolean \"ok\", 8 bytes at 104
",
    );
}

#[test]
fn the_table_has_the_rows() {
    let folder = Folder::with_samples("check-table", &["rig.hex"]);
    folder.run(&["check", "--table", "rig.hex"]).gives(
        "rig.hex: accepted, 3 types
 row code start  size depth count name-place name-length
   0   50     0    20     1     2          0           0
   1   02     6     6     2     0         11           1
   2   07    12     8     2     0         17           2
",
    );
}

/// What is said of a cluster with a member of every code.
const EVERY_CODE: [&str; 37] = [
    "all: accepted, 36 types",
    "cluster of 28 members, 246 bytes at 0",
    "signed 8-bit integer, 4 bytes at 6",
    "signed 16-bit integer, 4 bytes at 10",
    "signed 32-bit integer, 4 bytes at 14",
    "signed 64-bit integer, 4 bytes at 18",
    "unsigned 8-bit integer, 4 bytes at 22",
    "unsigned 16-bit integer, 4 bytes at 26",
    "unsigned 32-bit integer, 4 bytes at 30",
    "unsigned 64-bit integer, 4 bytes at 34",
    "single, 4 bytes at 38",
    "double, 4 bytes at 42",
    "extended, 4 bytes at 46",
    "complex single, 4 bytes at 50",
    "complex double, 4 bytes at 54",
    "complex extended, 4 bytes at 58",
    "Boolean, 4 bytes at 62",
    "8-bit enumeration of 1 item: \"a\", 8 bytes at 66",
    "16-bit enumeration of 1 item: \"a\", 8 bytes at 74",
    "32-bit enumeration of 1 item: \"a\", 8 bytes at 82",
    "single quantity in s^-1 m, 14 bytes at 90",
    "double quantity in s^-1 m, 14 bytes at 104",
    "extended quantity in s^-1 m, 14 bytes at 118",
    "complex single quantity in s^-1 m, 14 bytes at 132",
    "complex double quantity in s^-1 m, 14 bytes at 146",
    "complex extended quantity in s^-1 m, 14 bytes at 160",
    "string, 8 bytes at 174",
    "array of 2 dimensions, 22 bytes at 182",
    "string, 8 bytes at 196",
    "cluster of 1 member, 14 bytes at 204",
    "string, 8 bytes at 210",
    "time stamp, 28 bytes at 218",
    "cluster of 4 members, 22 bytes at 224",
    "signed 32-bit integer, 4 bytes at 230",
    "signed 32-bit integer, 4 bytes at 234",
    "unsigned 32-bit integer, 4 bytes at 238",
    "unsigned 32-bit integer, 4 bytes at 242",
];

#[test]
fn every_code_has_its_words() {
    let codes = (0x01..=0x0E).chain([0x21]);
    let mut members: Vec<_> = codes.map(|code| descriptor(code, &[])).collect();
    members.extend((0x15..=0x17).map(|code| enumeration(code, &[b"a"])));
    members.extend((0x19..=0x1E).map(|code| quantity(code, &[(2, -1), (3, 1)])));
    members.extend([string(), array(2, &string()), cluster(&[string()])]);
    members.push(time_stamp());
    let folder = Folder::new("check-codes");
    folder.put("all", &cluster(&members));
    let ran = folder.run(&["check", "all"]);
    let kinds: Vec<&str> = ran.text().lines().map(|line| line.trim_start()).collect();
    assert_eq!(kinds, EVERY_CODE);
    assert_eq!(ran.status, 0);
}

#[test]
fn every_unit_has_its_sign() {
    let pairs = [0, 1, 2, 3, 4, 5, 6, 7, 8].map(|base| (base, base as i16 - 3));
    let folder = Folder::new("check-units");
    folder.put("units", &quantity(0x19, &pairs));
    folder.run(&["check", "units"]).gives(
        "units: accepted, 1 type
  single quantity in rad^-3 sr^-2 s^-1 m^0 kg A^2 K^3 mol^4 cd^5, 42 bytes at 0
",
    );
}

#[test]
fn many_items_are_cut_unless_all_are_asked_for() {
    let items: Vec<String> = (0..14).map(|item| format!("i{item}")).collect();
    let bytes: Vec<&[u8]> = items.iter().map(|item| item.as_bytes()).collect();
    let folder = Folder::new("check-items");
    folder.put("many", &enumeration(0x16, &bytes));
    let listed = |count: usize| {
        let items: Vec<String> = items[..count]
            .iter()
            .map(|item| format!("\"{item}\""))
            .collect();
        items.join(", ")
    };
    let of = |items: &str| {
        format!(
            "many: accepted, 1 type\n  16-bit enumeration of 14 items: {items}, 52 bytes at 0\n"
        )
    };
    let cut = format!("{}, .. 2 more", listed(12));
    folder.run(&["check", "many"]).gives(&of(&cut));
    folder
        .run(&["check", "--all", "many"])
        .gives(&of(&listed(14)));
}

#[test]
fn names_and_items_are_escaped() {
    let item = enumeration(0x15, &[b"\x1B[2J", b"a\"b\\c", b"\xC2\x9B", b""]);
    let folder = Folder::new("check-escapes");
    folder.put("e", &named(item, b"\x07\xE9\n"));
    folder.run(&["check", "e"]).gives(
        r#"e: accepted, 1 type
  8-bit enumeration of 4 items "\x07\xE9\x0A": "\x1B[2J", "a\"b\\c", "\xC2\x9B", "", 26 bytes at 0
"#,
    );
    folder.put("empty", &named(descriptor(3, &[]), b""));
    folder
        .run(&["check", "empty"])
        .gives("empty: accepted, 1 type\n  signed 32-bit integer \"\", 6 bytes at 0\n");
}
