//! `compare`: whether two descriptors are equal, and where they first differ.

use crate::common::Folder;
use crate::common::descriptors::{
    array, cluster, descriptor, enumeration, named, quantity, string,
};

#[test]
fn reserved_bytes_alone_don_t_count() {
    let names = ["rig.hex", "rig-reserved.hex"];
    let folder = Folder::with_samples("compare-reserved", &names);
    folder
        .run(&["compare", "rig.hex", "rig-reserved.hex"])
        .gives("equal\n");
    folder
        .run(&["compare", "rig.hex", "rig.hex"])
        .gives("equal\n");
}

/// Compares the two both ways and expects the difference, and its mirror image.
#[track_caller]
fn differ(test: &str, first: &[u8], second: &[u8], what: &str, sides: [&str; 2]) {
    let folder = Folder::new(test);
    folder.put("a", first);
    folder.put("b", second);
    let [one, other] = sides;
    for (words, one, other) in [(["a", "b"], one, other), (["b", "a"], other, one)] {
        let ran = folder.run(&["compare", words[0], words[1]]);
        let text = format!(
            "not equal\nfirst difference{what}: {one} in the first, {other} in the second\n"
        );
        assert_eq!(ran.text(), text);
        assert_eq!(
            ran.complaint(),
            format!("{} and {} are not equal", words[0], words[1])
        );
        assert_eq!(ran.status, 3);
    }
}

#[test]
fn another_type() {
    differ(
        "compare-type",
        &descriptor(0x03, &[]),
        &named(descriptor(0x07, &[]), b"x"),
        ": the type",
        ["signed 32-bit integer at 3", "unsigned 32-bit integer at 3"],
    );
}

#[test]
fn another_count() {
    let member = || descriptor(0x01, &[]);
    differ(
        "compare-members",
        &cluster(&[member()]),
        &cluster(&[member(), member()]),
        ": the number of members",
        ["1 member at 4", "2 members at 4"],
    );
    differ(
        "compare-dimensions",
        &array(1, &member()),
        &array(3, &member()),
        ": the number of dimensions",
        ["1 dimension at 4", "3 dimensions at 4"],
    );
    differ(
        "compare-items",
        &enumeration(0x15, &[b"on", b"off"]),
        &enumeration(0x15, &[b"on"]),
        ": the number of items",
        ["2 items at 4", "1 item at 4"],
    );
    differ(
        "compare-pairs",
        &quantity(0x19, &[(2, 1)]),
        &quantity(0x19, &[(2, 1), (3, 1)]),
        ": the number of unit pairs",
        ["1 unit pair at 4", "2 unit pairs at 4"],
    );
}

#[test]
fn another_item() {
    differ(
        "compare-item",
        &enumeration(0x17, &[b"on", b"off", b"hold"]),
        &enumeration(0x17, &[b"on", b"of", b"hold"]),
        ": item 1",
        ["\"off\" at 9", "\"of\" at 9"],
    );
}

#[test]
fn another_unit_pair() {
    differ(
        "compare-base",
        &quantity(0x1A, &[(2, 1), (3, 1)]),
        &quantity(0x1A, &[(2, 1), (4, 1)]),
        ": unit pair 1",
        ["m at 10", "kg at 10"],
    );
    differ(
        "compare-exponent",
        &quantity(0x1E, &[(2, 1)]),
        &quantity(0x1E, &[(2, -1)]),
        ": unit pair 0",
        ["s at 6", "s^-1 at 6"],
    );
}

#[test]
fn another_name() {
    let with = |name: &[u8]| named(descriptor(0x05, &[]), name);
    differ(
        "compare-name",
        &with(b"a"),
        &with(b"\x1B"),
        ": the name",
        ["\"a\" at 4", "\"\\x1B\" at 4"],
    );
    differ(
        "compare-no-name",
        &with(b""),
        &descriptor(0x05, &[]),
        ": the name",
        ["\"\" at 4", "none at 4"],
    );
}

#[test]
fn a_difference_inside_has_its_path() {
    let tree = |last: Vec<u8>| {
        let inner = cluster(&[descriptor(0x21, &[]), last]);
        let list = named(array(1, &named(inner, b"e")), b"list");
        named(cluster(&[named(string(), b"note"), list]), b"top")
    };
    differ(
        "compare-nested",
        &tree(descriptor(0x09, &[])),
        &tree(descriptor(0x0A, &[])),
        " in 1 \"list\", 0, 1: the type",
        ["single at 43", "double at 43"],
    );
}

#[test]
fn a_count_is_found_before_the_members_and_a_member_before_the_name() {
    let of = |code, name: &[u8]| named(cluster(&[descriptor(code, &[])]), name);
    differ(
        "compare-order",
        &of(0x01, b"a"),
        &of(0x02, b"b"),
        " in 0: the type",
        ["signed 8-bit integer at 9", "signed 16-bit integer at 9"],
    );
}

#[test]
fn the_file_at_fault_is_named() {
    let names = ["rig.hex", "rig-cut.hex"];
    let folder = Folder::with_samples("compare-refused", &names);
    let meaning = "the size is odd, under 4, or runs past the end of what it stands in";
    let there = "[00] 14 00 50 00 02 00 06 00 ..; size 20, 16 bytes there";
    folder.run(&["compare", "rig.hex", "rig-cut.hex"]).refuses(&format!(
        "rig-cut.hex: refused with 4: {meaning} (input 2, the second descriptor; place 0): {there}"
    ));
    folder.run(&["compare", "rig-cut.hex", "rig-cut.hex"]).refuses(&format!(
        "rig-cut.hex: refused with 4: {meaning} (input 1, the first descriptor; place 0): {there}"
    ));
}
