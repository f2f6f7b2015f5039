//! `data`, `little` and `big`: data under a descriptor, and its byte order.

use crate::common::descriptors::{array, cluster, descriptor, enumeration, string};
use crate::common::{Folder, hex};

#[test]
fn accepted_data_has_its_piece_count() {
    let names = ["rig.hex", "data/rig.hex", "bath.hex", "data/bath.hex"];
    let folder = Folder::with_samples("data-accepted", &names);
    let run = |words: [&str; 2]| folder.run(&["data", words[0], words[1]]);
    run(["rig.hex", "data-rig.hex"]).gives("data-rig.hex: accepted, 2 pieces\n");
    run(["bath.hex", "data-bath.hex"]).gives("data-bath.hex: accepted, 9 pieces\n");
}

#[test]
fn an_array_s_sizes_are_one_piece() {
    let folder = Folder::new("data-pieces");
    folder.put("array", &array(2, &descriptor(0x05, &[])));
    folder.put("empty", &hex("7FFFFFFF 00000000"));
    folder
        .run(&["data", "array", "empty"])
        .gives("empty: accepted, 1 piece\n");
    folder.put("four", &hex("00000002 00000002 01020304"));
    folder
        .run(&["data", "array", "four"])
        .gives("four: accepted, 5 pieces\n");
}

#[test]
fn the_byte_order_is_turned_and_turned_back() {
    let names = ["rig.hex", "data/rig.hex", "data/rig-little.hex"];
    let folder = Folder::with_samples("data-little", &names);
    folder
        .run(&["little", "rig.hex", "data-rig.hex"])
        .gives("1900 0900 0000\n");
    folder
        .run(&["big", "rig.hex", "data-rig-little.hex"])
        .gives("0019 0000 0009\n");
}

#[test]
fn each_number_is_turned_by_itself() {
    let types = [
        descriptor(0x0C, &[]),
        descriptor(0x0B, &[]),
        descriptor(0x21, &[]),
        string(),
        array(2, &descriptor(0x02, &[])),
    ];
    let folder = Folder::new("data-turned");
    folder.put("types", &cluster(&types));
    let big = "01020304 05060708 000102030405060708090A0B0C0D0E0F 01 00000002 6162 00000001 00000002 1122 3344";
    let little = "04030201 08070605 0F0E0D0C0B0A09080706050403020100 01 02000000 6162 01000000 02000000 2211 4433";
    folder.put("big", &hex(big));
    folder.put("little", &hex(little));
    let run = |words: [&str; 2]| folder.run(&[words[0], "types", words[1], "-o", "-"]);
    assert_eq!(run(["little", "big"]).out, hex(little));
    assert_eq!(run(["big", "little"]).out, hex(big));
}

#[test]
fn little_endian_data_is_refused_where_its_words_are() {
    let folder = Folder::new("data-little-refused");
    let mode = enumeration(0x15, &[b"off", b"on"]);
    folder.put("types", &cluster(&[string(), mode]));
    folder.put("data", &hex("01000000 61 02"));
    folder.run(&["big", "types", "data"]).refuses(
        "data: refused with 23: the enumeration has no item of this number \
         (input 3, the data; place 5; in 1): 01 00 00 00 61 [02]; number 2 of 2 items",
    );
    folder.run(&["little", "types", "data"]).refuses(
        "data: refused with 21: the data ends inside this piece \
         (input 3, the data; place 0; in 0): [01] 00 00 00 61 02; \
         length 16777216, 2 bytes behind it",
    );
}

#[test]
fn the_facts_of_little_endian_data_are_read_reversed() {
    let folder = Folder::new("data-little-facts");
    let types = [
        string(),
        array(2, &descriptor(0x07, &[])),
        enumeration(0x16, &[b"on", b"off"]),
    ];
    folder.put("types", &cluster(&types));
    for (data, refused) in [
        ("0100", "21 4 bytes needed, 2 left"),
        ("09010000 6162", "21 length 265, 2 bytes behind it"),
        ("01000080", "22 length 2147483649"),
        ("00000000 010000", "21 8 bytes needed, 3 left"),
        ("00000000 02000000 010000FF", "22 sizes 2 x 4278190081"),
        ("00000000 01000000 01000000 07", "21 4 bytes needed, 1 left"),
        (
            "00000000 00000000 00000000 0201",
            "23 number 258 of 2 items",
        ),
        ("00000000 00000000 00000000 0100 AB", "25 1 byte left"),
    ] {
        folder.put("data", &hex(data));
        let json = folder.run(&["big", "types", "data", "--json"]).json();
        let seen = format!("{} {}", json.at("number").number(), json.at("facts").text());
        assert_eq!(seen, refused, "{data}");
    }
}
