//! `read`: the members that a reader asks for.

use crate::common::descriptors::{cluster, descriptor, named, string};
use crate::common::{Folder, hex};

#[test]
fn moved_members_give_the_same_bytes() {
    let names = [
        "rig",
        "rig-before",
        "rig-reserved",
        "pulses-first",
        "pulses-second",
    ];
    let files = names.map(|name| format!("{name}.hex"));
    let data = [
        "rig",
        "rig-before",
        "rig-fourteen",
        "pulses-first",
        "pulses-second",
    ];
    let data = data.map(|name| format!("data/{name}.hex"));
    let all: Vec<&str> = files.iter().chain(&data).map(String::as_str).collect();
    let folder = Folder::with_samples("record-moved", &[&all[..], &["reader.hex"]].concat());
    for (writer, data, given) in [
        ("rig", "rig", "0000 0009\n"),
        ("rig", "rig-fourteen", "0000 000E\n"),
        ("rig-before", "rig-before", "0000 0009\n"),
        ("rig-reserved", "rig", "0000 0009\n"),
        ("pulses-first", "pulses-first", "0000 0009\n"),
        ("pulses-second", "pulses-second", "0000 0009\n"),
    ] {
        let writer = format!("{writer}.hex");
        let data = format!("data-{data}.hex");
        folder
            .run(&["read", &writer, "reader.hex", &data])
            .gives(given);
    }
}

#[test]
fn what_is_given_is_data_for_the_reader() {
    let names = [
        "rig-before.hex",
        "rig.hex",
        "data/rig.hex",
        "data/rig-before.hex",
    ];
    let folder = Folder::with_samples("record-reader", &names);
    let words = [
        "read",
        "rig.hex",
        "rig-before.hex",
        "data-rig.hex",
        "-o",
        "moved",
    ];
    folder.run(&words).writes("moved: 6 bytes written");
    assert_eq!(folder.read("moved"), hex("00000009 0019"));
    folder
        .run(&["data", "rig-before.hex", "moved"])
        .gives("moved: accepted, 2 pieces\n");
}

#[test]
fn strings_and_clusters_are_handed_over_whole() {
    let number = |name: &[u8]| named(descriptor(0x02, &[]), name);
    let note = || named(string(), b"note");
    let inner = || named(cluster(&[number(b"x"), note()]), b"inner");
    let folder = Folder::new("record-whole");
    folder.put(
        "writer",
        &named(cluster(&[note(), number(b"x"), inner()]), b"w"),
    );
    folder.put("reader", &named(cluster(&[inner(), note()]), b"r"));
    folder.put("data", &hex("00000002 6869 0001 0002 00000001 21"));
    folder
        .run(&["read", "writer", "reader", "data"])
        .gives("0002 0000 0001 2100 0000 0268 69\n");
}

#[test]
fn a_damaged_record_leaves_the_one_before() {
    let names = ["rig.hex", "reader.hex", "data/rig.hex", "data/rig-cut.hex"];
    let folder = Folder::with_samples("record-damaged", &names);
    let read = |data: &str| folder.run(&["read", "rig.hex", "reader.hex", data, "-o", "record"]);
    read("data-rig.hex").writes("record: 4 bytes written");
    read("data-rig-cut.hex").refuses(
        "data-rig-cut.hex: refused with 21: the data ends inside this piece \
         (input 3, the data; place 2; in 1 \"id\"): 00 19 [00] 00 00; 4 bytes needed, 3 left",
    );
    assert_eq!(folder.read("record"), [0, 0, 0, 9]);
}

#[test]
fn the_room_is_what_is_lent() {
    let names = ["rig.hex", "reader.hex", "data/rig.hex"];
    let folder = Folder::with_samples("record-room", &names);
    let read = |room: &str| {
        folder.run(&[
            "read",
            "rig.hex",
            "reader.hex",
            "data-rig.hex",
            "--room",
            room,
        ])
    };
    read("4").gives("0000 0009\n");
    read("18446744073709551615").gives("0000 0009\n");
    for (room, bytes) in [("3", "3 bytes"), ("1", "1 byte"), ("0", "0 bytes")] {
        read(room).refuses(&format!(
            "data-rig.hex: refused with 50: the output is too small \
             (input 4, the request; place 4): room for {bytes}; 4 bytes needed"
        ));
    }
}

#[test]
fn inputs_are_judged_in_order() {
    let names = [
        "rig.hex",
        "rig-cut.hex",
        "reader.hex",
        "reader-signed.hex",
        "data/rig-cut.hex",
    ];
    let folder = Folder::with_samples("record-order", &names);
    let read = |writer: &str, reader: &str| {
        let ran = folder.run(&["read", writer, reader, "data-rig-cut.hex"]);
        assert_eq!((ran.status, ran.text()), (1, ""));
        ran.complaint()
            .split(" (")
            .nth(1)
            .unwrap_or_default()
            .split(')')
            .next()
            .unwrap_or_default()
            .to_string()
    };
    assert_eq!(
        read("rig-cut.hex", "rig-cut.hex"),
        "input 1, the writer's descriptor; place 0"
    );
    assert_eq!(
        read("rig.hex", "rig-cut.hex"),
        "input 2, the reader's descriptor; place 0"
    );
    assert_eq!(
        read("rig.hex", "reader-signed.hex"),
        "input 3, the data; place 2; in 1 \"id\""
    );
}
