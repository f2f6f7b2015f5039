//! Bytes that are given: as text, raw on standard output, or in a file.

use crate::common::{Folder, hex};

const NORMAL: &str = "0014 0050 0002 0006 0002 0174 0008 0007\n0269 6400\n";

fn rig(test: &str) -> Folder {
    let names = [
        "rig-reserved.hex",
        "rig.hex",
        "reader.hex",
        "data/rig.hex",
        "data/rig-little.hex",
    ];
    Folder::with_samples(test, &names)
}

#[test]
fn the_normal_form_as_text() {
    let folder = rig("output-text");
    folder.run(&["normal", "rig-reserved.hex"]).gives(NORMAL);
    folder.run(&["normal", "rig.hex"]).gives(NORMAL);
}

#[test]
fn the_name_of_a_file_says_its_kind() {
    let folder = rig("output-file");
    let bytes = hex(&NORMAL.replace('\n', " "));
    folder
        .run(&["normal", "rig-reserved.hex", "-o", "out.bin"])
        .writes("out.bin: 20 bytes written");
    assert_eq!(folder.read("out.bin"), bytes);
    for name in ["out.hex", "out.HEX", "out.Hex", ".hex"] {
        let written = format!("{name}: 20 bytes written");
        folder
            .run(&["normal", "rig-reserved.hex", "-o", name])
            .writes(&written);
        assert_eq!(folder.read(name), NORMAL.as_bytes());
        folder.run(&["compare", "rig.hex", name]).gives("equal\n");
    }
    // These names have no such ending.
    for name in ["hex", "out.hex.bin", "out.hexa"] {
        assert_eq!(
            folder
                .run(&["normal", "rig-reserved.hex", "-o", name])
                .status,
            0
        );
        assert_eq!(folder.read(name), bytes);
    }
}

#[test]
fn a_dash_is_raw_standard_output() {
    let folder = rig("output-raw");
    let raw = |words: &[&str], bytes: &str| {
        let ran = folder.run(&[words, &["-o", "-"]].concat());
        assert_eq!((ran.status, ran.out), (0, hex(bytes)));
    };
    raw(&["normal", "rig-reserved.hex"], &NORMAL.replace('\n', ""));
    raw(&["little", "rig.hex", "data-rig.hex"], "1900 0900 0000");
    raw(&["big", "rig.hex", "data-rig-little.hex"], "0019 0000 0009");
    raw(
        &["read", "rig.hex", "reader.hex", "data-rig.hex"],
        "0000 0009",
    );
    raw(&["view", "rig.hex", "data-rig.hex", "t"], "0019");
    assert!(!folder.names().contains(&"-".to_string()));
}

#[test]
fn every_command_with_an_output_writes_a_file() {
    let folder = rig("output-each");
    for (words, bytes) in [
        (&["little", "rig.hex", "data-rig.hex"][..], "1900 0900 0000"),
        (&["big", "rig.hex", "data-rig-little.hex"], "0019 0000 0009"),
        (
            &["read", "rig.hex", "reader.hex", "data-rig.hex"],
            "0000 0009",
        ),
        (&["view", "rig.hex", "data-rig.hex"], "0019 0000 0009"),
    ] {
        let length = hex(bytes).len();
        let written = format!("out: {length} bytes written");
        folder
            .run(&[words, &["-o", "out"]].concat())
            .writes(&written);
        assert_eq!(folder.read("out"), hex(bytes));
    }
}

#[test]
fn the_room_of_the_normal_form() {
    let folder = rig("output-room");
    folder
        .run(&["normal", "rig.hex", "--room", "20"])
        .gives(NORMAL);
    folder.run(&["normal", "rig.hex", "--room", "19"]).refuses(
        "rig.hex: refused with 50: the output is too small \
         (input 4, the request; place 20): room for 19 bytes; 20 bytes needed",
    );
}
