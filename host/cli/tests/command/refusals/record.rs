//! 40 to 50: records and outputs.

use super::{Path, Refused, request};
use crate::common::Folder;
use crate::common::descriptors::{cluster, descriptor, named};

/// A reader's member that is refused.
fn member(number: u32, place: usize) -> Refused<'static> {
    Refused {
        number,
        file: "reader",
        input: 2,
        role: "the reader's descriptor",
        place,
        path: &[],
        there: "",
        facts: "",
    }
}

const READ: [&str; 4] = ["read", "writer", "reader", "data"];

/// A folder with these descriptors and data of zeros.
fn record(test: &str, writer: &[u8], reader: &[u8], length: usize) -> Folder {
    let folder = Folder::new(test);
    folder.put("writer", writer);
    folder.put("reader", reader);
    folder.put("data", &vec![0; length]);
    folder
}

fn id(code: u8) -> Vec<u8> {
    named(descriptor(code, &[]), b"id")
}

#[test]
fn number_40_for_each_reason() {
    let plain = descriptor(0x03, &[]);
    let one = cluster(&[id(0x07)]);
    let there = "signed 32-bit integer";
    let no_cluster = Refused {
        there,
        ..member(40, 0)
    };
    no_cluster.by(&record("refused-40", &plain, &plain, 4), &READ);
    let nameless = cluster(&[id(0x07), plain.clone()]);
    let refused = Refused {
        path: &[(1, None)],
        there,
        ..member(40, 1)
    };
    refused.by(&record("refused-40-none", &one, &nameless, 4), &READ);
    let empty = cluster(&[named(plain, b"")]);
    let there = "signed 32-bit integer \"\"";
    let refused = Refused {
        path: &[(0, Some(""))],
        there,
        ..member(40, 0)
    };
    refused.by(&record("refused-40-empty", &one, &empty, 4), &READ);
    let twice = cluster(&[id(0x07), id(0x05)]);
    let there = "unsigned 8-bit integer \"id\"";
    let refused = Refused {
        path: &[(1, Some("id"))],
        there,
        ..member(40, 1)
    };
    refused.by(&record("refused-40-twice", &one, &twice, 4), &READ);
}

#[test]
fn number_41() {
    let refused = Refused {
        file: "writer",
        input: 1,
        role: "the writer's descriptor",
        there: "signed 32-bit integer \"x\"",
        ..member(41, 0)
    };
    let plain = named(descriptor(0x03, &[]), b"x");
    let reader = cluster(&[id(0x07)]);
    refused.by(&record("refused-41", &plain, &reader, 4), &READ);
}

#[test]
fn numbers_42_and_43() {
    let one = cluster(&[id(0x07)]);
    let path: Path = &[(0, Some("id"))];
    let there = "unsigned 32-bit integer \"id\"";
    let none = cluster(&[named(descriptor(0x07, &[]), b"no")]);
    let refused = Refused {
        path,
        there,
        facts: "the writer has \"no\"",
        ..member(42, 0)
    };
    refused.by(&record("refused-42", &none, &one, 4), &READ);
    let twice = cluster(&[id(0x07), id(0x05)]);
    let refused = Refused {
        path,
        there,
        facts: "the writer's members 0, 1 have it",
        ..member(43, 0)
    };
    refused.by(&record("refused-43", &twice, &one, 5), &READ);
}

#[test]
fn number_44_says_how_the_types_differ() {
    let one = cluster(&[id(0x07)]);
    let refused = Refused {
        path: &[(0, Some("id"))],
        there: "unsigned 32-bit integer \"id\"",
        facts: "first difference: the type is unsigned 32-bit integer here \
                and signed 32-bit integer in the writer",
        ..member(44, 0)
    };
    refused.by(&record("refused-44", &cluster(&[id(0x03)]), &one, 4), &READ);
    let of = |code| {
        named(
            cluster(&[id(0x05), named(descriptor(code, &[]), b"v")]),
            b"b",
        )
    };
    let writer = cluster(&[id(0x05), of(0x09)]);
    let refused = Refused {
        path: &[(1, Some("b"))],
        there: "cluster of 2 members \"b\"",
        facts: "first difference in 1 \"v\": the type is double here and single in the writer",
        ..member(44, 1)
    };
    let reader = cluster(&[id(0x05), of(0x0A)]);
    refused.by(&record("refused-44-in", &writer, &reader, 6), &READ);
}

#[test]
fn number_50_by_each_command_with_an_output() {
    let names = [
        "rig.hex",
        "reader.hex",
        "data/rig.hex",
        "data/rig-little.hex",
    ];
    let folder = Folder::with_samples("refused-50", &names);
    folder.put("out", b"as it was");
    let cases: [(&[&str], &str, usize); 4] = [
        (&["normal", "rig.hex"], "rig.hex", 20),
        (&["little", "rig.hex", "data-rig.hex"], "data-rig.hex", 6),
        (
            &["big", "rig.hex", "data-rig-little.hex"],
            "data-rig-little.hex",
            6,
        ),
        (
            &["read", "rig.hex", "reader.hex", "data-rig.hex"],
            "data-rig.hex",
            4,
        ),
    ];
    for (words, file, place) in cases {
        let refused = Refused {
            file,
            there: "room for 3 bytes",
            facts: &format!("{place} bytes needed"),
            ..request(50, place)
        };
        refused.by(&folder, &[words, &["--room", "3"]].concat());
        refused.by(&folder, &[words, &["--room=3", "-o", "out"]].concat());
        assert_eq!(folder.read("out"), b"as it was");
        let room = place.to_string();
        assert_eq!(folder.run(&[words, &["--room", &room]].concat()).status, 0);
    }
}
