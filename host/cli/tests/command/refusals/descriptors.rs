//! 1 to 12: descriptors.

use super::{Refused, meaning};
use crate::common::descriptors::{array, cluster, descriptor, string};
use crate::common::{Folder, hex};

/// A descriptor refused with this number at this place, on this path, with what
/// stands there and the facts.
#[track_caller]
fn descriptor_is_refused(
    test: &str,
    bytes: &[u8],
    number: u32,
    at: (usize, &[usize]),
    [there, facts]: [&str; 2],
) {
    let folder = Folder::new(test);
    folder.put("types", bytes);
    let (place, path) = at;
    let path: Vec<_> = path.iter().map(|step| (*step, None)).collect();
    let refused = Refused {
        number,
        file: "types",
        input: 1,
        role: "the descriptor",
        place,
        path: &path,
        there,
        facts,
    };
    refused.by(&folder, &["check", "types"]);
}

#[test]
fn numbers_1_and_2() {
    let there = ["[00] 00 00 00 00 00 00 00 00 ..", ""];
    descriptor_is_refused("refused-1", &[0; 4097], 1, (0, &[]), there);
    let there = ["[00] 04 00", "3 bytes left"];
    descriptor_is_refused("refused-2", &hex("000400"), 2, (0, &[]), there);
    let nested = hex("0008 0050 0001 0004");
    let there = ["00 08 00 50 00 01 [00] 04", "2 bytes left"];
    descriptor_is_refused("refused-2-in", &nested, 2, (6, &[0]), there);
    let nested = hex("0006 0050 0001");
    let there = ["00 06 00 50 00 01 [end]", "0 bytes left"];
    descriptor_is_refused("refused-2-end", &nested, 2, (6, &[0]), there);
}

#[test]
fn numbers_3_to_5() {
    let there = ["[80] 04 00 03", "size 32772, 4 bytes there"];
    descriptor_is_refused("refused-3", &hex("8004 0003"), 3, (0, &[]), there);
    let there = ["[00] 05 00 03 00", "size 5, 5 bytes there"];
    descriptor_is_refused("refused-4", &hex("0005 0003 00"), 4, (0, &[]), there);
    let second = hex("000E 0050 0002 0004 0002 0006 0007");
    let there = [
        ".. 00 50 00 02 00 04 00 02 [00] 06 00 07",
        "size 6, 4 bytes there",
    ];
    descriptor_is_refused("refused-4-in", &second, 4, (10, &[1]), there);
    let there = [
        "00 04 00 [32]",
        "code 32, no type that is read here; its descriptor starts at 0",
    ];
    descriptor_is_refused("refused-5", &hex("0004 0032"), 5, (3, &[]), there);
    let inner = cluster(&[descriptor(1, &[]), descriptor(0x37, &[])]);
    let there = [
        ".. 02 00 04 00 01 00 04 00 [37]",
        "code 37, no type that is read here; its descriptor starts at 20",
    ];
    descriptor_is_refused("refused-5-in", &array(1, &inner), 5, (23, &[0, 1]), there);
}

#[test]
fn numbers_6_and_7() {
    let deep = (0..8).fold(descriptor(1, &[]), |inner, _| cluster(&[inner]));
    let there = [".. 00 01 00 0A 00 50 00 01 [00] 04 00 01", ""];
    descriptor_is_refused("refused-6", &deep, 6, (48, &[0; 8]), there);
    let many = cluster(&vec![descriptor(1, &[]); 256]);
    let there = [".. 00 04 00 01 00 04 00 01 [00] 04 00 01", ""];
    descriptor_is_refused("refused-7", &many, 7, (1026, &[255]), there);
}

#[test]
fn numbers_8_and_9() {
    let there = [
        "00 04 00 50 [end]",
        "count: 2 bytes needed, 0 left; its descriptor starts at 0 and ends here",
    ];
    descriptor_is_refused("refused-8", &hex("0004 0050"), 8, (4, &[]), there);
    let there = [
        "00 06 00 50 [00] 00",
        "0 members, at least 1 is needed; its descriptor starts at 0",
    ];
    descriptor_is_refused("refused-9", &hex("0006 0050 0000"), 9, (4, &[]), there);
}

#[test]
fn numbers_10_to_12() {
    let arrays = array(1, &array(1, &descriptor(1, &[])));
    let there = [
        ".. 01 FF FF FF FF 00 0E 00 [40] 00 01 FF FF FF FF 00 04 ..",
        "code 40, array in an array; its descriptor starts at 10",
    ];
    descriptor_is_refused("refused-10", &arrays, 10, (13, &[0]), there);
    let there = [
        "00 06 00 03 [02] 61",
        "a name of 2 characters takes 4 bytes, 2 left; its descriptor starts at 0",
    ];
    descriptor_is_refused("refused-11", &hex("0006 0003 0261"), 11, (4, &[]), there);
    let behind = hex("0004 0003 AB CD");
    let there = ["00 04 00 03 [AB] CD", "2 bytes behind it"];
    descriptor_is_refused("refused-12", &behind, 12, (4, &[]), there);
}

#[test]
fn a_refused_descriptor_is_told_by_every_command() {
    let names = ["rig-cut.hex", "rig.hex", "data/rig.hex"];
    let folder = Folder::with_samples("refused-everywhere", &names);
    let refused = |role: &'static str, input| Refused {
        number: 4,
        file: "rig-cut.hex",
        input,
        role,
        place: 0,
        path: &[],
        there: "[00] 14 00 50 00 02 00 06 00 ..",
        facts: "size 20, 16 bytes there",
    };
    for command in ["check", "normal"] {
        refused("the descriptor", 1).by(&folder, &[command, "rig-cut.hex"]);
    }
    for command in ["data", "dump", "value", "view", "little", "big"] {
        refused("the descriptor", 1).by(&folder, &[command, "rig-cut.hex", "data-rig.hex"]);
    }
    let read = |writer, reader| ["read", writer, reader, "data-rig.hex"];
    refused("the writer's descriptor", 1).by(&folder, &read("rig-cut.hex", "rig.hex"));
    refused("the reader's descriptor", 2).by(&folder, &read("rig.hex", "rig-cut.hex"));
    refused("the second descriptor", 2).by(&folder, &["compare", "rig.hex", "rig-cut.hex"]);
}

#[test]
fn a_place_far_behind_is_told_by_every_command() {
    let folder = Folder::new("refused-far");
    let mut members = vec![string(); 200];
    members[199][4] = 0;
    folder.put("types", &cluster(&members));
    folder.put("good", &descriptor(0x05, &[]));
    folder.put("data", &[0]);
    let line = |role: &str| {
        format!(
            "types: refused with 10: {} ({role}; place 1602; in 199): \
             .. FF FF FF FF 00 08 00 30 [00] FF FF FF; length: 00FFFFFF, not FFFFFFFF; \
             its descriptor starts at 1598",
            meaning(10)
        )
    };
    let alone = line("input 1, the descriptor");
    for words in [
        &["check", "types"][..],
        &["normal", "types"],
        &["data", "types", "data"],
    ] {
        folder.run(words).refuses(&alone);
    }
    for command in ["dump", "value", "view", "little", "big"] {
        folder.run(&[command, "types", "data"]).refuses(&alone);
    }
    for words in [
        &["explain", "types"][..],
        &["explain", "types", "data", "--html"],
    ] {
        let ran = folder.run(words);
        assert_eq!((ran.status, ran.complaint()), (1, &alone[..]));
    }
    let second = line("input 2, the second descriptor");
    folder.run(&["compare", "good", "types"]).refuses(&second);
    let reader = line("input 2, the reader's descriptor");
    folder
        .run(&["read", "good", "types", "data"])
        .refuses(&reader);
}
