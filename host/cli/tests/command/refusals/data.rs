//! 20 to 31: data and paths.

use super::{Path, Refused, request};
use crate::common::descriptors::{array, cluster, descriptor, enumeration, named, string};
use crate::common::{Folder, hex};

/// Data refused under a descriptor with this number at this place, on this path,
/// with what stands there and the facts.
#[track_caller]
fn data_is_refused(
    test: &str,
    files: [&[u8]; 2],
    number: u32,
    at: (usize, Path),
    [there, facts]: [&str; 2],
) {
    let folder = Folder::new(test);
    folder.put("types", files[0]);
    folder.put("data", files[1]);
    let refused = Refused {
        number,
        file: "data",
        input: 3,
        role: "the data",
        place: at.0,
        path: at.1,
        there,
        facts,
    };
    for command in ["data", "dump", "value", "view", "little"] {
        refused.by(&folder, &[command, "types", "data"]);
    }
}

#[test]
fn numbers_20_and_21() {
    let byte = descriptor(0x05, &[]);
    let zeros = "[00] 00 00 00 00 00 00 00 00 ..";
    data_is_refused(
        "refused-20",
        [&byte, &[0; 65537]],
        20,
        (0, &[]),
        [zeros, ""],
    );
    let note = cluster(&[byte.clone(), named(string(), b"no\x1Bte")]);
    let cut = hex("07 00000004 616263");
    let path: Path = &[(1, Some("no\u{1b}te"))];
    let shown: Path = &[(1, Some("no\\x1Bte"))];
    let folder = Folder::new("refused-21");
    folder.put("types", &note);
    folder.put("data", &cut);
    let ran = folder.run(&["data", "types", "data", "--json"]);
    let refused = Refused {
        number: 21,
        file: "data",
        input: 3,
        role: "the data",
        place: 1,
        path,
        there: "07 [00] 00 00 04 61 62 63",
        facts: "length 4, 3 bytes behind it",
    };
    assert_eq!(ran.json(), refused.json());
    assert_eq!(
        ran.complaint(),
        Refused {
            path: shown,
            ..refused
        }
        .line()
    );
}

#[test]
fn numbers_22_23_and_25() {
    let byte = descriptor(0x05, &[]);
    let list = named(cluster(&[named(array(2, &byte), b"list")]), b"top");
    let sizes = hex("00000001 80000000");
    let path: Path = &[(0, Some("list"))];
    let there = ["[00] 00 00 01 80 00 00 00", "sizes 1 x 2147483648"];
    data_is_refused("refused-22", [&list, &sizes], 22, (0, path), there);
    let modes = array(1, &cluster(&[named(enumeration(0x16, &[b"on"]), b"mode")]));
    let third = hex("00000003 0000 0000 0001");
    let path: Path = &[(2, None), (0, Some("mode"))];
    let there = ["00 00 00 03 00 00 00 00 [00] 01", "number 1 of 1 item"];
    data_is_refused("refused-23", [&modes, &third], 23, (8, path), there);
    let there = ["01 [02] 03", "2 bytes left"];
    data_is_refused("refused-25", [&byte, &[1, 2, 3]], 25, (1, &[]), there);
}

#[test]
fn numbers_30_and_31() {
    let folder = Folder::with_samples("refused-30", &["bath.hex", "data/bath.hex"]);
    let words =
        |command, steps: &[&'static str]| [&[command, "bath.hex", "data-bath.hex"], steps].concat();
    let refused = Refused {
        path: &[(2, Some("profile"))],
        there: "steps profile [3]; array of 1 dimension \"profile\"",
        ..request(30, 1)
    };
    refused.by(&folder, &words("value", &["profile", "3"]));
    refused.by(&folder, &words("view", &["profile", "3"]));
    let refused = Refused {
        path: &[(3, Some("blank")), (1, Some("note"))],
        there: "steps blank 1; string \"note\"",
        ..request(31, 0)
    };
    refused.by(&folder, &words("value", &["blank", "1"]));
    let there = "no steps; cluster of 4 members \"bath\"";
    Refused {
        there,
        ..request(31, 0)
    }
    .by(&folder, &words("value", &[]));
}
