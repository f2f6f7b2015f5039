//! Time stamps: what is wrong in one (5, 8, 10), what is refused of their data and
//! of a path (21, 30, 31), and 32, a difference that is too long.

use super::{Path, Refused, around};
use crate::common::descriptors::{array, cluster, descriptor, halves, named, time_stamp};
use crate::common::{Folder, hex};

/// A time stamp's descriptor with this subtype and this inside.
fn stamp_of(subtype: u8, inside: &[u8]) -> Vec<u8> {
    descriptor(0x54, &[&[0, subtype], inside].concat())
}

/// A cluster whose second member is this, refused there with this number, on this
/// path in it, at this place in it.
#[track_caller]
fn member_is_refused(test: &str, member: &[u8], number: u32, at: (usize, &[usize]), facts: &str) {
    let folder = Folder::new(test);
    let first = named(descriptor(0x05, &[]), b"n");
    let types = cluster(&[first, member.to_vec()]);
    folder.put("types", &types);
    let place = 12 + at.0;
    let path: Vec<_> = [&[1], at.1]
        .concat()
        .iter()
        .map(|&step| (step, None))
        .collect();
    let refused = Refused {
        number,
        file: "types",
        input: 1,
        role: "the descriptor",
        place,
        path: &path,
        there: &around(&types, place),
        facts,
    };
    refused.by(&folder, &["check", "types"]);
    // Whatever is asked of it, the answer is the same.
    folder.put("data", &[0; 17]);
    refused.by(&folder, &["difference", "types", "data", "1", "1"]);
}

#[test]
fn a_subtype_that_is_missing_or_another() {
    let bare = descriptor(0x54, &[]);
    let facts = "subtype: 2 bytes needed, 0 left; its descriptor starts at 12 and ends here";
    member_is_refused("stamps-8", &bare, 8, (4, &[]), facts);
    let other = stamp_of(7, &halves());
    let facts = "subtype 7, not 6; its descriptor starts at 12";
    member_is_refused("stamps-5", &other, 5, (3, &[]), facts);
    let mut high = time_stamp();
    high[4] = 1;
    let facts = "subtype 262, not 6; its descriptor starts at 12";
    member_is_refused("stamps-5-high", &high, 5, (3, &[]), facts);
}

#[test]
fn anything_else_inside() {
    let facts = "inside is no cluster of 03, 03, 07 and 07, all without names";
    let of = |codes: &[u8]| {
        let members: Vec<_> = codes.iter().map(|&code| descriptor(code, &[])).collect();
        stamp_of(6, &cluster(&members))
    };
    let inner = {
        let mut members = [3, 3, 7, 7].map(|code| descriptor(code, &[]));
        members[2] = named(members[2].clone(), b"f");
        stamp_of(6, &cluster(&members))
    };
    for (test, stamp) in [
        ("stamps-10-order", of(&[3, 7, 3, 7])),
        ("stamps-10-three", of(&[3, 3, 7])),
        ("stamps-10-five", of(&[3, 3, 7, 7, 7])),
        ("stamps-10-wide", of(&[3, 3, 7, 8])),
        ("stamps-10-number", stamp_of(6, &descriptor(0x0A, &[]))),
        ("stamps-10-stamp", stamp_of(6, &time_stamp())),
        ("stamps-10-array", stamp_of(6, &array(1, &halves()))),
        ("stamps-10-name", stamp_of(6, &named(halves(), b"c"))),
        ("stamps-10-member", inner),
    ] {
        member_is_refused(test, &stamp, 10, (0, &[]), facts);
    }
}

#[test]
fn what_is_inside_is_judged_first_and_the_name_last() {
    let mut code = time_stamp();
    code[15] = 0x32;
    let facts = "code 32, no type that is read here; its descriptor starts at 24";
    member_is_refused("stamps-inside", &code, 5, (15, &[0, 0]), facts);
    let missing = stamp_of(6, &[]);
    member_is_refused("stamps-empty", &missing, 2, (6, &[0]), "0 bytes left");
    let mut rest = named(time_stamp(), b"abc");
    rest[28] = 9;
    let facts = "a name of 9 characters takes 10 bytes, 4 left; its descriptor starts at 12";
    member_is_refused("stamps-name", &rest, 11, (28, &[]), facts);
    rest[15] = 7;
    let facts = "inside is no cluster of 03, 03, 07 and 07, all without names";
    member_is_refused("stamps-order", &rest, 10, (0, &[]), facts);
}

/// A record of two stamps, "a" and "b".
fn two(test: &str) -> Folder {
    let folder = Folder::new(test);
    let member = |name: &[u8]| named(time_stamp(), name);
    folder.put("types", &cluster(&[member(b"a"), member(b"b")]));
    folder
}

fn refused(number: u32, place: usize) -> Refused<'static> {
    Refused {
        number,
        file: "data",
        input: 4,
        role: "the request",
        place,
        path: &[],
        there: "",
        facts: "",
    }
}

#[test]
fn data_that_ends_in_a_stamp() {
    let folder = two("stamps-21");
    folder.put("data", &[0; 26]);
    let path: Path = &[(1, Some("b")), (0, None), (2, None)];
    let cut = Refused {
        input: 3,
        role: "the data",
        path,
        there: ".. 00 00 00 00 00 00 00 00 [00] 00",
        facts: "4 bytes needed, 2 left",
        ..refused(21, 24)
    };
    for command in ["data", "dump", "value", "view", "little"] {
        cut.by(&folder, &[command, "types", "data"]);
    }
    cut.by(&folder, &["difference", "types", "data", "a", "a"]);
    folder.put("whole", &[0; 32]);
    let words = ["difference", "types", "whole", "a", "types", "data", "a"];
    cut.by(&folder, &words);
    // A stamp that is not whole has no date.
    let ran = folder.run(&["explain", "types", "data"]);
    let tail = "\
   12  000C  00 00 00 00                      3 unsigned 32-bit integer = 0
                                          1 \"b\" time stamp
                                            0 cluster of 4 members
   16  0010  00 00 00 00                      0 signed 32-bit integer = 0
   20  0014  00 00 00 00                      1 signed 32-bit integer = 0
   24  0018 [00]00                            2 unsigned 32-bit integer: refused, \
         4 bytes needed, 2 left
             ^                          refused with 21: the data ends inside this piece
";
    assert!(ran.text().ends_with(tail), "{}", ran.text());
}

#[test]
fn steps_into_a_stamp() {
    let folder = two("stamps-30");
    folder.put("data", &[0; 32]);
    let path: Path = &[(1, Some("b"))];
    let nowhere = |there| Refused {
        path,
        there,
        ..refused(30, 1)
    };
    let there = "steps b [1]; time stamp \"b\"";
    nowhere(there).by(&folder, &["value", "types", "data", "b", "1"]);
    nowhere(there).by(&folder, &["view", "types", "data", "b", "1"]);
    nowhere(there).by(&folder, &["difference", "types", "data", "a", "b 1"]);
    nowhere("steps b [1] x; time stamp \"b\"")
        .by(&folder, &["difference", "types", "data", "b 1 x", "nobody"]);
    let no_number = Refused {
        path,
        there: "steps b; time stamp \"b\"",
        ..refused(31, 0)
    };
    no_number.by(&folder, &["value", "types", "data", "b"]);
    let inside = Refused {
        path: &[(1, Some("b")), (0, None)],
        there: "steps b 0; cluster of 4 members",
        ..refused(31, 0)
    };
    inside.by(&folder, &["value", "types", "data", "b", "0"]);
    for command in ["value", "view"] {
        folder
            .run(&[command, "types", "data", "b", "x"])
            .troubles("types: x is no part of a time stamp, whose one part is 0");
    }
}

#[test]
fn number_32() {
    let folder = two("stamps-32");
    let far = |first: &str, second: &str, there: &str, facts: &str| {
        folder.put("data", &hex(&format!("{first} {second}")));
        let long = Refused {
            there,
            facts,
            ..refused(32, 0)
        };
        long.by(&folder, &["difference", "types", "data", "a", "b"]);
        folder.put("other", &hex(&format!("{second} {first}")));
        let words = ["difference", "types", "data", "0", "types", "other", "0"];
        let file = "data and other";
        Refused { file, ..long }.by(&folder, &words);
        // One file in both places is named once.
        let words = ["difference", "types", "data", "0", "types", "data", "1"];
        long.by(&folder, &words);
    };
    far(
        "7FFFFFFF FFFFFFFF 00000000 00000000",
        "FFFFFFFF FFFFFFFF 00000000 00000000",
        "292277026530-12-04 15:30:07 UTC less 1903-12-31 23:59:59 UTC",
        "9223372036854775808 seconds",
    );
    // It is the borrowed second that doesn't fit.
    far(
        "80000000 00000000 00000000 00000000",
        "00000000 00000000 80000000 00000000",
        "-292277022723-01-25 08:29:52 UTC less 1904-01-01 00:00:00.5 UTC",
        "-9223372036854775809 seconds",
    );
    let most = "7FFFFFFF FFFFFFFF C0000000 00000000";
    let least = "80000000 00000000 80000000 00000000";
    folder.put("data", &hex(&format!("{most} {least}")));
    let line = folder.run(&["difference", "types", "data", "b", "a"]);
    assert!(
        line.complaint()
            .ends_with("; -18446744073709551616 seconds")
    );
}
