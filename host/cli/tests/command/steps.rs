//! `value` and `view`: steps by numbers and by names.

use std::ffi::OsString;
use std::os::unix::ffi::OsStringExt;

use crate::common::descriptors::{array, cluster, descriptor, enumeration, named, string};
use crate::common::{Folder, hex};

fn bath(test: &str) -> Folder {
    Folder::with_samples(test, &["bath.hex", "data/bath.hex"])
}

fn on_bath(folder: &Folder, command: &str, steps: &[&str]) -> crate::common::Ran {
    folder.run(&[&[command, "bath.hex", "data-bath.hex"], steps].concat())
}

#[test]
fn a_value_by_numbers_and_by_names() {
    let folder = bath("steps-value");
    let value = |steps: &[&str], text: &str| {
        on_bath(&folder, "value", steps).gives(&format!("{text}\n"));
    };
    value(&["0"], "1");
    value(&["mode"], "1");
    value(&["1"], "298.15");
    value(&["temp"], "298.15");
    value(&["\"temp\""], "298.15");
    value(&["2", "1"], "21.25");
    value(&["profile", "2"], "22.0");
    value(&["3", "0"], "9");
    value(&["blank", "id"], "9");
    value(&["blank", "0"], "9");
    value(&["3", "id"], "9");
    value(&["blank", "ok"], "true");
}

#[test]
fn the_one_number_of_plain_data_has_no_steps() {
    let folder = Folder::new("steps-none");
    for (code, data, text) in [
        (0x01, "FF", "-1"),
        (0x08, "FFFFFFFFFFFFFFFF", "18446744073709551615"),
        (0x09, "3DCCCCCD", "0.1"),
        (0x09, "7FC00001", "NaN 7FC00001"),
        (0x09, "FF800000", "-inf"),
        (0x0A, "8000000000000000", "-0.0"),
        (0x0A, "400921FB54442D18", "3.141592653589793"),
        (0x0A, "7FF0000000000001", "NaN 7FF0000000000001"),
        (0x21, "00", "false"),
    ] {
        folder.put("types", &descriptor(code, &[]));
        folder.put("data", &hex(data));
        folder
            .run(&["value", "types", "data"])
            .gives(&format!("{text}\n"));
    }
}

#[test]
fn a_view_is_text_that_can_be_read_again() {
    let folder = bath("steps-view");
    let note = "# 15 bytes at 29\n0000 000B 7365 636F 6E64 2063 6F61 74\n";
    on_bath(&folder, "view", &["3", "1"]).gives(note);
    on_bath(&folder, "view", &["blank", "note"]).gives(note);
    on_bath(&folder, "view", &["profile"])
        .gives("# 16 bytes at 9\n0000 0003 41A4 0000 41AA 0000 41B0 0000\n");
    on_bath(&folder, "view", &["mode"]).gives("# 1 byte at 0\n01\n");
    let whole = on_bath(&folder, "view", &[]);
    assert!(
        whole
            .text()
            .starts_with("# 45 bytes at 0\n0140 72A2 6666 6666 6600 0000 0341 A400\n")
    );
    folder.put("note.hex", note.as_bytes());
    folder.put("string", &string());
    folder
        .run(&["dump", "string", "note.hex"])
        .gives("note.hex: accepted, 1 piece\n  -  string = \"second coat\", 15 bytes at 0\n");
}

#[test]
fn a_view_goes_to_a_file() {
    let folder = bath("steps-view-file");
    on_bath(&folder, "view", &["blank", "id", "-o", "id"]).writes("id: 4 bytes written");
    assert_eq!(folder.read("id"), [0, 0, 0, 9]);
    on_bath(&folder, "view", &["blank", "id", "-o", "id.HEX"]).writes("id.HEX: 4 bytes written");
    assert_eq!(folder.read("id.HEX"), b"0000 0009\n");
    assert_eq!(
        on_bath(&folder, "view", &["blank", "id", "-o", "-"]).out,
        [0, 0, 0, 9]
    );
}

/// The names of [`odd`], as they are listed.
const ODD: &str =
    r#""twice", "twice", "7", "\xE9", "a\"b\\", "", "--all", "\x1B", "list", one without a name"#;

/// A cluster with names that can't be taken as they are.
fn odd(test: &str) -> Folder {
    let number = |name: &[u8]| named(descriptor(0x05, &[]), name);
    let list = named(array(1, &number(b"e")), b"list");
    let names = [
        b"twice",
        &b"twice"[..],
        b"7",
        b"\xE9",
        b"a\"b\\",
        b"",
        b"--all",
        b"\x1B",
    ];
    let mut members: Vec<_> = names.iter().map(|name| number(name)).collect();
    members.extend([list, descriptor(0x05, &[])]);
    let folder = Folder::new(test);
    folder.put("types", &cluster(&members));
    folder.put("data", &hex("00 01 02 03 04 05 06 07 00000001 08 09"));
    folder
}

#[test]
fn odd_names_are_written_in_quotes_or_behind_dashes() {
    let folder = odd("steps-odd");
    let value = |steps: &[&str], text: &str| {
        folder
            .run(&[&["value", "types", "data"], steps].concat())
            .gives(&format!("{text}\n"));
    };
    value(&["7"], "7");
    value(&["\"7\""], "2");
    value(&["\"\\xE9\""], "3");
    value(&["\"\\xe9\""], "3");
    value(&["a\"b\\"], "4");
    value(&["\"a\\\"b\\\\\""], "4");
    value(&[""], "5");
    value(&["\"\""], "5");
    value(&["--", "--all"], "6");
    value(&["\"\\x1B\""], "7");
    value(&["list", "0"], "8");
    value(&["00000000009"], "9");
    let words = ["value", "types", "data"].map(OsString::from);
    let raw = OsString::from_vec(vec![0xE9]);
    folder.run(&[&words[..], &[raw]].concat()).gives("3\n");
}

#[test]
fn a_name_that_leads_to_no_member_is_trouble() {
    let folder = odd("steps-no-name");
    let none = |name| format!("types: no member has the name {name}; there are {ODD}");
    for (steps, line) in [
        (
            &["twice"][..],
            "types: the name twice is that of several members, 0 and 1 among them: take the number",
        ),
        (&["nine"], &none("nine")),
        (&["é\u{1b}"], &none("é\\x1B")),
        (
            &["list", "e"],
            "types: e is no element's number, and this is an array of 1 dimension",
        ),
        (&["\"list"], "types: \"list is no name in quotes"),
        (&["\"list\"x"], "types: \"list\"x is no name in quotes"),
        (
            &["4294967296"],
            "types: 4294967296 is no step: 4294967295 is the highest",
        ),
    ] {
        for command in ["value", "view"] {
            folder
                .run(&[&[command, "types", "data"], steps].concat())
                .troubles(line);
        }
    }
}

#[test]
fn a_step_that_leads_nowhere_is_refused_before_the_name_behind_it() {
    let folder = odd("steps-nowhere");
    let meaning = "the step leads nowhere: there is no such part";
    let run = |steps: &[&str], place: usize, within: &str, there: &str| {
        for command in ["value", "view"] {
            folder.run(&[&[command, "types", "data"], steps].concat()).refuses(&format!(
                "data: refused with 30: {meaning} (input 4, the request; place {place}{within}): {there}"
            ));
        }
    };
    let whole = "cluster of 10 members";
    run(&["10"], 0, "", &format!("steps [10]; {whole}"));
    run(&["10", "nine"], 0, "", &format!("steps [10] nine; {whole}"));
    let one = "unsigned 8-bit integer \"twice\"";
    run(
        &["0", "nine"],
        1,
        "; in 0 \"twice\"",
        &format!("steps 0 [nine]; {one}"),
    );
    let list = "array of 1 dimension \"list\"";
    run(
        &["list", "1"],
        1,
        "; in 8 \"list\"",
        &format!("steps list [1]; {list}"),
    );
    run(
        &["list", "1", "\n"],
        1,
        "; in 8 \"list\"",
        &format!("steps list [1] \\x0A; {list}"),
    );
}

#[test]
fn refused_bytes_come_before_the_steps() {
    let folder = odd("steps-refused");
    folder.put("cut", &hex("00"));
    folder.put("bad", &hex("0004"));
    let first = |words: &[&str]| folder.run(words).complaint().to_string();
    let line = first(&["value", "types", "cut", "nine"]);
    assert!(line.starts_with("cut: refused with 21: "), "{line}");
    let line = first(&["view", "bad", "cut", "nine"]);
    assert!(line.starts_with("bad: refused with 2: "), "{line}");
}

#[test]
fn an_enumeration_is_given_by_its_number() {
    let folder = Folder::new("steps-enumeration");
    folder.put("types", &enumeration(0x17, &[b"on", b"off"]));
    folder.put("data", &hex("00000001"));
    folder.run(&["value", "types", "data"]).gives("1\n");
}
