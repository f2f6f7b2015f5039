//! Files that can't be read, and names that can't be shown as they are.

use std::ffi::OsString;
use std::fs;
use std::os::unix::ffi::OsStringExt;
use std::os::unix::fs::PermissionsExt;

use crate::common::descriptors::descriptor;
use crate::common::{Folder, Ran};

/// The words of every command, with a file in each place.
const PLACES: [&[&str]; 20] = [
    &["check", "FILE"],
    &["compare", "FILE", "good"],
    &["compare", "good", "FILE"],
    &["normal", "FILE"],
    &["data", "FILE", "data"],
    &["data", "good", "FILE"],
    &["dump", "FILE", "data"],
    &["dump", "good", "FILE"],
    &["explain", "FILE"],
    &["explain", "good", "FILE"],
    &["value", "FILE", "data"],
    &["value", "good", "FILE"],
    &["view", "FILE", "data"],
    &["view", "good", "FILE"],
    &["little", "FILE", "data"],
    &["little", "good", "FILE"],
    &["big", "good", "FILE"],
    &["read", "FILE", "good", "data"],
    &["read", "good", "FILE", "data"],
    &["read", "good", "good", "FILE"],
];

fn folder(test: &str) -> Folder {
    let folder = Folder::new(test);
    folder.put("good", &descriptor(0x03, &[]));
    folder.put("data", &[0; 4]);
    folder
}

/// Runs every command with this file in each place.
fn everywhere(folder: &Folder, file: &str) -> Vec<Ran> {
    let run = |words: &&[&str]| {
        let words = words
            .iter()
            .map(|word| if *word == "FILE" { file } else { word });
        folder.run(&words.collect::<Vec<_>>())
    };
    PLACES.iter().map(run).collect()
}

#[test]
fn a_missing_file() {
    let folder = folder("files-missing");
    for ran in everywhere(&folder, "missing") {
        ran.troubles("missing: No such file or directory (os error 2)");
    }
    folder
        .run(&["check", "good/x"])
        .troubles("good/x: Not a directory (os error 20)");
    folder
        .run(&["check", ""])
        .troubles(": No such file or directory (os error 2)");
}

#[test]
fn a_folder() {
    let folder = folder("files-folder");
    for ran in everywhere(&folder, ".") {
        ran.troubles(".: Is a directory (os error 21)");
    }
    fs::create_dir(folder.path.join("sub.hex")).expect("it can be made");
    folder
        .run(&["check", "sub.hex"])
        .troubles("sub.hex: Is a directory (os error 21)");
}

#[test]
fn a_file_that_nobody_can_read() {
    let folder = folder("files-unreadable");
    // Nothing is mapped at its start.
    for ran in everywhere(&folder, "/proc/self/mem") {
        ran.troubles("/proc/self/mem: Input/output error (os error 5)");
    }
}

#[test]
fn a_file_that_this_user_may_not_read() {
    let folder = folder("files-forbidden");
    folder.put("forbidden", &descriptor(0x03, &[]));
    let path = folder.path.join("forbidden");
    fs::set_permissions(&path, PermissionsExt::from_mode(0o000)).expect("it is ours");
    let ran = folder.run(&["check", "forbidden"]);
    match fs::read(&path) {
        // Root reads everything.
        Ok(_) => ran.gives("forbidden: accepted, 1 type\n  signed 32-bit integer, 4 bytes at 0\n"),
        Err(_) => ran.troubles("forbidden: Permission denied (os error 13)"),
    }
}

/// Behind trouble with a file's text.
const BY_NAME: &str = " (its name says that it is hexadecimal text)";

#[test]
fn text_that_is_not_hexadecimal() {
    let folder = folder("files-text");
    let half = "a byte has one digit where two are needed";
    for (text, trouble) in [
        (
            &b"0004\n000x"[..],
            "line 2: 'x' is no hexadecimal digit".to_string(),
        ),
        (b"0004 0003 ;", "line 1: ';' is no hexadecimal digit".into()),
        (b"\x1B[2J", "line 1: '\\x1b' is no hexadecimal digit".into()),
        (
            b"# ok\r\n\xC3\xA9",
            "line 2: '\\xc3' is no hexadecimal digit".into(),
        ),
        (b"'", "line 1: '\\'' is no hexadecimal digit".into()),
        (b"0004\n\n000", format!("line 3: {half}")),
        (b"000 4", format!("line 1: {half}")),
        (b"000# 4", format!("line 1: {half}")),
        (b"0004\n0\n003", format!("line 2: {half}")),
        (b"0x04", "line 1: 'x' is no hexadecimal digit".into()),
    ] {
        folder.put("t.hex", text);
        folder
            .run(&["check", "t.hex"])
            .troubles(&format!("t.hex: {trouble}{BY_NAME}"));
        // By the option it is looked for whatever the name.
        folder.put("t", text);
        folder
            .run(&["check", "t", "--hex"])
            .troubles(&format!("t: {trouble}"));
    }
    folder.put("t.hex", b"0004 0003#\x1B\xFF no matter\n#");
    assert_eq!(folder.run(&["check", "t.hex"]).status, 0);
}

#[test]
fn raw_bytes_in_a_file_of_text() {
    let folder = folder("files-raw");
    folder.put("rig.hex", &descriptor(0x03, &[]));
    folder.run(&["check", "rig.hex"]).troubles(&format!(
        "rig.hex: line 1: '\\x00' is no hexadecimal digit{BY_NAME}"
    ));
    let ran = folder.run(&["data", "good", "rig.hex", "--json"]);
    let trouble = ran.json().at("trouble").text().to_string();
    assert!(trouble.ends_with(BY_NAME), "{trouble}");
    assert_eq!(ran.status, 2);
    // What is wrong is not its text.
    folder
        .run(&["check", "none.hex"])
        .troubles("none.hex: No such file or directory (os error 2)");
}

#[test]
fn text_in_a_file_of_raw_bytes() {
    let folder = folder("files-hint");
    let hint = "it looks like hexadecimal text, which --hex reads";
    folder.put("text", b"0004 0003 # an integer\n");
    folder.run(&["check", "text"]).refuses(&format!(
        "text: refused with 4: the size is odd, under 4, or runs past the end of what it stands \
         in (input 1, the descriptor; place 0): [30] 30 30 34 20 30 30 30 33 ..; \
         size 12336, 23 bytes there; {hint}"
    ));
    let facts = |words: &[&str]| {
        let ran = folder.run(&[words, &["--json"]].concat());
        assert_eq!(ran.status, 1, "{words:?}");
        ran.json().at("facts").text().to_string()
    };
    let all = format!("size 12336, 23 bytes there; {hint}");
    assert_eq!(facts(&["compare", "good", "text"]), all);
    folder.put("data", b"00000009");
    let all = format!("4 bytes left; {hint}");
    assert_eq!(facts(&["data", "good", "data"]), all);
    folder.put("data", &[b'0'; 65537]);
    assert_eq!(facts(&["data", "good", "data"]), hint);
    // Half a byte, another character, or nothing but spaces and comments.
    for bytes in [&b"0 0"[..], b"0000000g", b" \n#00", b""] {
        folder.put("data", bytes);
        let facts = facts(&["data", "good", "data"]);
        assert!(!facts.contains(hint), "{bytes:?}: {facts}");
    }
}

/// Names that can't be shown as they are, and how they are shown.
const NAMES: [(&[u8], &str); 8] = [
    (b"a\x1B[31m", "a\\x1B[31m"),
    (b"a\nb\r\t\x07", "a\\x0Ab\\x0D\\x09\\x07"),
    (b"a\"b'c\\", "a\"b'c\\"),
    (b"\xFF\xC3", "\\xFF\\xC3"),
    (b"\xC2\x9B1m", "\\xC2\\x9B1m"),
    (b"\xE2\x80\xAE", "\\xE2\\x80\\xAE"),
    (b"bl\xC3\xA4tt", "blätt"),
    (b"\x7F", "\\x7F"),
];

/// Runs a command on a file of this name, with more words behind it.
fn on(folder: &Folder, command: &str, name: &[u8], more: &[&str]) -> Ran {
    let name = OsString::from_vec(name.to_vec());
    let words = [OsString::from(command), name];
    let more = more.iter().map(OsString::from);
    folder.run(&words.into_iter().chain(more).collect::<Vec<_>>())
}

#[test]
fn names_in_trouble_steer_no_terminal() {
    let folder = folder("files-names-missing");
    for (name, shown) in NAMES {
        let missing = format!("{shown}: No such file or directory (os error 2)");
        on(&folder, "check", name, &[]).troubles(&missing);
        let ran = on(&folder, "check", name, &["--json"]);
        assert_eq!(ran.json().at("trouble").text(), missing);
    }
}

#[test]
fn names_in_answers_steer_no_terminal() {
    let folder = folder("files-names");
    for (name, shown) in NAMES {
        let file = OsString::from_vec(name.to_vec());
        folder.put(&file, &descriptor(0x03, &[]));
        let listed = format!("{shown}: accepted, 1 type\n  signed 32-bit integer, 4 bytes at 0\n");
        on(&folder, "check", name, &[]).gives(&listed);
        let ran = on(&folder, "explain", name, &[]);
        assert!(ran.text().starts_with(&format!("{shown}: 4 bytes")));
        let words = ["normal", "good", "-o"].map(OsString::from);
        let ran = folder.run(&[&words[..], &[file]].concat());
        ran.writes(&format!("{shown}: 4 bytes written"));
    }
}

#[test]
fn names_in_refusals_steer_no_terminal() {
    let folder = folder("files-names-refused");
    for (name, shown) in NAMES {
        folder.put(OsString::from_vec(name.to_vec()), &descriptor(0x32, &[]));
        let refused = format!("{shown}: refused with 5: ");
        for (command, more) in [("check", &[][..]), ("compare", &["good"]), ("explain", &[])] {
            let ran = on(&folder, command, name, more);
            assert!(ran.complaint().starts_with(&refused), "{}", ran.complaint());
        }
        let ran = on(&folder, "check", name, &["--json"]);
        assert_eq!(ran.json().at("file").text(), shown);
    }
}
