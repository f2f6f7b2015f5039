//! Inputs over the limits are answered, and read no further than that needs.

use crate::common::descriptors::{array, cluster, descriptor, named, string};
use crate::common::{Folder, Ran};

const ONE: &str =
    "refused with 1: the descriptor has more than 4,096 bytes (input 1, the descriptor; place 0): ";
const TWENTY: &str =
    "refused with 20: the data has more than 65,536 bytes (input 3, the data; place 0): ";
const ZEROS: &str = "[00] 00 00 00 00 00 00 00 00 ..";

/// Runs a line of the shell with so little memory that an input without end would
/// not fit.
fn bounded(folder: &Folder, line: &str) -> Ran {
    Ran::of(folder.shell(&format!("ulimit -v 65536; {line}")))
}

fn folder(test: &str) -> Folder {
    let folder = Folder::new(test);
    folder.put("types", &array(1, &descriptor(0x05, &[])));
    folder
}

#[test]
fn a_file_without_end() {
    let folder = folder("limits-zero");
    for words in [
        "check /dev/zero",
        "normal /dev/zero",
        "data /dev/zero types",
    ] {
        let line = format!("/dev/zero: {ONE}{ZEROS}");
        bounded(&folder, &format!("exec \"$K\" {words}")).refuses(&line);
    }
    for words in [
        "data types /dev/zero",
        "dump types /dev/zero",
        "big types /dev/zero",
    ] {
        let line = format!("/dev/zero: {TWENTY}{ZEROS}");
        bounded(&folder, &format!("exec \"$K\" {words}")).refuses(&line);
    }
    let ran = bounded(&folder, "exec \"$K\" explain types /dev/zero");
    assert_eq!(ran.status, 1);
    assert!(
        ran.text().contains("\n/dev/zero: refused with 20\n"),
        "{}",
        ran.text()
    );
}

#[test]
fn a_pipe_without_end() {
    let folder = folder("limits-pipe");
    bounded(&folder, "yes | \"$K\" check -").refuses(&format!(
        "standard input: {ONE}[79] 0A 79 0A 79 0A 79 0A 79 .."
    ));
    bounded(&folder, "yes | \"$K\" data types -").refuses(&format!(
        "standard input: {TWENTY}[79] 0A 79 0A 79 0A 79 0A 79 .."
    ));
    bounded(&folder, "mkfifo pipe; yes > pipe & exec \"$K\" check pipe")
        .refuses(&format!("pipe: {ONE}[79] 0A 79 0A 79 0A 79 0A 79 .."));
}

#[test]
fn text_without_end() {
    let folder = folder("limits-text");
    bounded(&folder, "yes 00 | \"$K\" check - --hex")
        .refuses(&format!("standard input: {ONE}{ZEROS}"));
    folder.put("types.hex", b"000E 0040 0001 FFFF FFFF 0004 0005");
    bounded(&folder, "yes 0000 | \"$K\" data types.hex - --hex")
        .refuses(&format!("standard input: {TWENTY}{ZEROS}"));
}

#[test]
fn comments_take_no_memory() {
    let folder = folder("limits-comments");
    // One comment of 200 million characters, and as many in lines.
    let listed = "standard input: accepted, 1 type\n  signed 32-bit integer, 4 bytes at 0\n";
    let comment = "{ printf '0004 # '; yes | head -c 200000000 | tr -d '\\n'; printf '\\n0003'; }";
    bounded(&folder, &format!("{comment} | \"$K\" check - --hex")).gives(listed);
    let lines = "{ printf '0004 '; yes '# y' | head -c 200000000; printf '0003'; }";
    bounded(&folder, &format!("{lines} | \"$K\" check - --hex")).gives(listed);
}

#[test]
fn the_last_descriptor_within_the_limit() {
    let folder = Folder::new("limits-descriptor");
    // The head of 6 bytes, 15 members of 260, and one of 190.
    let member = |length: usize| named(descriptor(0x05, &[]), &vec![b'n'; length]);
    let mut members = vec![member(255); 15];
    members.push(member(185));
    let mut types = cluster(&members);
    assert_eq!(types.len(), 4096);
    folder.put("most", &types);
    let ran = folder.run(&["check", "most"]);
    assert_eq!(ran.status, 0);
    assert!(ran.text().starts_with("most: accepted, 17 types\n"));
    types.push(0);
    folder.put("more", &types);
    folder
        .run(&["check", "more"])
        .refuses(&format!("more: {ONE}[10] 00 00 50 00 10 01 04 00 .."));
}

#[test]
fn the_last_data_within_the_limit() {
    let folder = Folder::new("limits-data");
    folder.put("types", &string());
    let data = |characters: u32| {
        let length = characters.to_be_bytes();
        [&length[..], &vec![b'x'; characters as usize]].concat()
    };
    folder.put("most", &data(65532));
    folder
        .run(&["data", "types", "most"])
        .gives("most: accepted, 1 piece\n");
    folder.put("more", &data(65533));
    folder
        .run(&["data", "types", "more"])
        .refuses(&format!("more: {TWENTY}[00] 00 FF FD 78 78 78 78 78 .."));
}
