//! Streams that can't be written: full, closed, or with nobody at the other end.

use std::fs::OpenOptions;
use std::process::{Output, Stdio};

use crate::common::books::{blank, plain};
use crate::common::descriptors::{array, descriptor};
use crate::common::{Folder, Ran};

const FULL: &str = "standard output: No space left on device (os error 28)";

/// A descriptor, one that is refused, and much data.
fn folder(test: &str) -> Folder {
    let folder = Folder::new(test);
    folder.put("good", &descriptor(0x03, &[]));
    folder.put("other", &descriptor(0x07, &[]));
    folder.put("bad", &descriptor(0x32, &[]));
    folder.put("types", &array(1, &descriptor(0x05, &[])));
    folder.put("data", &[&[0, 0, 0xFF, 0xFC][..], &[7; 65532]].concat());
    folder
}

fn full() -> Stdio {
    let full = OpenOptions::new().write(true).open("/dev/full");
    full.expect("there is /dev/full").into()
}

fn output(folder: &Folder, words: &[&str], out: Option<Stdio>, err: Option<Stdio>) -> Output {
    let mut command = folder.command(words);
    command.stdout(out.unwrap_or_else(Stdio::piped));
    command.stderr(err.unwrap_or_else(Stdio::piped));
    let child = command.spawn().expect("the command starts");
    child.wait_with_output().expect("the command ends")
}

#[test]
fn a_full_standard_output_is_trouble() {
    let folder = folder("streams-out");
    for words in [
        &["check", "good"][..],
        &["check", "good", "--json"],
        &["check", "bad", "--json"],
        &["check", "missing", "--json"],
        &["compare", "good", "other"],
        &["compare", "good", "good"],
        &["normal", "good"],
        &["normal", "good", "-o", "-"],
        &["data", "types", "data"],
        &["dump", "types", "data", "--all"],
        &["explain", "good"],
        &["explain", "bad"],
        &["explain", "good", "--html"],
        &["value", "types", "data", "0"],
        &["view", "types", "data"],
        &["little", "types", "data"],
        &["--help"],
        &["check", "--version"],
    ] {
        let ran = Ran::of(output(&folder, words, Some(full()), None));
        // What standard error would have said besides stands behind it.
        let alone = Ran::of(output(&folder, words, None, None));
        let told = match alone.status {
            0 => FULL.to_owned(),
            _ => format!("{FULL}; {}", alone.complaint()),
        };
        assert_eq!((ran.status, ran.complaint()), (2, &told[..]), "{words:?}");
    }
}

#[test]
fn what_says_nothing_on_standard_output_doesn_t_mind() {
    let folder = folder("streams-out-empty");
    let ran = Ran::of(output(&folder, &["check", "bad"], Some(full()), None));
    assert_eq!(ran.status, 1);
    assert!(ran.complaint().starts_with("bad: refused with 5: "));
    let ran = Ran::of(output(&folder, &["check", "missing"], Some(full()), None));
    ran.troubles("missing: No such file or directory (os error 2)");
}

#[test]
fn a_full_standard_error_keeps_the_status() {
    let folder = folder("streams-err");
    for (words, status) in [
        (&["check", "good"][..], 0),
        (&["check", "bad"], 1),
        (&["explain", "bad"], 1),
        (&["check", "bad", "--json"], 1),
        (&["check", "missing"], 2),
        (&["check"], 2),
        (&["look"], 2),
        (&["normal", "good", "-o", "no/such"], 2),
        (&["compare", "good", "other"], 3),
    ] {
        let ran = output(&folder, words, None, Some(full()));
        assert_eq!(ran.status.code(), Some(status), "{words:?}");
        let told = folder.run(words);
        assert_eq!((told.status, told.out), (status, ran.stdout), "{words:?}");
    }
}

#[test]
fn both_full() {
    let folder = folder("streams-both");
    for (words, status) in [
        (&["check", "good"][..], 2),
        (&["check", "bad"], 1),
        (&["check", "missing"], 2),
        (&["compare", "good", "other"], 2),
        (&["--help"], 2),
    ] {
        let ran = output(&folder, words, Some(full()), Some(full()));
        assert_eq!(ran.status.code(), Some(status), "{words:?}");
    }
}

#[test]
fn a_closed_pipe_ends_it_quietly() {
    let folder = folder("streams-pipe");
    // Far more than a pipe holds, so that writing meets the closed end.
    for words in [
        &["dump", "types", "data", "--all"][..],
        &["dump", "types", "data", "--all", "--json"],
        &["explain", "types", "data", "--all"],
        &["explain", "types", "data", "--html"],
        &["view", "types", "data"],
        &["little", "types", "data"],
    ] {
        assert!(folder.run(words).out.len() > 1 << 17, "{words:?}");
        let mut command = folder.command(words);
        command.stdout(Stdio::piped()).stderr(Stdio::piped());
        let mut child = command.spawn().expect("the command starts");
        drop(child.stdout.take());
        let ran = Ran::of(child.wait_with_output().expect("the command ends"));
        assert_eq!(ran.status, 0, "{words:?}");
    }
}

#[test]
fn a_closed_pipe_keeps_a_refusal() {
    let folder = folder("streams-pipe-refused");
    folder.put("long", &[&[0, 0, 0xFF, 0xFB][..], &[7; 65532]].concat());
    let words = ["explain", "types", "long", "--html"];
    let told = folder.run(&words);
    assert!(told.out.len() > 1 << 17);
    let mut command = folder.command(&words);
    command.stdout(Stdio::piped()).stderr(Stdio::piped());
    let mut child = command.spawn().expect("the command starts");
    drop(child.stdout.take());
    let ran = Ran::of(child.wait_with_output().expect("the command ends"));
    assert_eq!((ran.status, ran.err), (1, told.err));
}

#[test]
fn nobody_reads_standard_error() {
    let folder = folder("streams-pipe-err");
    for (words, status) in [
        (&["check", "bad"][..], 1),
        (&["check", "missing"], 2),
        (&["compare", "good", "other"], 3),
    ] {
        let mut command = folder.command(words);
        let (reader, writer) = std::io::pipe().expect("there are pipes");
        drop(reader);
        command.stdout(Stdio::null()).stderr(writer);
        let ran = command.status().expect("the command starts");
        assert_eq!(ran.code(), Some(status), "{words:?}");
    }
}

#[test]
fn closed_streams() {
    let folder = folder("streams-closed");
    for (line, status) in [
        ("\"$K\" check good >&-", 2),
        ("\"$K\" check good --json >&-", 2),
        ("\"$K\" check good 2>&-", 0),
        ("\"$K\" check bad >&-", 1),
        ("\"$K\" check bad --json >&-", 2),
        ("\"$K\" check bad 2>&-", 1),
        ("\"$K\" check missing >&- 2>&-", 2),
        ("\"$K\" compare good other >&- 2>&-", 2),
        ("\"$K\" --help >&-", 2),
        ("\"$K\" --version >&- 2>&-", 2),
        ("\"$K\" normal good -o - >&-", 2),
        ("\"$K\" normal good -o /dev/stdout >&-", 2),
        ("\"$K\" normal good -o /dev/stderr 2>&-", 2),
        ("\"$K\" normal good -o /dev/fd/7", 2),
        ("\"$K\" normal good -o /dev/stdin < good", 2),
        ("\"$K\" normal good -o out >&- 2>&-", 0),
        ("\"$K\" normal good -o out --json >&-", 2),
        // What is open for reading alone can't be written to either.
        ("\"$K\" check good 1<good", 2),
        // Nobody wants to know.
        ("\"$K\" check good > /dev/null", 0),
        ("\"$K\" check good 1<>/dev/null 2<>/dev/null <&1", 0),
        ("\"$K\" check - <&-", 1),
    ] {
        let ran = folder.shell(line);
        assert_eq!(ran.status.code(), Some(status), "{line}");
        assert!(
            !String::from_utf8_lossy(&ran.stderr).contains("panic"),
            "{line}"
        );
    }
}

#[test]
fn what_a_closed_standard_output_is_told_as() {
    let folder = folder("streams-closed-told");
    let line = "standard output: Bad file descriptor (os error 9)";
    for words in ["check good", "compare good good", "normal good", "--help"] {
        let ran = Ran::of(folder.shell(&format!("exec \"$K\" {words} >&-")));
        ran.troubles(line);
    }
    // What was to be told on standard error is told with it.
    Ran::of(folder.shell("exec \"$K\" check none --json >&-")).troubles(&format!(
        "{line}; none: No such file or directory (os error 2)"
    ));
    // A book is changed before that is told.
    folder.put("book", &plain(4, 200, &[9]));
    folder.put("blank", &blank());
    folder.put("seven", &[0, 0, 0, 7]);
    for (to, error) in [
        (">&-", "Bad file descriptor (os error 9)"),
        ("> /dev/full", "No space left on device (os error 28)"),
    ] {
        folder.put("book", &plain(4, 200, &[9]));
        let ran = folder.shell(&format!("exec \"$K\" book add book blank seven {to}"));
        Ran::of(ran).troubles(&format!(
            "standard output: {error}; the record is in the book"
        ));
        assert_eq!(folder.read("book"), plain(4, 200, &[9, 7]));
        let new = "book new made --capacity 4 --bytes 200";
        let ran = folder.shell(&format!("rm -f made; exec \"$K\" {new} {to}"));
        Ran::of(ran).troubles(&format!("standard output: {error}; the book is made"));
        assert_eq!(folder.read("made"), plain(4, 200, &[]));
    }
}

#[test]
fn a_note_is_not_mixed_with_what_is_written() {
    let folder = folder("streams-note");
    let bytes = folder.read("good");
    let run = |line: &str| {
        let ran = folder.shell(&format!("exec \"$K\" {line}"));
        assert_eq!(ran.status.code(), Some(0), "{line}");
        (
            ran.stdout,
            String::from_utf8_lossy(&ran.stderr).into_owned(),
        )
    };
    folder.shell("ln -s /dev/stdout link");
    for out in ["-", "/dev/stdout", "/dev/fd/1", "/proc/self/fd/1", "link"] {
        let line = format!("normal good -o {out}");
        assert_eq!(run(&line), (bytes.clone(), String::new()), "{out}");
    }
    let error = run("normal good -o /dev/stderr");
    assert_eq!((error.0, error.1.as_bytes()), (vec![], &bytes[..]));
    let noted = run("normal good -o out");
    assert_eq!(noted, (vec![], "kerbcanopy: out: 4 bytes written\n".into()));
    let (page, note) = run("explain good --html -o /dev/stdout");
    assert_eq!((page, note), run("explain good --html"));
}

#[test]
fn a_stream_is_written_to_and_not_replaced() {
    let folder = folder("streams-kept");
    let bytes = folder.read("good");
    // What others write to the same file stays.
    for (name, to) in [
        ("stdout", ">> log"),
        ("fd/1", "> log"),
        ("stderr", "2>> log"),
        ("fd/7", "7>> log"),
        ("../proc/thread-self/fd/1", ">> log"),
    ] {
        folder.put("log", b"before");
        let out = format!("{{ echo; \"$K\" normal good -o /dev/{name}; echo behind >&2; }} {to}");
        let ran = folder.shell(&out);
        assert!(ran.status.success());
        let log = folder.read("log");
        let at = log.windows(4).position(|part| part == bytes);
        assert!(at.is_some(), "{name}: {log:?}");
        assert_eq!(log.starts_with(b"before"), to.contains(">>"), "{name}");
    }
    let names = folder.names();
    assert!(!names.iter().any(|name| name.starts_with('.')), "{names:?}");
    let trouble =
        "normal can't give --json and -o /dev/stdout in one; see kerbcanopy normal --help";
    let ran = folder.run(&["normal", "good", "--json", "-o", "/dev/stdout"]);
    assert_eq!((ran.status, ran.complaint()), (2, trouble));
}

#[test]
fn files_are_not_overwritten_by_what_is_said() {
    let folder = folder("streams-reopened");
    // With the streams closed, an opened file must not take their numbers.
    let ran = folder.shell("\"$K\" normal good -o out >&- 2>&-");
    assert_eq!(ran.status.code(), Some(0));
    assert_eq!(folder.read("out"), folder.read("good"));
}
