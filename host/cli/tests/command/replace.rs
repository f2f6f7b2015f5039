//! `-o`: the old file is as it was until the new one is whole.

use std::fs::{self, OpenOptions};
use std::os::unix::fs::{MetadataExt, PermissionsExt, symlink};

use crate::common::descriptors::{cluster, descriptor};
use crate::common::{Folder, hex};

/// A descriptor with a reserved byte, its normal form, and one that is refused.
fn folder(test: &str) -> Folder {
    let folder = Folder::new(test);
    folder.put("types", &hex("0004 4003"));
    folder.put("bad", &descriptor(0x32, &[]));
    folder
}

const NORMAL: [u8; 4] = [0, 4, 0, 3];

fn mode(folder: &Folder, name: &str) -> u32 {
    let of = fs::metadata(folder.path.join(name)).expect("it is there");
    of.permissions().mode() & 0o7777
}

#[test]
fn onto_the_input_itself() {
    let folder = folder("replace-input");
    folder
        .run(&["normal", "types", "-o", "types"])
        .writes("types: 4 bytes written");
    assert_eq!(folder.read("types"), NORMAL);
    folder.put(
        "pair",
        &cluster(&[descriptor(0x02, &[]), descriptor(0x07, &[])]),
    );
    folder.put("data", &hex("0019 00000009"));
    folder
        .run(&["little", "pair", "data", "-o", "data"])
        .writes("data: 6 bytes written");
    assert_eq!(folder.read("data"), hex("1900 09000000"));
    folder
        .run(&["big", "pair", "data", "-o", "./data"])
        .writes("./data: 6 bytes written");
    assert_eq!(folder.read("data"), hex("0019 00000009"));
    assert_eq!(folder.names(), ["bad", "data", "pair", "types"]);
}

#[test]
fn a_refusal_onto_the_input_leaves_it() {
    let folder = folder("replace-refused");
    folder.put("short", b"");
    let before = fs::metadata(folder.path.join("bad")).expect("it is there");
    let ran = folder.run(&["normal", "bad", "-o", "bad"]);
    assert_eq!(ran.status, 1);
    assert_eq!(folder.read("bad"), descriptor(0x32, &[]));
    let after = fs::metadata(folder.path.join("bad")).expect("it is there");
    assert_eq!(
        (after.ino(), after.mtime_nsec()),
        (before.ino(), before.mtime_nsec())
    );
    for words in [
        &["normal", "bad", "-o", "new"][..],
        &["little", "bad", "types", "-o", "new"],
        &["big", "types", "short", "-o", "new"],
        &["read", "types", "bad", "types", "-o", "new"],
        &["view", "types", "types", "0", "-o", "new"],
    ] {
        assert_eq!(folder.run(words).status, 1, "{words:?}");
    }
    assert_eq!(folder.names(), ["bad", "short", "types"]);
}

#[test]
fn a_link_stays_and_its_file_is_replaced() {
    let folder = folder("replace-link");
    fs::create_dir(folder.path.join("sub")).expect("it can be made");
    folder.put("sub/real", b"old");
    symlink("sub/real", folder.path.join("link")).expect("it can be made");
    folder
        .run(&["normal", "types", "-o", "link"])
        .writes("link: 4 bytes written");
    let link = fs::read_link(folder.path.join("link")).expect("it is a link");
    assert_eq!(link.to_str(), Some("sub/real"));
    assert_eq!(folder.read("sub/real"), NORMAL);
    let inside = fs::read_dir(folder.path.join("sub"))
        .expect("it is there")
        .count();
    assert_eq!(inside, 1);
}

#[test]
fn a_link_to_nothing_yet_stays_too() {
    let folder = folder("replace-new-link");
    fs::create_dir(folder.path.join("sub")).expect("it can be made");
    symlink("sub/second", folder.path.join("first")).expect("it can be made");
    symlink("real", folder.path.join("sub/second")).expect("it can be made");
    folder
        .run(&["normal", "types", "-o", "first"])
        .writes("first: 4 bytes written");
    assert!(folder.path.join("first").is_symlink());
    assert!(folder.path.join("sub/second").is_symlink());
    assert_eq!(folder.read("sub/real"), NORMAL);
    symlink("round", folder.path.join("round")).expect("it can be made");
    let ran = folder.run(&["normal", "types", "-o", "round"]);
    assert_eq!(ran.status, 2);
    assert!(folder.path.join("round").is_symlink());
}

#[test]
fn permissions_are_kept() {
    let folder = folder("replace-mode");
    folder.put("out", b"old");
    for kept in [0o600, 0o640, 0o755] {
        fs::set_permissions(folder.path.join("out"), PermissionsExt::from_mode(kept))
            .expect("it is ours");
        folder
            .run(&["normal", "types", "-o", "out"])
            .writes("out: 4 bytes written");
        assert_eq!(folder.read("out"), NORMAL);
        assert_eq!(mode(&folder, "out"), kept);
    }
    // A new file has those of any other new file.
    folder
        .run(&["normal", "types", "-o", "new"])
        .writes("new: 4 bytes written");
    assert_eq!(mode(&folder, "new"), mode(&folder, "types"));
}

#[test]
fn a_name_as_long_as_one_can_be() {
    let folder = folder("replace-long");
    let name = "n".repeat(255);
    folder
        .run(&["normal", "types", "-o", &name])
        .writes(&format!("{name}: 4 bytes written"));
    assert_eq!(folder.read(&name), NORMAL);
}

#[test]
fn a_target_that_can_t_be_written() {
    let folder = folder("replace-trouble");
    folder.put("file", b"as it was");
    for (out, trouble) in [
        ("no/such", "No such file or directory (os error 2)"),
        ("file/x", "Not a directory (os error 20)"),
        (".", "Is a directory (os error 21)"),
        ("/dev/full", "No space left on device (os error 28)"),
    ] {
        let line = format!("{out}: {trouble}");
        folder.run(&["normal", "types", "-o", out]).troubles(&line);
        folder.run(&["explain", "types", "-o", out]).troubles(&line);
    }
    assert_eq!(folder.read("file"), b"as it was");
    assert_eq!(folder.names(), ["bad", "file", "types"]);
}

#[test]
fn a_file_that_may_not_be_written_to() {
    let folder = folder("replace-protected");
    folder.put("out", b"as it was");
    let path = folder.path.join("out");
    fs::set_permissions(&path, PermissionsExt::from_mode(0o444)).expect("it is ours");
    // Root writes to it all the same.
    let allowed = OpenOptions::new().write(true).open(&path).is_ok();
    for (words, written) in [
        (["explain", "types", "-o", "out"], "out: written"),
        (["normal", "types", "-o", "out"], "out: 4 bytes written"),
    ] {
        let ran = folder.run(&words);
        match allowed {
            true => ran.writes(written),
            false => ran.troubles("out: Permission denied (os error 13)"),
        }
    }
    let expected = if allowed { &NORMAL[..] } else { b"as it was" };
    assert_eq!(folder.read("out"), expected);
    assert_eq!(mode(&folder, "out"), 0o444);
    assert_eq!(folder.names(), ["bad", "out", "types"]);
}

#[test]
fn a_folder_that_can_t_be_written() {
    let folder = folder("replace-closed");
    let closed = folder.path.join("closed");
    fs::create_dir(&closed).expect("it can be made");
    folder.put("closed/out", b"as it was");
    fs::set_permissions(&closed, PermissionsExt::from_mode(0o555)).expect("it is ours");
    // Root writes everywhere but in the kernel's own folders.
    let allowed = fs::write(closed.join("try"), b"").is_ok();
    let ran = folder.run(&["normal", "types", "-o", "closed/out"]);
    fs::set_permissions(&closed, PermissionsExt::from_mode(0o755)).expect("it is ours");
    match allowed {
        true => ran.writes("closed/out: 4 bytes written"),
        false => {
            ran.troubles("closed/out: Permission denied (os error 13)");
            assert_eq!(folder.read("closed/out"), b"as it was");
        }
    }
    let ran = folder.run(&["normal", "types", "-o", "/proc/self/out"]);
    assert_eq!((ran.status, ran.text()), (2, ""));
    assert!(ran.complaint().starts_with("/proc/self/out: "));
}

#[test]
fn a_full_disk_leaves_the_old_file() {
    let folder = folder("replace-full");
    folder.put("out", b"as it was");
    // No file may grow: writing fails with an error where the signal is ignored.
    let line = "trap '' XFSZ; ulimit -f 0; exec \"$K\" normal types -o";
    for out in ["out", "new"] {
        let ran = folder.shell(&format!("{line} {out}"));
        let err = String::from_utf8_lossy(&ran.stderr);
        assert_eq!(
            err,
            format!("kerbcanopy: {out}: File too large (os error 27)\n")
        );
        assert_eq!((ran.status.code(), ran.stdout), (Some(2), vec![]));
    }
    assert_eq!(folder.read("out"), b"as it was");
    assert_eq!(folder.names(), ["bad", "out", "types"]);
}

#[test]
fn a_kill_leaves_the_old_file() {
    let folder = folder("replace-killed");
    folder.put("out", b"as it was");
    // The signal ends the command in the middle of writing.
    let ran = folder.shell("ulimit -c 0; ulimit -f 0; \"$K\" normal types -o out; echo $? >&2");
    let err = String::from_utf8_lossy(&ran.stderr);
    let status: i32 = err
        .lines()
        .last()
        .and_then(|line| line.parse().ok())
        .expect("it is told");
    assert!(status > 128, "{err}");
    assert_eq!(folder.read("out"), b"as it was");
    // What was begun is in the way of nothing.
    folder
        .run(&["normal", "types", "-o", "out"])
        .writes("out: 4 bytes written");
    assert_eq!(folder.read("out"), NORMAL);
}

#[test]
fn a_device_is_written_as_it_is() {
    let folder = folder("replace-device");
    folder
        .run(&["normal", "types", "-o", "/dev/null"])
        .writes("/dev/null: 4 bytes written");
    let ran = folder.shell("mkfifo pipe && { cat pipe & } && \"$K\" normal types -o pipe && wait");
    assert!(
        ran.stdout.windows(4).any(|bytes| bytes == NORMAL),
        "{ran:?}"
    );
    assert_eq!(folder.names(), ["bad", "pipe", "types"]);
}
