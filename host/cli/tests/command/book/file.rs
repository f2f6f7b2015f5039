//! A book's file: what is made, what is replaced, and what is left alone.

use std::fs::{self, OpenOptions};
use std::os::unix::fs::{MetadataExt, PermissionsExt, symlink};

use super::{add, data, shelf};
use crate::common::books::{blank, plain};
use crate::common::{Folder, Ran};

const ADDED: &str = "identifier 7 added as entry 2, 20 bytes at 108";

fn new(folder: &Folder, name: &str) -> Ran {
    folder.run(&["book", "new", name, "--capacity", "4", "--bytes", "200"])
}

#[test]
fn what_is_there_is_never_replaced() {
    let folder = shelf("book-there");
    fs::create_dir(folder.path.join("sub")).expect("it can be made");
    symlink("nowhere", folder.path.join("dangling")).expect("it can be made");
    symlink("book", folder.path.join("link")).expect("it can be made");
    folder.put("empty", b"");
    let names = folder.names();
    for name in ["book", "empty", "sub", ".", "dangling", "link", "/dev/null"] {
        new(&folder, name).troubles(&format!("{name}: it is there already, and not replaced"));
    }
    assert_eq!(folder.names(), names);
    assert_eq!(folder.read("book"), plain(4, 200, &[9, 14]));
    assert_eq!(folder.read("empty"), b"");
    for (name, trouble) in [
        ("no/such", "No such file or directory (os error 2)"),
        ("book/x", "Not a directory (os error 20)"),
        ("", "No such file or directory (os error 2)"),
    ] {
        new(&folder, name).troubles(&format!("{name}: {trouble}"));
    }
    assert_eq!(folder.names(), names);
}

#[test]
fn of_several_that_make_a_book_at_once_one_does() {
    let folder = Folder::new("book-made-once");
    let made = std::thread::scope(|scope| {
        let makers: Vec<_> = (0..8)
            .map(|_| scope.spawn(|| new(&folder, "book")))
            .collect();
        let made = makers
            .into_iter()
            .map(|maker| maker.join().expect("it holds"));
        made.filter(|ran| ran.status == 0).count()
    });
    assert_eq!(made, 1);
    assert_eq!(folder.names(), ["book"]);
    assert_eq!(folder.read("book"), plain(4, 200, &[]));
}

#[test]
fn a_link_stays_and_the_book_behind_it_is_changed() {
    let folder = shelf("book-link");
    fs::create_dir(folder.path.join("sub")).expect("it can be made");
    folder.put("sub/real", &plain(4, 200, &[9, 14]));
    symlink("sub/real", folder.path.join("link")).expect("it can be made");
    let name = data(&folder, 7);
    folder
        .run(&["book", "add", "link", "types", &name])
        .gives(&format!("link: {ADDED}\n"));
    let link = fs::read_link(folder.path.join("link")).expect("it is a link");
    assert_eq!(link.to_str(), Some("sub/real"));
    assert_eq!(folder.read("sub/real"), plain(4, 200, &[9, 14, 7]));
    let inside = fs::read_dir(folder.path.join("sub")).expect("it is there");
    assert_eq!(inside.count(), 1);
    folder.run(&["book", "list", "link"]).gives("9\n14\n7\n");
}

#[test]
fn permissions_and_owner_are_kept() {
    let folder = shelf("book-mode");
    let path = folder.path.join("book");
    for kept in [0o600, 0o664, 0o755] {
        folder.put("book", &plain(4, 200, &[9, 14]));
        fs::set_permissions(&path, PermissionsExt::from_mode(kept)).expect("it is ours");
        // Only root may give files away.
        let given = std::os::unix::fs::chown(&path, Some(65534), Some(65534)).is_ok();
        let old = fs::metadata(&path).expect("it is there");
        assert!(!given || (old.uid(), old.gid()) == (65534, 65534));
        add(&folder, 7).gives(&format!("book: {ADDED}\n"));
        let new = fs::metadata(&path).expect("it is there");
        assert_ne!(new.ino(), old.ino());
        assert_eq!(
            (new.mode(), new.uid(), new.gid()),
            (old.mode(), old.uid(), old.gid())
        );
    }
}

#[test]
fn a_book_that_may_not_be_written_to() {
    let folder = shelf("book-protected");
    let path = folder.path.join("book");
    fs::set_permissions(&path, PermissionsExt::from_mode(0o444)).expect("it is ours");
    // Root writes to it all the same.
    let allowed = OpenOptions::new().write(true).open(&path).is_ok();
    let ran = add(&folder, 7);
    match allowed {
        true => ran.gives(&format!("book: {ADDED}\n")),
        false => ran.troubles("book: Permission denied (os error 13)"),
    }
    let mode = fs::metadata(&path).expect("it is there").mode();
    assert_eq!(mode & 0o777, 0o444);
    folder.run(&["book", "check", "book"]).text();
}

#[test]
fn a_folder_that_may_not_be_written_to() {
    let folder = shelf("book-closed");
    let closed = folder.path.join("closed");
    fs::create_dir(&closed).expect("it can be made");
    folder.put("closed/book", &plain(4, 200, &[9, 14]));
    let name = data(&folder, 7);
    fs::set_permissions(&closed, PermissionsExt::from_mode(0o555)).expect("it is ours");
    // Root writes everywhere but in the kernel's own folders.
    let allowed = fs::write(closed.join("try"), b"").is_ok();
    let added = folder.run(&["book", "add", "closed/book", "types", &name]);
    let made = new(&folder, "closed/new");
    fs::set_permissions(&closed, PermissionsExt::from_mode(0o755)).expect("it is ours");
    match allowed {
        true => {
            added.gives(&format!("closed/book: {ADDED}\n"));
            made.gives("closed/new: 200 bytes written, 4 entries, 132 bytes free\n");
        }
        false => {
            added.troubles("closed/book: Permission denied (os error 13)");
            made.troubles("closed/new: Permission denied (os error 13)");
            assert_eq!(folder.read("closed/book"), plain(4, 200, &[9, 14]));
        }
    }
    let made = new(&folder, "/proc/self/book");
    assert_eq!((made.status, made.text()), (2, ""));
    assert!(made.complaint().starts_with("/proc/self/book: "));
}

#[test]
fn what_is_no_file_is_not_changed() {
    let folder = shelf("book-device");
    let name = data(&folder, 7);
    let run = |file: &str| folder.run(&["book", "add", file, "types", &name]);
    run("/dev/null").troubles("/dev/null: it is no regular file, and only one can be changed");
    run(".").troubles(".: Is a directory (os error 21)");
    run("none").troubles("none: No such file or directory (os error 2)");
    run("-")
        .troubles("book add can't take standard input for a book; see kerbcanopy book add --help");
    folder.shell("mkfifo pipe");
    run("pipe").troubles("pipe: it is no regular file, and only one can be changed");
}

#[test]
fn a_refusal_leaves_the_file_itself() {
    let folder = shelf("book-refused");
    let before = fs::metadata(folder.path.join("book")).expect("it is there");
    assert_eq!(add(&folder, 9).status, 1);
    let after = fs::metadata(folder.path.join("book")).expect("it is there");
    assert_eq!(
        (after.ino(), after.mtime_nsec()),
        (before.ino(), before.mtime_nsec())
    );
    assert_eq!(folder.names(), ["book", "data-9", "types"]);
}

#[test]
fn a_found_body_does_not_replace_its_book() {
    let folder = shelf("book-itself");
    symlink("book", folder.path.join("link")).expect("it can be made");
    for out in ["book", "./book", "link"] {
        folder
            .run(&["book", "find", "book", "9", "-o", out])
            .troubles(&format!("{out}: it is the book itself, and not replaced"));
        folder
            .run(&["book", "find", "link", "9", "-o", out])
            .troubles(&format!("{out}: it is the book itself, and not replaced"));
    }
    let fed = folder.shell("exec \"$K\" book find - 9 -o book < book");
    Ran::of(fed).troubles("book: it is the book itself, and not replaced");
    assert_eq!(folder.read("book"), plain(4, 200, &[9, 14]));
    let fed = folder.shell("exec \"$K\" book find - 9 -o other < book");
    Ran::of(fed).writes("other: 20 bytes written");
    let words = ["book", "find", "book", "9", "--descriptor", "-o", "types"];
    folder.run(&words).writes("types: 16 bytes written");
    assert_eq!(folder.read("types"), blank());
}

#[test]
fn a_long_file_is_read_no_further_than_needed() {
    let folder = shelf("book-long");
    let name = data(&folder, 7);
    let line = |file: &str| {
        format!(
            "{file}: refused with 63: the book is not well formed (input 4, the request; place 0): \
             [00] 00 00 00 00 00 00 00 00 ..; over 65536 bytes"
        )
    };
    let sparse = fs::File::create(folder.path.join("sparse")).expect("it can be made");
    sparse.set_len(1 << 34).expect("it can be long");
    let bounded = |words: &str| {
        let ran = folder.shell(&format!("ulimit -v 65536; exec \"$K\" book {words}"));
        Ran::of(ran)
    };
    for words in ["check", "list"] {
        bounded(&format!("{words} /dev/zero")).refuses(&line("/dev/zero"));
        bounded(&format!("{words} sparse")).refuses(&line("sparse"));
    }
    bounded("find sparse 9").refuses(&line("sparse"));
    bounded(&format!("add sparse types {name}")).refuses(&line("sparse"));
    // A byte too many, and none.
    folder.put("over", &plain(4, 65537, &[9]));
    assert_eq!(folder.run(&["book", "check", "over"]).status, 1);
    folder.put("most", &plain(4, 65536, &[9]));
    assert_eq!(folder.run(&["book", "check", "most"]).status, 0);
}
