//! A book with several names (hard links), which a change would part: it is not changed,
//! but for the hidden name that a killed `book new` leaves.

use std::fs;
use std::os::unix::fs::{MetadataExt, symlink};

use super::calls::{run_linked, run_with};
use super::killed::{ADD, ADD_CALLS, NEW, NEW_CALLS, adding};
use super::{data, shelf};
use crate::common::books::{blank, plain};
use crate::common::{Folder, Ran};

/// That a book of this name is not changed, for so many names.
fn parted(book: &str, names: usize) -> String {
    format!(
        "{book}: it has {names} names (hard links), and a change would part them, \
         so it is not changed; take the others away, or make them symbolic links"
    )
}

fn link(folder: &Folder, from: &str, to: &str) {
    let at = |name: &str| folder.path.join(name);
    fs::hard_link(at(from), at(to)).expect("it can be linked");
}

fn remove(folder: &Folder, name: &str) {
    fs::remove_file(folder.path.join(name)).expect("it is there");
}

fn names_of(folder: &Folder, name: &str) -> u64 {
    fs::metadata(folder.path.join(name))
        .expect("it is there")
        .nlink()
}

/// The words that add record 7 to this book.
fn add_to(book: &str) -> [&str; 5] {
    ["book", "add", book, "types", "data-7"]
}

#[test]
fn one_identifier_is_not_taken_under_two_names() {
    let folder = adding("names-two");
    data(&folder, 9);
    fs::create_dir(folder.path.join("sub")).expect("it can be made");
    for other in ["other", "sub/other", ".hidden"] {
        link(&folder, "book", other);
        let names = folder.names();
        for book in ["book", other] {
            folder.run(&add_to(book)).troubles(&parted(book, 2));
            // Before the record is judged: this one is in the book.
            let words = ["book", "add", book, "types", "data-9"];
            folder.run(&words).troubles(&parted(book, 2));
        }
        link(&folder, "book", "third");
        folder.run(&ADD).troubles(&parted("book", 3));
        remove(&folder, "third");
        // Nothing is changed, and whoever reads doesn't mind.
        assert_eq!(folder.names(), names);
        for book in ["book", other] {
            assert_eq!(folder.read(book), plain(4, 200, &[9, 14]));
            folder.run(&["book", "list", book]).gives("9\n14\n");
        }
        assert_eq!(names_of(&folder, "book"), 2);
        remove(&folder, other);
    }
    assert_eq!(folder.run(&ADD).status, 0);
    assert_eq!(folder.read("book"), plain(4, 200, &[9, 14, 7]));
}

#[test]
fn a_symbolic_link_is_no_other_name() {
    let folder = adding("names-symbolic");
    symlink("book", folder.path.join("link")).expect("it can be made");
    assert_eq!(folder.run(&add_to("link")).status, 0);
    assert_eq!(folder.read("book"), plain(4, 200, &[9, 14, 7]));
    folder.put("book", &plain(4, 200, &[9, 14]));
    link(&folder, "book", "other");
    folder.run(&add_to("link")).troubles(&parted("link", 2));
}

#[test]
fn a_name_that_is_given_meanwhile_is_seen() {
    let folder = adding("names-meanwhile");
    let renamed = ADD_CALLS.iter().position(|call| *call == "rename");
    let renamed = 1 + renamed.expect("it is there");
    for at in 1..renamed {
        let output = run_linked(&folder, &ADD, "book", "other", at);
        Ran::of(output).troubles(&parted("book", 2));
        assert_eq!(folder.read("book"), plain(4, 200, &[9, 14]));
        assert_eq!(folder.names(), ["book", "data-7", "other", "types"]);
        remove(&folder, "other");
    }
    // From here on it is too late, and the other name keeps the old book.
    let output = run_linked(&folder, &ADD, "book", "other", renamed);
    assert!(output.status.success());
    assert_eq!(folder.read("other"), plain(4, 200, &[9, 14]));
}

#[test]
fn what_a_killed_new_left_is_taken_away() {
    let folder = adding("names-left");
    let linked = NEW_CALLS.iter().position(|call| *call == "linkat");
    let linked = 1 + linked.expect("it is there");
    for (how, at) in [("after", linked), ("before", linked + 1)] {
        let killed = run_with(&folder, &NEW, how, at);
        assert_eq!(killed.status.code(), None);
        assert_eq!(names_of(&folder, "made"), 2);
        // Its other name is that of a new file, in this folder.
        let left = folder
            .names()
            .into_iter()
            .find(|name| name.starts_with('.'));
        let left = left.expect("it is there");
        // What others left, which is no name of this book, stays.
        folder.put(".kerbcanopy-1-0.new", b"another");
        assert!(folder.run(&add_to("made")).text().contains("as entry 0"));
        assert_eq!(folder.read("made"), plain(4, 200, &[7]));
        assert_eq!(names_of(&folder, "made"), 1);
        assert!(!folder.names().contains(&left));
        assert_eq!(folder.read(".kerbcanopy-1-0.new"), b"another");
        remove(&folder, ".kerbcanopy-1-0.new");
        remove(&folder, "made");
    }
    assert_eq!(folder.names(), ["book", "data-7", "types"]);
}

#[test]
fn what_a_killed_new_left_elsewhere_is_told() {
    let folder = adding("names-moved");
    fs::create_dir(folder.path.join("sub")).expect("it can be made");
    link(&folder, "book", "sub/.kerbcanopy-7-0.new");
    folder.run(&ADD).troubles(&parted("book", 2));
    remove(&folder, "sub/.kerbcanopy-7-0.new");
    // A name that is nearly one of a new file is somebody's.
    for name in [
        ".kerbcanopy-7.new",
        ".kerbcanopy-book-7.new",
        "kerbcanopy-7-0.new",
    ] {
        link(&folder, "book", name);
        folder.run(&ADD).troubles(&parted("book", 2));
        assert!(folder.path.join(name).exists());
        remove(&folder, name);
    }
    // The name that was asked for is kept, whatever it looks like.
    link(&folder, "book", ".kerbcanopy-7-0.new");
    let asked = ".kerbcanopy-7-0.new";
    folder.run(&add_to(asked)).troubles(&parted(asked, 2));
    remove(&folder, "book");
    assert_eq!(folder.run(&add_to(asked)).status, 0);
    assert_eq!(folder.read(asked), plain(4, 200, &[9, 14, 7]));
}

#[test]
fn a_new_book_can_be_added_to_while_it_is_made() {
    let folder = shelf("names-at-once");
    data(&folder, 7);
    // Whoever comes while the file still has its hidden name takes that away, and the
    // maker finds it gone.
    let new = "\"$K\" book new made --capacity 4 --bytes 200";
    let tries = "n=0; until [ $n = 5000 ] || ";
    let add = "\"$K\" book add made types data-7 2>/dev/null; do n=$((n + 1)); done";
    for _ in 0..50 {
        let ran = folder.shell(&format!(
            "{{ {tries}{add}; }} > added & {new}; new=$?; wait; exit $new"
        ));
        assert_eq!(ran.status.code(), Some(0), "{ran:?}");
        assert_eq!(folder.read("made"), plain(4, 200, &[7]));
        assert_eq!(folder.read("types"), blank());
        let names = folder.names();
        assert!(!names.iter().any(|name| name.starts_with('.')), "{names:?}");
        remove(&folder, "made");
    }
}
