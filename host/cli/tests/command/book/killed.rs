//! Kills and full disks at every call that changes files: the file is the old book or the
//! new one.

use std::process::Output;

use super::calls::{listed, run_with, with_error};
use super::{add, data, shelf};
use crate::common::Folder;
use crate::common::books::plain;

pub const ADD: [&str; 5] = ["book", "add", "book", "types", "data-7"];
pub const NEW: [&str; 7] = ["book", "new", "made", "--capacity", "4", "--bytes", "200"];

/// What is done to change a book, and to make one: the last write says so.
pub const ADD_CALLS: [&str; 8] = [
    "unlink", "open64", "fchmod", "write", "fsync", "rename", "fsync", "write",
];
pub const NEW_CALLS: [&str; 7] = [
    "open64", "write", "fsync", "linkat", "unlink", "fsync", "write",
];

/// A folder whose book has records 9 and 14, and is to get 7.
pub fn adding(test: &str) -> Folder {
    let folder = shelf(test);
    data(&folder, 7);
    folder
}

/// Whether it said that all went well, by its words or its status.
pub fn reported(output: &Output) -> bool {
    output.status.success() || !output.stdout.is_empty()
}

/// The book is the old or the new one, and new where that was reported; a check accepts
/// it, and more can be added. Gives whether it is the new one, and makes it old again.
#[track_caller]
fn is_old_or_new(folder: &Folder, output: &Output) -> bool {
    let (old, new) = (plain(4, 200, &[9, 14]), plain(4, 200, &[9, 14, 7]));
    let seen = folder.read("book");
    assert!(seen == old || seen == new, "{seen:02X?}: {output:?}");
    assert!(seen == new || !reported(output), "{output:?}");
    let records = if seen == new { 3 } else { 2 };
    let checked = folder.run(&["book", "check", "book"]);
    assert!(
        checked
            .text()
            .starts_with(&format!("book: accepted, {records} records\n"))
    );
    let said = format!("book: identifier 8 added as entry {records}, ");
    assert!(add(folder, 8).text().starts_with(&said));
    // What the one before left is in the way of nothing, and gone.
    let names = ["book", "data-7", "data-8", "types"];
    assert_eq!(folder.names(), names, "{output:?}");
    folder.put("book", &old);
    seen == new
}

#[test]
fn every_call_that_changes_files_is_counted() {
    let folder = adding("book-calls");
    assert_eq!(listed(&folder, &ADD), ADD_CALLS);
    assert_eq!(listed(&folder, &NEW), NEW_CALLS);
    for words in [
        &["book", "check", "book"][..],
        &["book", "find", "book", "9"],
        &["book", "list", "book"],
    ] {
        assert_eq!(listed(&folder, words), ["write"], "{words:?}");
    }
}

#[test]
fn a_kill_at_every_call_leaves_the_old_book_or_the_new_one() {
    let folder = adding("book-killed");
    let renamed = 1 + ADD_CALLS
        .iter()
        .position(|call| *call == "rename")
        .expect("it is there");
    for at in 1..=ADD_CALLS.len() {
        let before = run_with(&folder, &ADD, "before", at);
        assert_eq!(before.status.code(), None);
        assert_eq!(is_old_or_new(&folder, &before), at > renamed, "{at}");
        let after = run_with(&folder, &ADD, "after", at);
        assert_eq!(after.status.code(), None);
        assert_eq!(is_old_or_new(&folder, &after), at >= renamed, "{at}");
        assert_eq!(reported(&after), at == ADD_CALLS.len());
    }
    let past = run_with(&folder, &ADD, "before", ADD_CALLS.len() + 1);
    assert!(past.status.success() && is_old_or_new(&folder, &past));
}

#[test]
fn what_a_kill_left_is_no_book_to_anyone() {
    let folder = adding("book-left");
    // Killed once half of it is written, and once it is whole.
    for at in [4, 5, 6] {
        run_with(&folder, &ADD, "before", at);
        let left = folder
            .names()
            .into_iter()
            .find(|name| name.starts_with(".kerbcanopy-book-"));
        assert!(left.is_some_and(|left| left.ends_with(".new")));
    }
    assert!(
        add(&folder, 7)
            .text()
            .contains("identifier 7 added as entry 2")
    );
    assert_eq!(folder.names(), ["book", "data-7", "types"]);
}

#[test]
fn a_full_disk_at_every_call_leaves_the_old_book_or_the_new_one() {
    let folder = adding("book-full");
    let renamed = 1 + ADD_CALLS
        .iter()
        .position(|call| *call == "rename")
        .expect("it is there");
    for at in 1..=ADD_CALLS.len() {
        for how in ["fail", "full"] {
            let output = run_with(&folder, &ADD, how, at);
            assert_eq!(output.status.code(), Some(2), "{how} {at}: {output:?}");
            let names = folder.names();
            assert!(!names.iter().any(|name| name.starts_with('.')), "{names:?}");
            assert_eq!(is_old_or_new(&folder, &output), at > renamed, "{how} {at}");
        }
    }
}

#[test]
fn a_write_may_be_short() {
    let folder = adding("book-short");
    let output = run_with(&folder, &ADD, "halves", 0);
    assert!(output.status.success(), "{output:?}");
    assert!(is_old_or_new(&folder, &output));
    for at in (1..=ADD_CALLS.len()).filter(|at| ADD_CALLS[at - 1] == "write") {
        let output = run_with(&folder, &ADD, "short", at);
        assert_eq!(output.status.code(), Some(2), "{output:?}");
        is_old_or_new(&folder, &output);
    }
}

#[test]
fn trouble_says_whether_the_record_is_in_the_book() {
    let folder = adding("book-unsettled");
    let told = |output: &Output| String::from_utf8_lossy(&output.stderr).into_owned();
    let full = "No space left on device (os error 28)";
    let output = run_with(&folder, &ADD, "fail", 5);
    assert_eq!(told(&output), format!("kerbcanopy: book: {full}\n"));
    assert!(!is_old_or_new(&folder, &output));
    let output = run_with(&folder, &ADD, "fail", 7);
    assert_eq!(
        told(&output),
        format!(
            "kerbcanopy: book: the book is changed, but a loss of power may undo that: \
             its folder can't be brought to the disk: {full}\n"
        )
    );
    assert!(is_old_or_new(&folder, &output));
    // Some file systems can't be asked to.
    for error in [22, 95] {
        let output = with_error(&folder, &ADD, "fail", 7, error);
        assert!(output.status.success(), "{output:?}");
        assert!(is_old_or_new(&folder, &output));
    }
}

#[test]
fn a_new_book_is_whole_or_not_there() {
    let folder = Folder::new("book-new-killed");
    let whole = plain(4, 200, &[]);
    let linked = 1 + NEW_CALLS
        .iter()
        .position(|call| *call == "linkat")
        .expect("it is there");
    for at in 1..=NEW_CALLS.len() {
        for how in ["before", "after", "fail", "full", "short"] {
            let output = run_with(&folder, &NEW, how, at);
            let made = folder.path.join("made").exists();
            assert!(!made || folder.read("made") == whole, "{how} {at}");
            assert!(made || !reported(&output), "{how} {at}: {output:?}");
            match how {
                "before" | "fail" => assert_eq!(made, at > linked, "{at}"),
                "after" => assert_eq!(made, at >= linked, "{at}"),
                _ => {}
            }
            let again = folder.run(&NEW);
            match made {
                true => again.troubles("made: it is there already, and not replaced"),
                false => again.gives("made: 200 bytes written, 4 entries, 132 bytes free\n"),
            }
            assert_eq!(folder.read("made"), whole);
            for name in folder.names() {
                assert!(name == "made" || name.starts_with(".kerbcanopy-"), "{name}");
                std::fs::remove_file(folder.path.join(name)).expect("it is there");
            }
        }
    }
}

#[test]
fn a_book_whose_making_was_killed_can_be_added_to() {
    let folder = adding("book-new-left");
    for at in 1..=NEW_CALLS.len() {
        for how in ["before", "after"] {
            let killed = run_with(&folder, &NEW, how, at);
            assert_eq!(killed.status.code(), None);
            if folder.path.join("made").exists() {
                let added = folder.run(&["book", "add", "made", "types", "data-7"]);
                assert_eq!(added.status, 0, "{how} {at}: {added:?}");
                assert_eq!(folder.read("made"), plain(4, 200, &[7]));
                // Nothing is left of its making.
                assert_eq!(folder.names(), ["book", "data-7", "made", "types"]);
            }
            for name in folder.names() {
                if name == "made" || name.starts_with('.') {
                    std::fs::remove_file(folder.path.join(name)).expect("it is there");
                }
            }
        }
    }
}

#[test]
fn that_a_book_is_there_is_said_without_writing_anything() {
    let folder = Folder::new("book-new-there");
    folder.put("made", b"");
    let output = run_with(&folder, &NEW, "full", 2);
    assert_eq!(
        String::from_utf8_lossy(&output.stderr),
        "kerbcanopy: made: it is there already, and not replaced\n"
    );
    let output = run_with(&folder, &NEW, "before", 1);
    assert_eq!(output.status.code(), None, "the first call says so");
    assert_eq!(folder.names(), ["made"]);
}

#[test]
fn a_file_system_without_links_has_no_new_books() {
    let folder = Folder::new("book-new-unlinked");
    for (error, words) in [
        (1, "Operation not permitted (os error 1)"),
        (95, "Operation not supported (os error 95)"),
    ] {
        let output = with_error(&folder, &NEW, "fail", 4, error);
        assert_eq!(
            String::from_utf8_lossy(&output.stderr),
            format!("kerbcanopy: made: no book can be made where files can't be linked: {words}\n")
        );
        assert_eq!(folder.names(), [""; 0]);
    }
}
