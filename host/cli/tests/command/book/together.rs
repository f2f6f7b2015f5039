//! Many adds at once: none is lost, and of one identifier one is added.

use std::fs::{self, File};
use std::process::Stdio;
use std::sync::Barrier;
use std::thread;
use std::time::Duration;

use super::calls::run_with;
use super::{data, identifiers, shelf};
use crate::common::Folder;
use crate::common::books::{blank, plain};

/// How many threads add side by side, and how many records each.
const THREADS: u32 = 8;
const EACH: u32 = 25;

/// The identifier that all of them add too.
const SAME: u32 = 7777;

fn add(folder: &Folder, identifier: u32) -> (i32, String) {
    let name = format!("data-{identifier}");
    let ran = folder.run(&["book", "add", "book", "types", &name]);
    let said = match ran.status {
        0 => ran.text().to_string(),
        _ => ran.complaint().to_string(),
    };
    (ran.status, said)
}

/// Adds a thread's own records and, at the same moment as the others, the common one.
/// Gives whether this was the one that added it.
fn adds(folder: &Folder, thread: u32, start: &Barrier) -> bool {
    start.wait();
    let (status, said) = add(folder, SAME);
    let won = status == 0;
    if !won {
        assert!(said.starts_with("book: refused with 60: "), "{said}");
        assert!(said.ends_with(" has identifier 7777"), "{said}");
    }
    for number in 0..EACH {
        let identifier = 100 * thread + number;
        let (status, said) = add(folder, identifier);
        let added = format!("book: identifier {identifier} added as entry ");
        assert!(status == 0 && said.starts_with(&added), "{said}");
    }
    won
}

/// Lets every thread add at once, and gives how many added the common one.
fn added(folder: &Folder) -> usize {
    let start = &Barrier::new(THREADS as usize);
    thread::scope(|scope| {
        let adder = |thread| scope.spawn(move || adds(folder, thread, start));
        let adders: Vec<_> = (0..THREADS).map(adder).collect();
        let won = adders
            .into_iter()
            .map(|adder| adder.join().expect("it holds"));
        won.filter(|won| *won).count()
    })
}

#[test]
fn none_of_many_adds_is_lost() {
    let folder = Folder::new("book-together");
    let count = (THREADS * EACH + 1) as u16;
    let length = 4 + 36 * usize::from(count);
    folder.put("book", &plain(count, length, &[]));
    folder.put("types", &blank());
    let own = |thread: u32| (0..EACH).map(move |number| 100 * thread + number);
    let expected: Vec<u32> = (0..THREADS).flat_map(own).chain([SAME]).collect();
    for identifier in &expected {
        data(&folder, *identifier);
    }
    assert_eq!(added(&folder), 1);
    let mut listed = identifiers(&folder);
    // The whole book, byte for byte, in the order in which they came.
    assert_eq!(folder.read("book"), plain(count, length, &listed));
    listed.sort();
    assert_eq!(listed, expected);
    for identifier in expected {
        let words = ["book", "find", "book", &identifier.to_string(), "-o", "-"];
        let body = [&blank()[..], &identifier.to_be_bytes()].concat();
        assert_eq!(folder.run(&words).out, body);
    }
    assert!(!folder.names().iter().any(|name| name.starts_with('.')));
}

#[test]
fn readers_need_no_lock() {
    let folder = shelf("book-readers");
    let locked = File::open(folder.path.join("book")).expect("it is there");
    locked.lock().expect("it can be locked");
    assert_eq!(folder.run(&["book", "check", "book"]).status, 0);
    assert_eq!(folder.run(&["book", "find", "book", "9"]).status, 0);
    folder.run(&["book", "list", "book"]).gives("9\n14\n");
}

#[test]
fn an_add_waits_and_goes_by_the_file_that_is_there_then() {
    let folder = shelf("book-waits");
    let name = data(&folder, 7);
    let locked = File::open(folder.path.join("book")).expect("it is there");
    locked.lock().expect("it can be locked");
    let mut command = folder.command(&["book", "add", "book", "types", &name]);
    command.stdout(Stdio::piped()).stderr(Stdio::piped());
    let mut child = command.spawn().expect("the command starts");
    thread::sleep(Duration::from_millis(200));
    assert!(child.try_wait().expect("it is ours").is_none());
    // What whoever has the lock does: another file in place of this one.
    folder.put("other", &plain(4, 200, &[9, 14, 3]));
    fs::rename(folder.path.join("other"), folder.path.join("book")).expect("it can be renamed");
    locked.unlock().expect("it was locked");
    let output = child.wait_with_output().expect("it ends");
    assert!(output.status.success(), "{output:?}");
    assert_eq!(folder.read("book"), plain(4, 200, &[9, 14, 3, 7]));
}

#[test]
fn what_can_t_be_locked_is_not_changed() {
    let folder = shelf("book-unlocked");
    let name = data(&folder, 7);
    let output = run_with(
        &folder,
        &["book", "add", "book", "types", &name],
        "nolock",
        0,
    );
    assert_eq!(output.status.code(), Some(2));
    assert_eq!(
        String::from_utf8_lossy(&output.stderr),
        "kerbcanopy: book: it can't be locked, so it is not changed: \
         Operation not supported (os error 95)\n"
    );
    assert_eq!(folder.read("book"), plain(4, 200, &[9, 14]));
    assert_eq!(folder.names(), ["book", "data-7", "types"]);
}
