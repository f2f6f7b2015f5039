//! Kills at any moment of an add, of one alone and of one among others.

use std::process::{Child, Output, Stdio};
use std::thread;
use std::time::{Duration, Instant};

use super::killed::reported;
use super::{add, data, identifiers};
use crate::common::Folder;
use crate::common::books::{blank, plain};

/// A small source of repeatable numbers (splitmix64).
struct Random(u64);

impl Random {
    fn below(&mut self, limit: u64) -> u64 {
        self.0 = self.0.wrapping_add(0x9E37_79B9_7F4A_7C15);
        let mut mixed = self.0;
        mixed = (mixed ^ (mixed >> 30)).wrapping_mul(0xBF58_476D_1CE4_E5B9);
        mixed = (mixed ^ (mixed >> 27)).wrapping_mul(0x94D0_49BB_1331_11EB);
        (mixed ^ (mixed >> 31)) % limit
    }
}

/// Adds a record, and kills that after so long, by its own number.
fn add_killed(folder: &Folder, identifier: u32, patience: Duration) -> Output {
    let name = data(folder, identifier);
    let mut command = folder.command(&["book", "add", "book", "types", &name]);
    command.stdout(Stdio::piped()).stderr(Stdio::piped());
    killed_after(command.spawn().expect("the command starts"), patience)
}

fn killed_after(mut child: Child, patience: Duration) -> Output {
    thread::sleep(patience);
    child.kill().expect("it is ours");
    child.wait_with_output().expect("it ends")
}

/// How many books are filled side by side, how many records each can have, and how many
/// adds are killed in each before it is left.
const BOOKS: u64 = 10;
const RECORDS: u16 = 50;
const KILLS: usize = 100;

/// A book of the records from 0 on, so many of them.
fn filled(count: u32) -> Vec<u8> {
    let identifiers: Vec<u32> = (0..count).collect();
    plain(RECORDS, 4 + 36 * usize::from(RECORDS), &identifiers)
}

/// Adds the next record to a book with so many, and kills that after so long: the book is
/// the old or the new one, and the new one where that was reported. Gives whether it was
/// killed, and whether the book is the new one.
fn killed(folder: &Folder, count: u32, patience: Duration) -> (bool, bool) {
    let output = add_killed(folder, count, patience);
    let seen = folder.read("book");
    let new = seen == filled(count + 1);
    assert!(new || seen == filled(count), "{output:?}: {seen:02X?}");
    assert!(new || !reported(&output), "{output:?}");
    (!output.status.success(), new)
}

/// Fills a book, with adds killed at any moment that one takes. Gives how many were killed
/// before the new book was there, and how many behind that.
fn kills(number: u64) -> [usize; 2] {
    let folder = Folder::new(&format!("book-random-{number}"));
    folder.put("types", &blank());
    let mut random = Random(number);
    let mut ends = [0; 2];
    let mut count = u32::from(RECORDS);
    let mut taken = Duration::from_millis(10);
    while ends.iter().sum::<usize>() < KILLS {
        if count == u32::from(RECORDS) {
            count = 0;
            folder.put("book", &filled(0));
        }
        let patience = taken.mul_f64(random.below(1000) as f64 / 1000.0);
        let (ended, new) = killed(&folder, count, patience);
        if ended {
            ends[usize::from(new)] += 1;
        }
        if !new {
            let begun = Instant::now();
            let said = format!("book: identifier {count} added as entry {count}, ");
            let again = add(&folder, count);
            taken = begun.elapsed();
            assert!(again.text().starts_with(&said), "{again:?}");
            assert_eq!(folder.read("book"), filled(count + 1));
        }
        count += 1;
    }
    assert_eq!(folder.run(&["book", "check", "book"]).status, 0);
    let names = folder.names();
    assert!(!names.iter().any(|name| name.starts_with('.')), "{names:?}");
    ends
}

#[test]
fn a_thousand_kills_lose_nothing() {
    let killers: Vec<_> = (0..BOOKS)
        .map(|number| thread::spawn(move || kills(number)))
        .collect();
    let ends = killers
        .into_iter()
        .map(|killer| killer.join().expect("it holds"));
    let ends = ends.fold([0; 2], |all, one| [all[0] + one[0], all[1] + one[1]]);
    // Both the old book and the new one were met.
    assert!(ends[0] > 0 && ends[1] > 0, "{ends:?}");
}

/// How many times the making of a book is killed.
const MAKINGS: usize = 200;

#[test]
fn a_book_whose_making_was_killed_can_be_added_to() {
    let folder = Folder::new("book-random-new");
    folder.put("types", &blank());
    data(&folder, 7);
    let words = ["book", "new", "book", "--capacity", "4", "--bytes", "200"];
    let begun = Instant::now();
    assert_eq!(folder.run(&words).status, 0);
    let taken = begun.elapsed();
    let mut random = Random(7);
    for _ in 0..MAKINGS {
        for name in folder.names() {
            if name == "book" || name.starts_with('.') {
                std::fs::remove_file(folder.path.join(name)).expect("it is there");
            }
        }
        let patience = taken.mul_f64(random.below(1500) as f64 / 1000.0);
        let mut command = folder.command(&words);
        command.stdout(Stdio::piped()).stderr(Stdio::piped());
        let output = killed_after(command.spawn().expect("the command starts"), patience);
        let made = folder.path.join("book").exists();
        assert!(made || !reported(&output), "{output:?}");
        if made {
            assert_eq!(folder.read("book"), plain(4, 200, &[]));
            assert_eq!(add(&folder, 7).status, 0);
            assert_eq!(folder.read("book"), plain(4, 200, &[7]));
            assert_eq!(folder.names(), ["book", "data-7", "types"]);
        }
    }
}

/// Adds these records, each again and again until one of the tries says that it is there;
/// most of them are killed.
fn adds_killed(folder: &Folder, identifiers: impl Iterator<Item = u32>, seed: u64) {
    let mut random = Random(seed);
    for identifier in identifiers {
        for tries in 0.. {
            // More every time, so that each is added in the end, however slow the disk is.
            let patience = Duration::from_micros(random.below(20_000 << tries));
            let output = add_killed(folder, identifier, patience);
            // One that was killed may have come that far before, and this one too.
            let said = String::from_utf8_lossy(&output.stderr);
            let there = said.contains(" refused with 60: ");
            match output.status.code() {
                Some(0) => break,
                Some(1) if there => break,
                Some(_) => panic!("{output:?}"),
                None => assert!(there || said.is_empty(), "{said}"),
            }
        }
    }
}

#[test]
fn kills_among_many_adds_lose_nothing() {
    let folder = Folder::new("book-killed-together");
    let length = 4 + 36 * 64;
    folder.put("book", &plain(64, length, &[]));
    folder.put("types", &blank());
    thread::scope(|scope| {
        for thread in 0..6 {
            let folder = &folder;
            let own = (0..10).map(move |number| 10 * thread + number);
            scope.spawn(move || adds_killed(folder, own, u64::from(thread)));
        }
    });
    assert_eq!(add(&folder, 60).status, 0);
    let mut listed = identifiers(&folder);
    assert_eq!(folder.read("book"), plain(64, length, &listed));
    listed.sort();
    assert!(listed.into_iter().eq(0..=60));
    let names = folder.names();
    assert!(!names.iter().any(|name| name.starts_with('.')), "{names:?}");
}
