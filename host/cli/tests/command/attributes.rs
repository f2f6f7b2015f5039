//! What a file takes over from the one that it replaces, beside its permissions: an
//! access control list and the other extended attributes. For `book add` and `-o` alike.

use std::ffi::CString;
use std::fs::{self, File, Permissions};
use std::os::unix::fs::{MetadataExt, PermissionsExt};
use std::os::unix::process::CommandExt;
use std::path::Path;
use std::process::Command;

use system::attributes::{self, ACCESS_LIST};

use crate::book::calls::{listed, run_with, with_error};
use crate::book::killed::ADD;
use crate::book::{data, shelf};
use crate::common::books::{blank, plain};
use crate::common::{Folder, KERBCANOPY, Ran};

/// What a list's entry is about: the owner, a user, the group, the mask, all others.
const OWNER: u16 = 0x01;
const USER: u16 = 0x02;
const GROUP: u16 = 0x04;
const MASK: u16 = 0x10;
const OTHERS: u16 = 0x20;

/// An access control list as the system takes it: version 2, then the entries.
fn list(entries: &[(u16, u16, u32)]) -> Vec<u8> {
    let mut bytes = 2_u32.to_le_bytes().to_vec();
    for (about, may, who) in entries {
        bytes.extend([about.to_le_bytes(), may.to_le_bytes()].concat());
        bytes.extend(who.to_le_bytes());
    }
    bytes
}

const NOBODY: u32 = u32::MAX;

/// A list by which one user may read and write, and the group nothing at all: the mask,
/// which is shown as the group's permissions, is more than the group may do.
fn closed_to_its_group(user: u32) -> Vec<u8> {
    list(&[
        (OWNER, 6, NOBODY),
        (USER, 6, user),
        (GROUP, 0, NOBODY),
        (MASK, 6, NOBODY),
        (OTHERS, 0, NOBODY),
    ])
}

/// All attributes of a file but the system's own, in order.
fn all(folder: &Folder, name: &str) -> Vec<(CString, Vec<u8>)> {
    let file = File::open(folder.path.join(name)).expect("it is there");
    let names = attributes::names(&file)
        .expect("they can be listed")
        .into_iter();
    let of = |name: CString| {
        let value = attributes::value(&file, &name).expect("it can be read");
        (name, value)
    };
    let own = names.filter(|name| !name.to_bytes().starts_with(b"security."));
    let mut all: Vec<_> = own.map(of).collect();
    all.sort();
    all
}

fn set(folder: &Folder, name: &str, attribute: &CString, value: &[u8]) -> std::io::Result<()> {
    let file = File::open(folder.path.join(name)).expect("it is there");
    attributes::set(&file, attribute, value)
}

fn named(name: &str) -> CString {
    CString::new(name).expect("it has no zero byte")
}

/// Gives a file two attributes and a list.
fn give(folder: &Folder, name: &str) -> std::io::Result<()> {
    set(folder, name, &named("user.note"), b"\x00any\xFF")?;
    set(folder, name, &named("user.empty"), b"")?;
    set(
        folder,
        name,
        &ACCESS_LIST.into(),
        &closed_to_its_group(4711),
    )
}

/// A folder as `shelf` has it on a file system that has attributes and lists, the tests'
/// own or one in memory, with these on the book and on `out`, and record 7.
fn rich(test: &str) -> Folder {
    let own = shelf(test);
    let memory = || Folder::below(Path::new("/dev/shm"), &format!("kerbcanopy-{test}"));
    own.put("try", b"");
    let folder = match give(&own, "try") {
        Ok(()) => own,
        Err(_) => {
            let folder = memory();
            folder.put("types", &own.read("types"));
            folder
        }
    };
    let _ = fs::remove_file(folder.path.join("try"));
    for (name, bytes) in [("book", plain(4, 200, &[9, 14])), ("out", b"old".to_vec())] {
        folder.put(name, &bytes);
        let given = give(&folder, name);
        given.expect("a file system with attributes and lists: neither here nor in /dev/shm");
    }
    data(&folder, 7);
    folder
}

fn mode(folder: &Folder, name: &str) -> u32 {
    let of = fs::metadata(folder.path.join(name));
    of.expect("it is there").mode() & 0o7777
}

/// The words that replace a file, and its name.
const REPLACING: [(&[&str], &str); 2] =
    [(&ADD, "book"), (&["normal", "types", "-o", "out"], "out")];

/// The bytes of a file before it is replaced.
fn old(name: &str) -> Vec<u8> {
    match name {
        "book" => plain(4, 200, &[9, 14]),
        _ => b"old".to_vec(),
    }
}

#[test]
fn lists_and_attributes_are_kept() {
    let folder = rich("attributes-kept");
    for (words, name) in REPLACING {
        let before = all(&folder, name);
        let names: Vec<_> = before.iter().map(|(name, _)| name.to_bytes()).collect();
        assert_eq!(names, [ACCESS_LIST.to_bytes(), b"user.empty", b"user.note"],);
        // The group's permissions seem to be the mask.
        assert_eq!(mode(&folder, name), 0o660);
        let inode = || {
            fs::metadata(folder.path.join(name))
                .expect("it is there")
                .ino()
        };
        let replaced = inode();
        assert_eq!(folder.run(words).status, 0);
        assert_ne!(inode(), replaced);
        assert_ne!(folder.read(name), old(name));
        assert_eq!(all(&folder, name), before);
        assert_eq!(mode(&folder, name), 0o660);
    }
}

#[test]
fn a_list_with_other_permissions_is_kept() {
    let folder = rich("attributes-modes");
    for (words, name) in REPLACING {
        for (entries, shown) in [
            // A mask that takes away from the user and the group.
            (
                [(OWNER, 7), (USER, 6), (GROUP, 7), (MASK, 4), (OTHERS, 1)],
                0o741,
            ),
            (
                [(OWNER, 6), (USER, 0), (GROUP, 4), (MASK, 4), (OTHERS, 4)],
                0o644,
            ),
            (
                [(OWNER, 6), (USER, 7), (GROUP, 0), (MASK, 7), (OTHERS, 0)],
                0o670,
            ),
        ] {
            folder.put(name, &old(name));
            let who = |about| if about == USER { 4711 } else { NOBODY };
            let entries = entries.map(|(about, may)| (about, may, who(about)));
            set(&folder, name, &ACCESS_LIST.into(), &list(&entries)).expect("it is ours");
            let before = all(&folder, name);
            assert_eq!(mode(&folder, name), shown);
            assert_eq!(folder.run(words).status, 0);
            assert_eq!(all(&folder, name), before);
            assert_eq!(mode(&folder, name), shown);
        }
    }
}

#[test]
fn a_folder_s_list_is_not_put_on_a_file_that_has_none() {
    let folder = rich("attributes-inherited");
    for name in ["book", "out"] {
        let file = File::open(folder.path.join(name)).expect("it is there");
        attributes::remove(&file, ACCESS_LIST).expect("it is ours");
        fs::set_permissions(folder.path.join(name), Permissions::from_mode(0o664)).expect("it is");
    }
    let inherited = named("system.posix_acl_default");
    set(&folder, ".", &inherited, &closed_to_its_group(4711)).expect("it is ours");
    folder.put("new", b"");
    assert!(
        all(&folder, "new")
            .iter()
            .any(|(name, _)| name.as_c_str() == ACCESS_LIST)
    );
    for (words, name) in REPLACING {
        let before = all(&folder, name);
        assert_eq!(before.len(), 2);
        assert_eq!(folder.run(words).status, 0);
        assert_eq!((all(&folder, name), mode(&folder, name)), (before, 0o664));
    }
}

#[test]
fn the_calls_by_which_they_are_kept() {
    let folder = rich("attributes-calls");
    let calls = listed(&folder, &ADD);
    let expected = "unlink open64 fsetxattr fsetxattr fsetxattr write fsync rename fsync write";
    assert_eq!(calls.join(" "), expected);
    // Set once more where the list doesn't set them all.
    folder.put("book", &plain(4, 200, &[9, 14]));
    fs::set_permissions(folder.path.join("book"), Permissions::from_mode(0o1660)).expect("it is");
    let calls = listed(&folder, &ADD);
    let expected = expected.replace(" write fsync rename", " fchmod write fsync rename");
    assert_eq!(calls.join(" "), expected);
    assert_eq!(mode(&folder, "book"), 0o1660);
}

#[test]
fn what_can_t_be_kept_is_told_and_nothing_is_changed() {
    let folder = rich("attributes-refused");
    for (words, name) in REPLACING {
        let before = all(&folder, name);
        let calls = listed(&folder, words);
        let mut told = Vec::new();
        folder.put(name, &old(name));
        for at in 1..=calls.len() {
            if calls[at - 1] != "fsetxattr" {
                continue;
            }
            let output = with_error(&folder, words, "fail", at, 1);
            let ran = Ran::of(output);
            assert_eq!((ran.status, ran.text()), (2, ""));
            told.push(ran.complaint().to_string());
            assert_eq!(folder.read(name), old(name));
            assert_eq!(
                (all(&folder, name), mode(&folder, name)),
                (before.clone(), 0o660)
            );
            let names = folder.names();
            assert!(!names.iter().any(|name| name.starts_with('.')), "{names:?}");
        }
        told.sort();
        let end = "can't be kept, so nothing is changed: Operation not permitted (os error 1)";
        let line = |what: &str| format!("{name}: its {what} {end}");
        let expected = [
            line("access control list system.posix_acl_access"),
            line("extended attribute user.empty"),
            line("extended attribute user.note"),
        ];
        assert_eq!(told, expected);
    }
}

/// What a new file is open to while it is not there yet, by its mode and its list.
#[track_caller]
fn is_no_more_open(folder: &Folder, left: &str, old: &str) {
    let (new_mode, old_mode) = (mode(folder, left), mode(folder, old));
    let is_list = |(name, _): &(CString, _)| name.as_c_str() == ACCESS_LIST;
    let list_of = |name| all(folder, name).into_iter().find(is_list);
    let same = list_of(left) == list_of(old);
    // The owner's own rights are his to give; a list counts as a whole.
    let wider = new_mode & !old_mode & 0o077;
    assert_eq!(wider, 0, "{new_mode:o} for {old_mode:o}");
    assert!(
        same || new_mode & 0o077 == 0,
        "{new_mode:o} without its list"
    );
}

#[test]
fn the_new_file_is_never_more_open_than_the_old_one() {
    for permissions in [None, Some(0o600), Some(0o640), Some(0o604)] {
        for (words, name) in REPLACING {
            let test = format!("attributes-moments-{:o}", permissions.unwrap_or(0));
            let folder = rich(&test);
            if let Some(permissions) = permissions {
                let file = File::open(folder.path.join(name)).expect("it is there");
                attributes::remove(&file, ACCESS_LIST).expect("it is ours");
                file.set_permissions(Permissions::from_mode(permissions))
                    .expect("it is ours");
            }
            let calls = listed(&folder, words);
            folder.put(name, &old(name));
            let renamed = calls.iter().position(|call| call == "rename");
            let renamed = renamed.expect("it is there");
            let mut seen = 0;
            for at in 1..=renamed {
                for how in ["before", "after"] {
                    let killed = run_with(&folder, words, how, at);
                    assert_eq!(killed.status.code(), None, "{killed:?}");
                    for left in folder.names().iter().filter(|name| name.starts_with('.')) {
                        is_no_more_open(&folder, left, name);
                        fs::remove_file(folder.path.join(left)).expect("it is there");
                        seen += 1;
                    }
                }
            }
            assert!(seen > 4, "{seen}");
        }
    }
}

/// A folder that everybody may write to, with the command in it: the tests' own may be
/// closed to others.
fn open_to_all() -> Folder {
    let name = format!("kerbcanopy-attributes-group-{}", std::process::id());
    let folder = Folder::below(&std::env::temp_dir(), &name);
    let all_may = Permissions::from_mode(0o777);
    fs::set_permissions(&folder.path, all_may).expect("it is ours");
    fs::copy(KERBCANOPY, folder.path.join("kerbcanopy")).expect("it can be copied");
    folder.put("types", &blank());
    data(&folder, 7);
    folder
}

/// Adds a record to a book of root's with these permissions, as this user of a group of
/// its own. Gives what came of it, and the permissions and the group then.
fn add_as(user: Option<u32>, folder: &Folder, mode: u32) -> (Ran, u32, u32) {
    let book = folder.path.join("book");
    let _ = fs::remove_file(&book);
    folder.put("book", &plain(4, 200, &[9, 14]));
    fs::set_permissions(&book, Permissions::from_mode(mode)).expect("it is ours");
    let mut command = Command::new(folder.path.join("kerbcanopy"));
    command.args(ADD).current_dir(&folder.path);
    if let Some(user) = user {
        command.uid(user).gid(user);
    }
    let ran = Ran::of(command.output().expect("the command starts"));
    let new = fs::metadata(&book).expect("it is there");
    (ran, new.mode() & 0o7777, new.gid())
}

#[test]
fn a_group_that_can_t_be_kept() {
    // Only root has files of groups that it is not in, and can be somebody else.
    let root = fs::metadata("/proc/self").expect("it is there").uid() == 0;
    let user = root.then_some(65534);
    let folder = open_to_all();
    // The group may do what all others may, so that it doesn't matter which it is.
    let (ran, mode, group) = add_as(user, &folder, 0o666);
    assert_eq!((ran.status, mode), (0, 0o666), "{ran:?}");
    assert!(!root || group == 65534);
    let (ran, mode, group) = add_as(user, &folder, 0o646);
    match root {
        true => ran.troubles(
            "book: its group 0 can't be kept, and another would get what that one may do, \
             so nothing is changed",
        ),
        false => assert_eq!(ran.status, 0),
    }
    assert_eq!(mode, 0o646);
    assert!(!root || group == 0);
    let left = folder.names();
    assert!(!left.iter().any(|name| name.starts_with('.')), "{left:?}");
    fs::remove_dir_all(&folder.path).expect("it is ours");
}
