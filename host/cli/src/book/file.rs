//! A book's file: made where there is none, and changed as a whole by one program at a
//! time. The new bytes go to a file beside it, which takes its name once they are on the
//! disk, so that readers need no lock: they have the old book or the new one.

use std::ffi::OsStr;
use std::fs::{self, File, Metadata, OpenOptions};
use std::io::{self, ErrorKind, Read};
use std::os::unix::fs::MetadataExt;
use std::path::{Path, PathBuf};

use kerbcanopy::BOOK_LIMIT;

use crate::keep;
use crate::replace::{OPEN, beside, fill, folder_of, is_beside, make};

/// Why a file is not made.
const THERE: &str = "it is there already, and not replaced";
/// What a file system says that has no links.
const NOT_PERMITTED: i32 = 1;
/// How often a file that was waited for may turn out to be replaced.
const TRIES: usize = 10_000;

/// Makes the file, or says what the trouble is. It gets its name by a link, which fails
/// where that is taken, so that no file is ever replaced or seen half written.
pub fn create(path: &Path, bytes: &[u8]) -> Result<(), String> {
    if fs::symlink_metadata(path).is_ok() {
        return Err(THERE.into());
    }
    let (new, file) = beside(path, OPEN).map_err(told)?;
    let made = fill(file, bytes).and_then(|()| fs::hard_link(&new, path));
    // Whether or not it has the other name as well.
    let _ = fs::remove_file(&new);
    made.map_err(|error| match (error.kind(), error.raw_os_error()) {
        (ErrorKind::AlreadyExists, _) => THERE.into(),
        (ErrorKind::Unsupported, _) | (_, Some(NOT_PERMITTED)) => {
            format!("no book can be made where files can't be linked: {error}")
        }
        _ => told(error),
    })?;
    settle(path).map_err(|error| unsettled("the book is made", &error))
}

/// A book's file that nobody else changes until this is dropped.
pub struct Locked {
    /// The file behind links, which stay.
    path: PathBuf,
    file: File,
    metadata: Metadata,
}

impl Locked {
    /// Waits until nobody else changes the file. Says what the trouble is where it can't
    /// be written to, or not be locked.
    pub fn open(name: &Path) -> Result<Locked, String> {
        for _ in 0..TRIES {
            let path = fs::canonicalize(name).map_err(told)?;
            // What may not be written to is not to be replaced either.
            let opened = OpenOptions::new().read(true).write(true).open(&path);
            let file = opened.map_err(told)?;
            let opened = file.metadata().map_err(told)?;
            if !opened.is_file() {
                return Err("it is no regular file, and only one can be changed".into());
            }
            file.lock()
                .map_err(|error| format!("it can't be locked, so it is not changed: {error}"))?;
            // Whoever had the lock before may have put another file in its place.
            let metadata = fs::metadata(name).map_err(told)?;
            if (metadata.dev(), metadata.ino()) == (opened.dev(), opened.ino()) {
                let locked = Locked {
                    path,
                    file,
                    metadata,
                };
                locked.drop_leftover();
                locked.has_one_name()?;
                return Ok(locked);
            }
        }
        Err("it is replaced by others over and over, so it is not changed".into())
    }

    /// Says what the trouble is where the file has another name, which would keep the old
    /// book and take an identifier once more.
    fn has_one_name(&self) -> Result<(), String> {
        let names = self.file.metadata().map_err(told)?.nlink();
        match names > 1 {
            true => Err(format!(
                "it has {names} names (hard links), and a change would part them, so it is not changed; \
                 take the others away, or make them symbolic links"
            )),
            false => Ok(()),
        }
    }

    /// Takes away the hidden name that the book has beside its own where `book new` was
    /// killed in between, or has not come to it yet: it takes that away itself, or finds
    /// it gone. What can't be taken away stays another name.
    fn drop_leftover(&self) {
        if self.metadata.nlink() < 2 {
            return;
        }
        let entries = fs::read_dir(folder_of(&self.path));
        for entry in entries.into_iter().flatten().flatten() {
            let name = entry.file_name();
            if is_beside(&name) && self.is_another_name(&name) {
                let _ = fs::remove_file(entry.path());
            }
        }
    }

    /// Whether what has this name in the book's folder is the book, under another name.
    fn is_another_name(&self, name: &OsStr) -> bool {
        let of = fs::symlink_metadata(folder_of(&self.path).join(name));
        let book = (self.metadata.dev(), self.metadata.ino());
        self.path.file_name() != Some(name) && of.is_ok_and(|of| (of.dev(), of.ino()) == book)
    }

    /// The bytes, up to one over the limit.
    pub fn read(&self) -> Result<Vec<u8>, String> {
        let mut bytes = Vec::new();
        let most = BOOK_LIMIT as u64 + 1;
        let read = (&self.file).take(most).read_to_end(&mut bytes);
        read.map(|_| bytes).map_err(told)
    }

    /// Puts these bytes in its place, on the disk, or says what the trouble is.
    pub fn replace(self, bytes: &[u8]) -> Result<(), String> {
        let new = self.new_path();
        let replaced = self.write_new(&new, bytes).map_err(told);
        // As late as can be: a name that it is given from here on is not seen.
        let replaced = replaced.and_then(|()| self.has_one_name());
        let replaced = replaced.and_then(|()| fs::rename(&new, &self.path).map_err(told));
        if let Err(trouble) = replaced {
            let _ = fs::remove_file(&new);
            return Err(trouble);
        }
        settle(&self.path).map_err(|error| unsettled("the book is changed", &error))
    }

    /// Of this file nobody but the owner of its lock writes this one, so that what was
    /// left by a kill is in the way of nothing. Short, whatever the book's own name is.
    fn new_path(&self) -> PathBuf {
        let new = format!(".kerbcanopy-book-{}.new", self.metadata.ino());
        folder_of(&self.path).join(new)
    }

    fn write_new(&self, new: &Path, bytes: &[u8]) -> io::Result<()> {
        match fs::remove_file(new) {
            Err(error) if error.kind() != ErrorKind::NotFound => return Err(error),
            _ => {}
        }
        let file = make(new, keep::CLOSED)?;
        keep::take_over(&file, &self.file)?;
        fill(file, bytes)
    }
}

/// Brings the names in a file's folder to the disk. A file system that can't be asked to
/// does so by itself.
fn settle(path: &Path) -> io::Result<()> {
    let folder = File::open(folder_of(path))?;
    match folder.sync_all().map_err(|error| (error.kind(), error)) {
        Err((ErrorKind::InvalidInput | ErrorKind::Unsupported, _)) | Ok(()) => Ok(()),
        Err((_, error)) => Err(error),
    }
}

fn told(error: io::Error) -> String {
    error.to_string()
}

/// That it is done, and what is not known of it.
fn unsettled(done: &str, error: &io::Error) -> String {
    format!(
        "{done}, but a loss of power may undo that: its folder can't be brought to the disk: {error}"
    )
}
