//! A file replaced as a whole: the bytes go to a new file beside it, which takes
//! its name once they are on the disk. Until then the old file is as it was.

use std::ffi::OsStr;
use std::fs::{self, File, OpenOptions};
use std::io::{self, Write};
use std::os::unix::fs::OpenOptionsExt;
use std::path::{Path, PathBuf};
use std::process;

use crate::keep;

/// What a new file may be that replaces none, before the user's own mask.
pub const OPEN: u32 = 0o666;
/// What the name of a new file starts and ends with until it has its own.
const BEGINNING: &str = ".kerbcanopy-";
const ENDING: &str = ".new";

/// Writes the bytes to the file. What is no file, a device or a pipe, has nothing
/// to be replaced and is written to as it is.
pub fn write(target: &Path, bytes: &[u8]) -> io::Result<()> {
    let target = behind_links(target)?;
    match fs::metadata(&target) {
        Ok(old) if !old.is_file() => {
            let mut file = OpenOptions::new().write(true).open(&target)?;
            file.write_all(bytes)
        }
        Ok(_) => {
            // A file that may not be written to is not to be replaced either.
            let old = OpenOptions::new().write(true).open(&target)?;
            replace(&target, Some(&old), bytes)
        }
        Err(_) => replace(&target, None, bytes),
    }
}

/// The file that links lead to, there or not: it is replaced, and they stay.
fn behind_links(target: &Path) -> io::Result<PathBuf> {
    let mut target = target.to_path_buf();
    loop {
        match fs::metadata(&target) {
            // A pipe has no path of its own.
            Ok(_) => return Ok(fs::canonicalize(&target).unwrap_or(target)),
            Err(error) if error.kind() != io::ErrorKind::NotFound => return Err(error),
            Err(_) => {}
        }
        match fs::read_link(&target) {
            Ok(link) => target = folder_of(&target).join(link),
            Err(_) => return Ok(target),
        }
    }
}

fn replace(target: &Path, old: Option<&File>, bytes: &[u8]) -> io::Result<()> {
    let (path, file) = beside(target, old.map_or(OPEN, |_| keep::CLOSED))?;
    let written = old.map_or(Ok(()), |old| keep::take_over(&file, old));
    let written = written.and_then(|()| fill(file, bytes));
    let written = written.and_then(|()| fs::rename(&path, target));
    if written.is_err() {
        let _ = fs::remove_file(&path);
        return written;
    }
    // The new name is kept once its folder is on the disk; a folder that can't be
    // opened for that doesn't undo what was written.
    if let Ok(folder) = File::open(folder_of(target)) {
        let _ = folder.sync_all();
    }
    Ok(())
}

/// Writes the bytes to a new file, and brings them to the disk.
pub fn fill(mut file: File, bytes: &[u8]) -> io::Result<()> {
    file.write_all(bytes)?;
    file.sync_all()
}

/// A new file in the target's folder that nobody else has.
pub fn beside(target: &Path, mode: u32) -> io::Result<(PathBuf, File)> {
    for number in 0.. {
        // Short, whatever the target's own name is.
        let new = format!("{BEGINNING}{}-{number}{ENDING}", process::id());
        let path = folder_of(target).join(new);
        match make(&path, mode) {
            Err(error) if error.kind() == io::ErrorKind::AlreadyExists => {}
            opened => return opened.map(|file| (path, file)),
        }
    }
    Err(io::ErrorKind::AlreadyExists.into())
}

/// Whether a file of this name was made by `beside`.
pub fn is_beside(name: &OsStr) -> bool {
    let numbers = name
        .to_str()
        .and_then(|name| name.strip_prefix(BEGINNING)?.strip_suffix(ENDING));
    let (process, number) = numbers
        .and_then(|numbers| numbers.split_once('-'))
        .unwrap_or_default();
    let is_number =
        |text: &str| !text.is_empty() && text.bytes().all(|digit| digit.is_ascii_digit());
    is_number(process) && is_number(number)
}

/// Makes a file, with these permissions at most.
pub fn make(path: &Path, mode: u32) -> io::Result<File> {
    OpenOptions::new()
        .write(true)
        .create_new(true)
        .mode(mode)
        .open(path)
}

pub fn folder_of(target: &Path) -> &Path {
    match target.parent() {
        Some(folder) if !folder.as_os_str().is_empty() => folder,
        _ => Path::new("."),
    }
}

#[cfg(test)]
mod tests {
    use super::*;

    #[test]
    fn the_names_of_new_files() {
        for name in [".kerbcanopy-1-0.new", ".kerbcanopy-4194304-17.new"] {
            assert!(is_beside(OsStr::new(name)), "{name}");
        }
        for name in [
            ".kerbcanopy-book-7.new",
            ".kerbcanopy-1.new",
            ".kerbcanopy-1-.new",
            ".kerbcanopy--1.new",
            ".kerbcanopy-1-2-3.new",
            ".kerbcanopy-1-+2.new",
            ".kerbcanopy-1-2",
            "kerbcanopy-1-2.new",
            ".kerbcanopy-.new",
            "",
        ] {
            assert!(!is_beside(OsStr::new(name)), "{name}");
        }
    }
}
