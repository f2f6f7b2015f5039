//! The command's own streams under the names that a file can have.

use std::ffi::OsStr;
use std::fs;
use std::path::PathBuf;

use crate::replace::folder_of;

#[derive(Clone, Copy, Debug, PartialEq, Eq)]
pub enum Stream {
    Output,
    Error,
    /// Another file that the command was started with, by its number.
    Other(i32),
}

/// How many links are followed.
const LINKS: usize = 40;

/// The folders with a name for each file that the command has open.
const OPEN: [&str; 2] = ["/proc/self/fd", "/proc/thread-self/fd"];

/// The stream that this name leads to: a dash is standard output, and so are
/// `/dev/stdout`, `/dev/fd/1` and links to them. It is written to as it is, whatever
/// stands behind it: a file there may be one that others write to as well.
pub fn named(name: &OsStr) -> Option<Stream> {
    if name == "-" {
        return Some(Stream::Output);
    }
    let own = OPEN.map(|folder| fs::canonicalize(folder).ok());
    let mut path = PathBuf::from(name);
    for _ in 0..LINKS {
        let folder = fs::canonicalize(folder_of(&path)).ok()?;
        if own.iter().flatten().any(|own| *own == folder) {
            return match path.file_name()?.to_str()?.parse().ok()? {
                1 => Some(Stream::Output),
                2 => Some(Stream::Error),
                number => Some(Stream::Other(number)),
            };
        }
        path = folder.join(fs::read_link(&path).ok()?);
    }
    None
}

#[cfg(test)]
mod tests {
    use super::*;

    #[test]
    fn streams_have_several_names() {
        let of = |name: &str| named(OsStr::new(name));
        for name in [
            "-",
            "/dev/stdout",
            "/dev/fd/1",
            "/proc/self/fd/1",
            "/proc/thread-self/fd/1",
        ] {
            assert_eq!(of(name), Some(Stream::Output), "{name}");
        }
        assert_eq!(of("/dev/stdin"), Some(Stream::Other(0)));
        assert_eq!(of("/dev/fd/77"), Some(Stream::Other(77)));
        for name in ["/dev/stderr", "/dev/fd/2", "/dev/../dev/fd/./2"] {
            assert_eq!(of(name), Some(Stream::Error), "{name}");
        }
        for name in ["", "1", "./-", "/dev/null", "/dev/fd/none", "/none/1", "/"] {
            assert_eq!(of(name), None, "{name}");
        }
    }
}
