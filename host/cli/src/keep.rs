//! What a file takes over from the one that it replaces: owner and group as far as this
//! user may give them, permissions, the access control list and the other extended
//! attributes. What can't be taken over is trouble, and nothing is replaced then.

use std::ffi::{CStr, CString, OsStr};
use std::fs::{File, Metadata};
use std::io::{self, ErrorKind};
use std::os::unix::ffi::OsStrExt;
use std::os::unix::fs::{MetadataExt, fchown};

use system::attributes::{self, ACCESS_LIST};

use crate::words::shown;

/// The permissions that a file is made with which is to replace another. Until it has
/// the old one's it is open to nobody but this user, who may write to the old one.
pub const CLOSED: u32 = 0o600;

/// Gives all of it to a new file that was made with `CLOSED`. The access control list
/// comes last and sets the permissions as well: set without it, those of the group
/// would be the list's mask, which is more than the group itself may do.
pub fn take_over(new: &File, old: &File) -> io::Result<()> {
    let kept = old.metadata()?;
    let names = names(old)?;
    give(new, &kept)?;
    if new.metadata()?.gid() != kept.gid() && (is_listed(&names) || !is_for_all(&kept)) {
        return Err(io::Error::other(format!(
            "its group {} can't be kept, and another would get what that one may do, so nothing is changed",
            kept.gid(),
        )));
    }
    if !is_listed(&names) && is_listed(&self::names(new)?) {
        // Its folder gives one to every new file.
        attributes::remove(new, ACCESS_LIST)?;
    }
    let (lists, others): (Vec<_>, Vec<_>) = names.iter().partition(|name| is_list(name));
    for name in others.into_iter().chain(lists) {
        copy(name, new, old).map_err(|error| not_kept(name, &error))?;
    }
    match new.metadata()?.mode() == kept.mode() {
        true => Ok(()),
        false => new.set_permissions(kept.permissions()),
    }
}

/// Gives a file away as far as this user may: who could change it can do so again.
fn give(new: &File, kept: &Metadata) -> io::Result<()> {
    let made = new.metadata()?;
    if (made.uid(), made.gid()) != (kept.uid(), kept.gid()) {
        let _ = fchown(new, Some(kept.uid()), Some(kept.gid()))
            .or_else(|_| fchown(new, None, Some(kept.gid())));
    }
    Ok(())
}

/// Whether the group may do what all others may, so that it doesn't matter which it is.
fn is_for_all(kept: &Metadata) -> bool {
    kept.mode() >> 3 & 0o7 == kept.mode() & 0o7
}

/// The attributes that are there; a file system that knows none has none.
fn names(file: &File) -> io::Result<Vec<CString>> {
    match attributes::names(file) {
        Err(error) if error.kind() == ErrorKind::Unsupported => Ok(Vec::new()),
        Err(error) => Err(io::Error::other(format!(
            "its extended attributes can't be read, so nothing is changed: {error}"
        ))),
        names => names,
    }
}

fn is_listed(names: &[CString]) -> bool {
    names.iter().any(|name| name.as_c_str() == ACCESS_LIST)
}

/// Whether it is an access control list, of whatever kind.
fn is_list(name: &CStr) -> bool {
    name.to_bytes().starts_with(b"system.")
}

fn copy(name: &CStr, new: &File, old: &File) -> io::Result<()> {
    let value = attributes::value(old, name)?;
    // What the system gives to every file it may let nobody set.
    match attributes::value(new, name) {
        Ok(there) if there == value => Ok(()),
        _ => attributes::set(new, name, &value),
    }
}

fn not_kept(name: &CStr, error: &io::Error) -> io::Error {
    let what = match is_list(name) {
        true => "access control list",
        false => "extended attribute",
    };
    let name = shown(OsStr::from_bytes(name.to_bytes()));
    io::Error::other(format!(
        "its {what} {name} can't be kept, so nothing is changed: {error}"
    ))
}
