//! The extended attributes of an open file, an access control list among them.

use std::ffi::{CStr, CString, c_char, c_int, c_void};
use std::fs::File;
use std::io;
use std::os::fd::AsRawFd;

/// The attribute that a file's access control list is.
pub const ACCESS_LIST: &CStr = c"system.posix_acl_access";

/// What a call says whose room was too small.
const OUT_OF_RANGE: i32 = 34;

unsafe extern "C" {
    fn flistxattr(fd: c_int, list: *mut c_char, size: usize) -> isize;
    fn fgetxattr(fd: c_int, name: *const c_char, value: *mut c_void, size: usize) -> isize;
    fn fsetxattr(
        fd: c_int,
        name: *const c_char,
        value: *const c_void,
        size: usize,
        flags: c_int,
    ) -> c_int;
    fn fremovexattr(fd: c_int, name: *const c_char) -> c_int;
}

/// The names of all that this user may know of. A file system without attributes gives
/// an error of the kind `Unsupported`.
pub fn names(file: &File) -> io::Result<Vec<CString>> {
    // SAFETY: the list is written to the room that is lent, no further than its size.
    let list = filled(|room, size| unsafe { flistxattr(file.as_raw_fd(), room.cast(), size) })?;
    let names = list
        .split(|byte| *byte == 0)
        .filter(|name| !name.is_empty());
    Ok(names.flat_map(CString::new).collect())
}

/// The value of one.
pub fn value(file: &File, name: &CStr) -> io::Result<Vec<u8>> {
    // SAFETY: the name ends in a zero byte, and the value is written to the room that is
    // lent, no further than its size.
    filled(|room, size| unsafe { fgetxattr(file.as_raw_fd(), name.as_ptr(), room.cast(), size) })
}

/// Gives the file one, in place of what it has of that name.
pub fn set(file: &File, name: &CStr, value: &[u8]) -> io::Result<()> {
    let (fd, bytes) = (file.as_raw_fd(), value.as_ptr().cast());
    // SAFETY: the name ends in a zero byte, and as many bytes are read as the value has.
    done(unsafe { fsetxattr(fd, name.as_ptr(), bytes, value.len(), 0) })
}

/// Takes one away.
pub fn remove(file: &File, name: &CStr) -> io::Result<()> {
    // SAFETY: the name ends in a zero byte.
    done(unsafe { fremovexattr(file.as_raw_fd(), name.as_ptr()) })
}

/// What a call writes that first says how much that is.
fn filled(call: impl Fn(*mut u8, usize) -> isize) -> io::Result<Vec<u8>> {
    loop {
        let Ok(size) = usize::try_from(call(std::ptr::null_mut(), 0)) else {
            return Err(io::Error::last_os_error());
        };
        let mut bytes = vec![0; size];
        match usize::try_from(call(bytes.as_mut_ptr(), size)) {
            Ok(written) if written <= size => {
                bytes.truncate(written);
                return Ok(bytes);
            }
            // It has grown meanwhile.
            Ok(_) => {}
            Err(_) => {
                let error = io::Error::last_os_error();
                if error.raw_os_error() != Some(OUT_OF_RANGE) {
                    return Err(error);
                }
            }
        }
    }
}

fn done(result: c_int) -> io::Result<()> {
    match result {
        0 => Ok(()),
        _ => Err(io::Error::last_os_error()),
    }
}
