//! The streams that the program was started with. Rust's own library puts /dev/null in
//! the place of one that is closed, before `main`, and takes one that can't be written
//! to for one that nobody wants: what is told there would be lost, and nobody would
//! know. So whether they are there is asked before, and what is written goes to the
//! files behind them.

use std::ffi::c_int;
use std::fs::File;
use std::io;
use std::os::fd::{AsFd, BorrowedFd};
use std::sync::atomic::{AtomicBool, Ordering};

/// The call that asks for a descriptor's flags, and what it says where there is none.
const GET_FLAGS: c_int = 1;
const NO_DESCRIPTOR: i32 = 9;

/// Whether standard output and standard error were closed.
static CLOSED: [AtomicBool; 2] = [const { AtomicBool::new(false) }; 2];

unsafe extern "C" {
    fn fcntl(fd: c_int, command: c_int, ...) -> c_int;
}

// SAFETY: the section is a list of functions of this type, which the C library calls
// before it comes to Rust's own; this one needs nothing that is set up later.
#[used]
#[unsafe(link_section = ".init_array")]
static LOOK: extern "C" fn() = look;

extern "C" fn look() {
    for (closed, number) in CLOSED.iter().zip(1..) {
        // SAFETY: this asks for flags, and changes nothing.
        let flags = unsafe { fcntl(number, GET_FLAGS) };
        closed.store(flags == -1, Ordering::Relaxed);
    }
}

/// Standard output as a file, or that there was none when the program started.
pub fn output() -> io::Result<File> {
    own(io::stdout(), &CLOSED[0])
}

/// Standard error as a file, or that there was none when the program started.
pub fn error() -> io::Result<File> {
    own(io::stderr(), &CLOSED[1])
}

/// The file that the program has open under this number, or that there is none.
pub fn other(number: i32) -> io::Result<File> {
    if number < 0 {
        return Err(io::Error::from_raw_os_error(NO_DESCRIPTOR));
    }
    // SAFETY: it is borrowed for one call, which copies it where it is open and fails
    // where it is not; nothing else runs in this program that could close it meanwhile.
    let file = unsafe { BorrowedFd::borrow_raw(number) };
    file.try_clone_to_owned().map(File::from)
}

fn own(stream: impl AsFd, closed: &AtomicBool) -> io::Result<File> {
    match closed.load(Ordering::Relaxed) {
        true => Err(io::Error::from_raw_os_error(NO_DESCRIPTOR)),
        false => stream.as_fd().try_clone_to_owned().map(File::from),
    }
}
