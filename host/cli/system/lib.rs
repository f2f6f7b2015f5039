//! What the command asks of the system that Rust's own library has no words for: a
//! file's extended attributes, and whether standard output was there when the program
//! started. The calls are the C library's, which every program here is linked to; the
//! command itself has no unsafe code.
#![deny(unsafe_op_in_unsafe_fn)]

pub mod attributes;
pub mod streams;
