//! The command as it is used: the binary on files, with its words, its streams
//! and its exit status.

#[path = "../common/mod.rs"]
mod common;

mod arguments;
mod attributes;
mod book;
mod check;
mod colour;
mod compare;
mod data;
mod dump;
mod explain;
mod files;
mod flags;
mod json;
mod limits;
mod output;
mod page;
mod record;
mod refusals;
mod replace;
mod stamps;
mod steps;
mod streams;
