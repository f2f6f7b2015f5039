//! The command with the calls by which it changes files counted, and one of them failed
//! or the last: `calls.c`.

use std::fs;
use std::path::{Path, PathBuf};
use std::process::{Command, Output};
use std::sync::OnceLock;

use crate::common::Folder;

/// Builds the counting library once.
fn library() -> &'static Path {
    static BUILT: OnceLock<PathBuf> = OnceLock::new();
    BUILT.get_or_init(|| {
        let source = Path::new(env!("CARGO_MANIFEST_DIR")).join("tests/command/book/calls.c");
        let built = Path::new(env!("CARGO_TARGET_TMPDIR")).join("calls.so");
        let flags = ["-shared", "-fPIC", "-O1", "-Wall", "-Wextra", "-Werror"];
        let status = Command::new("gcc")
            .args(flags)
            .arg("-o")
            .args([&built, &source])
            .arg("-ldl")
            .status();
        assert!(status.expect("gcc starts").success());
        built
    })
}

/// Runs the words with something to happen at one of its calls, counted from 1.
pub fn run_with(folder: &Folder, words: &[&str], how: &str, at: usize) -> Output {
    with_error(folder, words, how, at, 28)
}

/// The same, with another error.
pub fn with_error(folder: &Folder, words: &[&str], how: &str, at: usize, error: i32) -> Output {
    let mut command = folder.command(words);
    command.env("LD_PRELOAD", library());
    command.env("CALLS_HOW", how);
    command.env("CALLS_AT", at.to_string());
    command.env("CALLS_ERROR", error.to_string());
    command.output().expect("the command starts")
}

/// Runs the words, and gives a file another name before one of its calls.
pub fn run_linked(folder: &Folder, words: &[&str], from: &str, to: &str, at: usize) -> Output {
    let mut command = folder.command(words);
    command.env("LD_PRELOAD", library());
    command.env("CALLS_HOW", "linked");
    command.env("CALLS_FROM", from).env("CALLS_TO", to);
    command.env("CALLS_AT", at.to_string());
    command.output().expect("the command starts")
}

/// Runs the words, and gives the names of the calls that they come to.
pub fn listed(folder: &Folder, words: &[&str]) -> Vec<String> {
    let log = folder.path.join("calls.log");
    let mut command = folder.command(words);
    command.env("LD_PRELOAD", library());
    command.env("CALLS_LOG", &log);
    let output = command.output().expect("the command starts");
    assert!(output.status.success(), "{output:?}");
    let calls = fs::read_to_string(&log).expect("they were listed");
    fs::remove_file(&log).expect("it is there");
    calls.lines().map(String::from).collect()
}
