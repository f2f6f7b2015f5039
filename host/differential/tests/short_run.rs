//! A short run of the program, as `cargo test` can afford it.

use std::process::Command;

/// Runs the program and returns whether it succeeded, and its lines.
fn run(arguments: &[&str]) -> (bool, Vec<String>) {
    let output = Command::new(env!("CARGO_BIN_EXE_differential"))
        .args(arguments)
        .output()
        .expect("the program starts");
    let text = String::from_utf8(output.stdout).expect("its output is text");
    (
        output.status.success(),
        text.lines().map(String::from).collect(),
    )
}

/// The seed ran that many cases, met every number, and is the one that passed.
fn demand_passed(arguments: &[&str], seed_line: &str) {
    let (success, lines) = run(arguments);
    assert!(success);
    assert_eq!(lines[0], seed_line);
    assert_eq!(lines[lines.len() - 1], "1 passed, 0 failed");
}

#[test]
fn the_two_agree() {
    let arguments = ["--seed", "7", "--cases", "12000"];
    demand_passed(&arguments, "seed 7: 12000 cases, every number met");
}

#[test]
fn the_two_agree_in_exact_allocations() {
    let arguments = ["--exact", "--seed", "8", "--cases", "12000"];
    demand_passed(&arguments, "seed 8: 12000 cases, every number met");
}

/// Fresh seeds on every core: as many pass as there are, and none fails.
#[test]
fn the_two_agree_for_a_time() {
    let (success, lines) = run(&["--minutes", "0.02"]);
    assert!(success);
    assert!(lines[0].contains(" threads, seeds from "), "{}", lines[0]);
    let how_far = &lines[lines.len() - 2];
    assert!(how_far.ends_with(" per second, 0 differences"), "{how_far}");
    let last = &lines[lines.len() - 1];
    assert!(last.ends_with(" passed, 0 failed"), "{last}");
    assert!(!last.starts_with("0 "), "{last}");
}

/// The tables say how often everything was met.
#[test]
fn what_was_met_is_printed() {
    let (_, lines) = run(&["--seed", "9", "--cases", "9000"]);
    for title in [
        "number of input",
        "descriptors by kind",
        "data by kind",
        "records by kind",
        "stamps by kind",
        "books by kind",
        "by depth",
        "code ",
        "bodies",
        "place ",
        "room",
        "compared, differing in",
        "because",
        "stamps ",
        "byte of a Boolean",
        "ill formed by",
        "a body behind",
        "a number's value",
    ] {
        let table = lines.iter().any(|line| line.starts_with(title));
        assert!(table, "no table {title}");
    }
}

#[test]
fn unknown_arguments_are_refused() {
    for arguments in [
        &["--all"][..],
        &["--cases"],
        &["--seed", "x"],
        &["--minutes", "-1"],
        &["--minutes", "1", "--seed", "1"],
        &["--facts", "--seed", "1"],
        &["--facts", "--exact"],
        &["--facts", "--minutes", "1"],
    ] {
        let (success, lines) = run(arguments);
        assert!(!success && lines.is_empty(), "{arguments:?}");
    }
}
