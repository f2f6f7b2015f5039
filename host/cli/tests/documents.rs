//! Every command that a document shows is run, and what it prints is what the
//! document says. A block marked `console` has commands behind `$ `, each with
//! its output below; a block marked `c` whose first line is a comment with a
//! file's name is that file.

use std::fs;
use std::os::unix::fs::symlink;
use std::path::{Path, PathBuf};
use std::process::Command;

struct Block {
    line: usize,
    mark: String,
    lines: Vec<String>,
}

fn root() -> PathBuf {
    let root = Path::new(env!("CARGO_MANIFEST_DIR")).join("../..");
    root.canonicalize().expect("the repository is there")
}

/// The documents, by their paths from the root.
fn documents() -> Vec<String> {
    let docs = fs::read_dir(root().join("docs")).expect("docs can be read");
    let names = docs.map(|entry| entry.expect("it can be read").file_name());
    let names = names.map(|name| format!("docs/{}", name.display()));
    let mut documents: Vec<_> = names.filter(|name| name.ends_with(".md")).collect();
    documents.push("README.md".into());
    documents.sort();
    documents
}

/// The fenced blocks of a document. Outside of `console` nothing may look like a
/// command with its prompt, so that none goes untested.
fn blocks(document: &str) -> Vec<Block> {
    let text = fs::read_to_string(root().join(document)).expect("it can be read");
    let mut blocks: Vec<Block> = Vec::new();
    let mut open = false;
    for (index, line) in text.lines().enumerate() {
        if let Some(mark) = line.trim_start().strip_prefix("```") {
            if !open {
                blocks.push(Block {
                    line: index + 1,
                    mark: mark.trim().into(),
                    lines: Vec::new(),
                });
            }
            open = !open;
        } else {
            let console = open && blocks.last().is_some_and(|block| block.mark == "console");
            let prompt = line.trim_start().starts_with("$ ");
            let here = format!("{document}:{}", index + 1);
            assert!(console || !prompt, "{here}: a command outside of console");
            if open && let Some(block) = blocks.last_mut() {
                block.lines.push(line.into());
            }
        }
    }
    assert!(!open, "{document}: a block is not closed");
    blocks
}

/// A folder in which the repository's files stand and others can be written.
fn place(document: &str) -> PathBuf {
    let name = document.replace('/', "-");
    let place = Path::new(env!("CARGO_TARGET_TMPDIR")).join(format!("shown-{name}"));
    let _ = fs::remove_dir_all(&place);
    fs::create_dir_all(&place).expect("it can be made");
    for entry in fs::read_dir(root()).expect("the root can be read") {
        let name = entry.expect("it can be read").file_name();
        symlink(root().join(&name), place.join(&name)).expect("a link can be made");
    }
    place
}

/// Runs a command as a reader would type it. What `make` says on standard error
/// is how far it is, and not shown.
fn output(place: &Path, command: &str) -> String {
    let bin = Path::new(env!("CARGO_BIN_EXE_kerbcanopy"));
    let bin = bin.parent().expect("it stands in a folder");
    let path = std::env::var("PATH").unwrap_or_default();
    let streams = match command.starts_with("make ") {
        true => "2>/dev/null",
        false => "2>&1",
    };
    let output = Command::new("sh")
        .args(["-c", &format!("{{ {command}\n}} {streams}")])
        .current_dir(place)
        .env("PATH", format!("{}:{path}", bin.display()))
        .env_remove("MAKEFLAGS")
        .env_remove("MAKELEVEL")
        .output()
        .expect("a shell starts");
    String::from_utf8(output.stdout).expect("its words are text")
}

/// The commands of a block with the output that is shown below each.
fn commands(block: &Block) -> Vec<(String, String)> {
    let mut commands: Vec<(String, String)> = Vec::new();
    for line in &block.lines {
        match (line.strip_prefix("$ "), commands.last_mut()) {
            (Some(command), _) => commands.push((command.into(), String::new())),
            (None, Some((command, expected))) if expected.is_empty() && command.ends_with('\\') => {
                command.push_str(&format!("\n{line}"));
            }
            (None, Some((_, expected))) => expected.push_str(&format!("{line}\n")),
            (None, None) => panic!("line {}: output without a command", block.line),
        }
    }
    commands
}

/// The name that a C block gives to itself: `/* blank.c: .. */` in its first line.
fn file_name(block: &Block) -> Option<&str> {
    let first = block.lines.first()?.strip_prefix("/* ")?;
    let name = first.split([':', ' ']).next()?;
    name.ends_with(".c").then_some(name)
}

#[test]
fn what_the_documents_show_is_what_happens() {
    let mut differences = Vec::new();
    let mut run = 0;
    for document in documents() {
        let place = place(&document);
        for block in blocks(&document) {
            if let ("c", Some(name)) = (block.mark.as_str(), file_name(&block)) {
                let text = block.lines.join("\n") + "\n";
                fs::write(place.join(name), text).expect("it can be written");
            }
            if block.mark != "console" {
                continue;
            }
            for (command, expected) in commands(&block) {
                run += 1;
                let seen = output(&place, &command);
                if seen != expected {
                    differences.push(format!(
                        "{document}:{}: $ {command}\nshown:\n{expected}\nseen:\n{seen}",
                        block.line
                    ));
                }
            }
        }
    }
    assert!(differences.is_empty(), "{}", differences.join("\n"));
    assert!(run >= 20, "only {run} commands are shown");
}

/// The bytes that a picture shows, in order.
fn pictured(picture: &str) -> String {
    let picture = fs::read_to_string(root().join(picture)).expect("it can be read");
    let texts = picture.split("class=\"byte\"").skip(1);
    let bytes = texts.filter_map(|text| text.split(['>', '<']).nth(1));
    bytes.map(str::trim).collect()
}

#[test]
fn the_picture_shows_the_sample_s_bytes() {
    let bytes = |sample: &str| {
        let text = fs::read_to_string(root().join(sample)).expect("it can be read");
        let lines = text
            .lines()
            .map(|line| line.split('#').next().unwrap_or_default());
        lines.flat_map(str::split_whitespace).collect::<String>()
    };
    let expected = bytes("samples/rig.hex") + &bytes("samples/data/rig.hex");
    assert_eq!(pictured("docs/record.svg"), expected);
}

#[test]
fn the_documents_name_files_that_are_there() {
    for document in documents() {
        let text = fs::read_to_string(root().join(&document)).expect("it can be read");
        let folder = root().join(&document);
        let folder = folder.parent().expect("it stands in a folder");
        for link in text.split("](").skip(1) {
            let target = link.split([')', '#']).next().unwrap_or_default();
            let outside = target.is_empty() || target.contains("://");
            assert!(
                outside || folder.join(target).exists(),
                "{document}: no {target}"
            );
        }
        for word in text.split('`').skip(1).step_by(2) {
            let parts = ["/specs/", "/src/", "/proofs/"].map(|part| word.contains(part));
            let plain = !word.contains([' ', '*', '\n', '{']);
            let there = ["", "crates", "host"].map(|top| root().join(top).join(word).exists());
            assert!(
                !(plain && parts.contains(&true)) || there.contains(&true),
                "{document}: no {word}"
            );
        }
    }
}
