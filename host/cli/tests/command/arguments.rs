//! The words of the command line: options, operands, standard input, help.

use std::ffi::OsString;
use std::os::unix::ffi::OsStringExt;

use crate::common::books::plain;
use crate::common::descriptors::descriptor;
use crate::common::{Folder, sample};

const COMMANDS: [&str; 17] = [
    "check",
    "compare",
    "normal",
    "data",
    "dump",
    "explain",
    "value",
    "view",
    "difference",
    "little",
    "big",
    "read",
    "book new",
    "book check",
    "book add",
    "book find",
    "book list",
];

/// The words of a command's name, and more behind them.
fn with<'a>(command: &'a str, more: &[&'a str]) -> Vec<&'a str> {
    command.split(' ').chain(more.iter().copied()).collect()
}

fn rig(test: &str) -> Folder {
    let names = [
        "rig.hex",
        "reader.hex",
        "data/rig.hex",
        "data/rig-little.hex",
        "coat.hex",
        "data/coat.hex",
        "plating.hex",
        "data/plating.hex",
    ];
    let folder = Folder::with_samples(test, &names);
    folder.put("book", &plain(4, 200, &[9, 14]));
    folder
}

#[test]
fn options_stand_before_among_and_behind_the_operands() {
    let folder = rig("arguments-options");
    for words in [
        &["-o", "out", "little", "rig.hex", "data-rig.hex"][..],
        &["little", "-o", "out", "rig.hex", "data-rig.hex"],
        &["little", "rig.hex", "-o", "out", "data-rig.hex"],
        &["little", "rig.hex", "data-rig.hex", "-o", "out"],
        &["little", "rig.hex", "data-rig.hex", "--output", "out"],
        &["little", "--output=out", "rig.hex", "data-rig.hex"],
        &["little", "-o", "out", "--", "rig.hex", "data-rig.hex"],
    ] {
        folder.run(words).writes("out: 6 bytes written");
        assert_eq!(folder.read("out"), [0x19, 0, 9, 0, 0, 0]);
        std::fs::remove_file(folder.path.join("out")).expect("it is there");
    }
    for words in [
        &["--json", "value", "rig.hex", "data-rig.hex", "id"][..],
        &["value", "--json", "rig.hex", "data-rig.hex", "id"],
        &["value", "rig.hex", "--json", "data-rig.hex", "id"],
        &["value", "rig.hex", "data-rig.hex", "id", "--json"],
    ] {
        assert_eq!(folder.run(words).json().at("text").text(), "9");
    }
}

#[test]
fn words_need_not_be_utf_8() {
    let folder = rig("arguments-bytes");
    let of = |bytes: &[u8]| OsString::from_vec(bytes.to_vec());
    let words = ["normal", "rig.hex"].map(OsString::from);
    for option in [&[of(b"--output=\xFF=a")][..], &[of(b"-o"), of(b"\xFF=a")]] {
        folder
            .run(&[&words[..], option].concat())
            .writes("\\xFF=a: 20 bytes written");
        std::fs::remove_file(folder.path.join(of(b"\xFF=a"))).expect("it is there");
    }
    let wrong = folder.run(&[&words[..], &[of(b"--\xFF=1")]].concat());
    wrong.troubles("there is no option --\\xFF; see kerbcanopy --help");
    let wrong = folder.run(&[of(b"\xFE")]);
    wrong.troubles("there is no command \\xFE; see kerbcanopy --help");
}

#[test]
fn dashes_end_the_options() {
    let folder = Folder::new("arguments-dashes");
    folder.put("--all", &descriptor(0x03, &[]));
    let answer = "--all: accepted, 1 type\n  signed 32-bit integer, 4 bytes at 0\n";
    folder.run(&["check", "--", "--all"]).gives(answer);
    folder.run(&["--", "check", "--all"]).gives(answer);
    folder
        .run(&["check", "--all"])
        .troubles("check needs a DESCRIPTOR; see kerbcanopy check --help");
    folder
        .run(&["check", "--", "--", "--all"])
        .troubles("check can't take --all as well; see kerbcanopy check --help");
}

/// The words of every command, with `-` for each file in turn.
const FED: [(&[&str], &str); 25] = [
    (&["check", "-"], "rig.hex"),
    (&["compare", "-", "rig.hex"], "rig.hex"),
    (&["compare", "rig.hex", "-"], "rig.hex"),
    (&["normal", "-"], "rig.hex"),
    (&["data", "-", "data-rig.hex"], "rig.hex"),
    (&["data", "rig.hex", "-"], "data-rig.hex"),
    (&["dump", "-", "data-rig.hex"], "rig.hex"),
    (&["dump", "rig.hex", "-"], "data-rig.hex"),
    (&["explain", "-", "data-rig.hex"], "rig.hex"),
    (&["explain", "rig.hex", "-"], "data-rig.hex"),
    (&["value", "rig.hex", "-", "id"], "data-rig.hex"),
    (&["view", "-", "data-rig.hex", "id"], "rig.hex"),
    (
        &["difference", "-", "data-coat.hex", "end", "start"],
        "coat.hex",
    ),
    (&["difference", "coat.hex", "-", "1", "2"], "data-coat.hex"),
    (
        &[
            "difference",
            "coat.hex",
            "-",
            "1",
            "coat.hex",
            "data-coat.hex",
            "2",
        ],
        "data-coat.hex",
    ),
    (
        &[
            "difference",
            "coat.hex",
            "data-coat.hex",
            "1",
            "-",
            "data-coat.hex",
            "2",
        ],
        "coat.hex",
    ),
    (&["little", "rig.hex", "-"], "data-rig.hex"),
    (&["big", "-", "data-rig-little.hex"], "rig.hex"),
    (&["big", "rig.hex", "-"], "data-rig-little.hex"),
    (&["read", "-", "reader.hex", "data-rig.hex"], "rig.hex"),
    (&["read", "rig.hex", "-", "data-rig.hex"], "reader.hex"),
    (&["read", "rig.hex", "reader.hex", "-"], "data-rig.hex"),
    (&["book", "check", "-"], "book"),
    (&["book", "find", "-", "9"], "book"),
    (&["book", "list", "-"], "book"),
];

#[test]
fn a_dash_is_standard_input() {
    let folder = rig("arguments-stdin");
    for (words, file) in FED {
        let named: Vec<&str> = words
            .iter()
            .map(|word| if *word == "-" { file } else { word })
            .collect();
        let expected = folder.run(&named);
        let fed = folder.feed(&[words, &["--hex"]].concat(), &folder.read(file));
        assert_eq!(fed.status, 0, "{words:?}");
        let named = expected
            .text()
            .replace(&format!("{file}: "), "standard input: ");
        let fed = fed.text().replace(&format!("{file}: "), "standard input: ");
        assert_eq!(fed, named, "{words:?}");
    }
    let raw = folder.feed(&["check", "-"], &descriptor(0x03, &[]));
    raw.gives("standard input: accepted, 1 type\n  signed 32-bit integer, 4 bytes at 0\n");
    let refused = folder.feed(&["check", "-"], b"");
    refused.refuses(
        "standard input: refused with 2: fewer than 4 bytes are left where a descriptor should \
         start (input 1, the descriptor; place 0): [end]; 0 bytes left",
    );
}

#[test]
fn standard_input_is_read_once() {
    let folder = rig("arguments-twice");
    for words in [
        &["compare", "-", "-"][..],
        &["data", "-", "-"],
        &["dump", "-", "-"],
        &["explain", "-", "-"],
        &["value", "-", "-"],
        &["view", "-", "-", "0"],
        &["difference", "-", "-", "0", "0"],
        &["difference", "a", "-", "-", "b", "-", "-"],
        &["little", "-", "-"],
        &["big", "-", "-"],
        &["read", "-", "rig.hex", "-"],
    ] {
        let line = format!(
            "{0} can read standard input once; see kerbcanopy {0} --help",
            words[0]
        );
        folder.run(words).troubles(&line);
    }
    // A step may be a dash; it is a name.
    folder
        .feed(
            &["value", "rig.hex", "-", "-", "--hex"],
            &sample("data/rig.hex"),
        )
        .troubles("rig.hex: no member has the name -; there are \"t\", \"id\"");
}

#[test]
fn a_book_that_is_changed_stands_in_a_file() {
    let folder = rig("arguments-book");
    for words in [
        &["book", "add", "-", "plating.hex", "data-plating.hex"][..],
        &["book", "add", "-", "-", "-"],
        &["book", "new", "-", "--capacity=1", "--bytes=99"],
    ] {
        let name = words[..2].join(" ");
        folder.run(words).troubles(&format!(
            "{name} can't take standard input for a book; see kerbcanopy {name} --help"
        ));
    }
    folder
        .run(&["book", "add", "book", "-", "-"])
        .troubles("book add can read standard input once; see kerbcanopy book add --help");
}

#[test]
fn text_is_told_by_the_name_or_the_option() {
    let folder = rig("arguments-hex");
    for name in ["A.HEX", "a.Hex", "b.c.hex"] {
        folder.put(name, b"0004 0003 # an integer");
        assert_eq!(folder.run(&["check", name]).status, 0, "{name}");
    }
    folder.put("rig.txt", &sample("rig.hex"));
    assert_eq!(folder.run(&["check", "rig.txt"]).status, 1);
    assert_eq!(folder.run(&["check", "--hex", "rig.txt"]).status, 0);
    assert_eq!(folder.feed(&["check", "-"], &sample("rig.hex")).status, 1);
    assert_eq!(
        folder
            .feed(&["check", "-", "--hex"], &sample("rig.hex"))
            .status,
        0
    );
    folder.put("raw", &descriptor(0x03, &[]));
    folder
        .run(&["check", "--hex", "raw"])
        .troubles("raw: line 1: '\\x00' is no hexadecimal digit");
}

#[test]
fn help_goes_to_standard_output() {
    let folder = Folder::new("arguments-help");
    let whole = folder.run(&["--help"]);
    assert_eq!(whole.status, 0);
    assert!(whole.text().starts_with("usage: kerbcanopy COMMAND ..\n\n"));
    folder.run(&["-h"]).gives(whole.text());
    for command in COMMANDS {
        assert!(
            whole.text().contains(&format!("\n  {command} ")),
            "{command}"
        );
        let one = folder.run(&with(command, &["--help"]));
        assert_eq!(one.status, 0);
        assert!(
            one.text()
                .starts_with(&format!("usage: kerbcanopy {command} "))
        );
        for words in [
            with(command, &["-h"]),
            [vec!["--help"], with(command, &[])].concat(),
            with(command, &["missing", "--help"]),
            with(command, &["a", "b", "c", "d", "--html", "--help"]),
        ] {
            folder.run(&words).gives(one.text());
        }
    }
}

#[test]
fn a_first_word_alone_has_help_but_does_nothing() {
    let folder = Folder::new("arguments-family");
    let books = folder.run(&["book", "--help"]);
    assert_eq!(books.status, 0);
    let usage = "usage: kerbcanopy book COMMAND ..\n\n";
    assert!(books.text().starts_with(usage), "{}", books.text());
    let listed = books.text().lines().filter(|line| line.starts_with("  "));
    assert_eq!(listed.count(), 5);
    folder.run(&["-h", "book"]).gives(books.text());
    let see = "see kerbcanopy book --help";
    folder.run(&["book"]).troubles(&format!(
        "book needs one of new, check, add, find, list; {see}"
    ));
    for words in [&["book", "look"][..], &["book", "look", "--help"]] {
        folder
            .run(words)
            .troubles(&format!("there is no command book look; {see}"));
    }
    folder
        .run(&["book check", "a"])
        .troubles("there is no command book check; see kerbcanopy --help");
    // The two words needn't stand side by side.
    folder.put("a", &plain(4, 200, &[9, 14]));
    folder.run(&["book", "--", "list", "a"]).gives("9\n14\n");
    let ran = folder.run(&["book", "--json", "list", "a"]);
    assert_eq!(ran.json().at("place").number(), 2);
}

#[test]
fn the_version_goes_to_standard_output() {
    let folder = Folder::new("arguments-version");
    let version = format!("kerbcanopy {}\n", env!("CARGO_PKG_VERSION"));
    folder.run(&["--version"]).gives(&version);
    folder.run(&["-V"]).gives(&version);
    folder.run(&["book", "--version"]).gives(&version);
    for command in COMMANDS {
        folder.run(&with(command, &["--version"])).gives(&version);
        let words = [vec!["-V"], with(command, &["missing"])].concat();
        folder.run(&words).gives(&version);
    }
}

#[test]
fn a_difference_has_one_record_or_two() {
    let folder = rig("arguments-difference");
    let see = "see kerbcanopy difference --help";
    for (given, missing) in [(0, "DESCRIPTOR"), (1, "DATA"), (2, "PATH"), (3, "PATH")] {
        folder
            .run(&[vec!["difference"], vec!["a"; given]].concat())
            .troubles(&format!("difference needs a {missing}; {see}"));
    }
    for option in ["--all", "--table", "--html"] {
        folder
            .run(&["difference", "a", "b", "0", "0", option])
            .troubles(&format!("difference takes no {option}; {see}"));
    }
    let one = ["coat.hex", "data-coat.hex"];
    let same = [&["difference"], &one[..], &["2", "1"]].concat();
    let apart = [&["difference"], &one[..], &["2"], &one[..], &["1"]].concat();
    folder.run(&apart).gives(folder.run(&same).text());
}

#[test]
fn steps_of_a_path_that_stand_apart() {
    let folder = rig("arguments-apart");
    let hint = "a path of several steps is one word in quotes";
    let see = "see kerbcanopy difference --help";
    let run = |words: &[&str]| {
        let one = ["difference", "coat.hex", "data-coat.hex"];
        folder.run(&[&one[..], words].concat())
    };
    run(&["1", "0", "2"]).troubles(&format!("difference needs a PATH; {hint}; {see}"));
    run(&["1", "0", "2", "0", "0"])
        .troubles(&format!("difference can't take 0 as well; {hint}; {see}"));
    let missing = "No such file or directory (os error 2)";
    run(&["1", "0", "2", "0"]).troubles(&format!("0: {missing}; {hint}"));
    // What is there, or stands where no step would, is no step.
    run(&["1", "coat.hex", "2", "0"]).troubles(&format!("2: {missing}"));
    run(&["1", ".", "data-coat.hex", "0"]).troubles(".: Is a directory (os error 21)");
}

/// Words that are no use of the command, and what is said of them.
const WRONG: [(&[&str], &str); 28] = [
    (&[], "no command; see kerbcanopy --help"),
    (&["--json", "--hex"], "no command; see kerbcanopy --help"),
    (&["look"], "there is no command look; see kerbcanopy --help"),
    (&[""], "there is no command ; see kerbcanopy --help"),
    (
        &["\u{1b}[2J\n"],
        "there is no command \\x1B[2J\\x0A; see kerbcanopy --help",
    ),
    (
        &["check", "a", "--loud"],
        "there is no option --loud; see kerbcanopy --help",
    ),
    (
        &["check", "a", "--\u{7}"],
        "there is no option --\\x07; see kerbcanopy --help",
    ),
    (
        &["check", "a", "-x"],
        "there is no option -x; see kerbcanopy --help",
    ),
    (
        &["check", "a", "--all=1"],
        "--all takes no value; see kerbcanopy --help",
    ),
    (
        &["look", "--help"],
        "there is no command look; see kerbcanopy --help",
    ),
    (
        &["dump", "a", "b", "--table"],
        "dump takes no --table; see kerbcanopy dump --help",
    ),
    (
        &["data", "a", "b", "-o", "c"],
        "data takes no -o; see kerbcanopy data --help",
    ),
    (
        &["view", "a", "b", "--room", "1"],
        "view takes no --room; see kerbcanopy view --help",
    ),
    (&["normal", "a", "-o"], "-o needs the name of a file"),
    (&["normal", "a", "-o", ""], "-o needs the name of a file"),
    (&["normal", "a", "--output="], "-o needs the name of a file"),
    (&["normal", "a", "--room"], "--room needs a number of bytes"),
    (
        &["normal", "a", "--room", "-1"],
        "--room needs a number of bytes",
    ),
    (
        &["normal", "a", "--room=1k"],
        "--room needs a number of bytes",
    ),
    (
        &["explain", "a", "--html", "--json"],
        "explain gives --html or --json, not both; see kerbcanopy explain --help",
    ),
    (
        &["little", "a", "b", "--json", "-o", "-"],
        "little can't give --json and -o - in one; see kerbcanopy little --help",
    ),
    (
        &["book", "new", "--capacity=1", "--bytes=99"],
        "book new needs a FILE; see kerbcanopy book new --help",
    ),
    (
        &["book", "new", "a", "--bytes=99"],
        "book new needs --capacity; see kerbcanopy book new --help",
    ),
    (
        &["book", "new", "a", "--capacity", "1"],
        "book new needs --bytes; see kerbcanopy book new --help",
    ),
    (
        &["book", "new", "a", "b", "--capacity=1", "--bytes=99"],
        "book new can't take b as well; see kerbcanopy book new --help",
    ),
    (
        &["book", "check", "a", "--capacity=1"],
        "book check takes no --capacity; see kerbcanopy book check --help",
    ),
    (
        &["book", "list", "a", "-o", "b"],
        "book list takes no -o; see kerbcanopy book list --help",
    ),
    (
        &["book", "find", "a", "9", "--data", "--descriptor"],
        "book find gives --descriptor or --data, not both; see kerbcanopy book find --help",
    ),
];

#[test]
fn a_wrong_use_is_told_in_one_line() {
    let folder = Folder::new("arguments-wrong");
    for (words, line) in WRONG {
        let ran = folder.run(words);
        assert_eq!((ran.status, ran.complaint()), (2, line), "{words:?}");
    }
}

#[test]
fn each_command_has_as_many_files_as_it_needs() {
    let folder = Folder::new("arguments-count");
    for command in COMMANDS {
        let (files, optional, steps) = match command {
            "check" => (&["DESCRIPTOR"][..], 0, false),
            "normal" => (&["DESCRIPTOR"][..], 0, false),
            "compare" => (&["FIRST", "SECOND"][..], 0, false),
            "read" => (&["WRITER", "READER", "DATA"][..], 0, false),
            "explain" => (&["DESCRIPTOR", "DATA"][..], 1, false),
            "value" | "view" => (&["DESCRIPTOR", "DATA"][..], 0, true),
            // Above, with the record that may be left out; and what needs options.
            "difference" | "book new" => continue,
            "book check" | "book list" => (&["FILE"][..], 0, false),
            "book add" => (&["FILE", "DESCRIPTOR", "DATA"][..], 0, false),
            "book find" => (&["FILE", "ID"][..], 0, false),
            _ => (&["DESCRIPTOR", "DATA"][..], 0, false),
        };
        let see = format!("see kerbcanopy {command} --help");
        for (given, missing) in files[..files.len() - optional].iter().enumerate() {
            let words = with(command, &vec!["a"; given]);
            folder
                .run(&words)
                .troubles(&format!("{command} needs a {missing}; {see}"));
        }
        let words = [with(command, &vec!["a"; files.len()]), vec!["more"]].concat();
        let trouble = match steps {
            false => format!("{command} can't take more as well; {see}"),
            true => "a: No such file or directory (os error 2)".into(),
        };
        folder.run(&words).troubles(&trouble);
    }
}
