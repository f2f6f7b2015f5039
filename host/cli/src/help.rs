//! What `--help` and `--version` say.

use std::ops::Range;

use crate::command::{self, COMMANDS, Command};

/// What the help is about.
#[derive(Clone, Copy, Debug)]
pub enum Topic {
    All,
    /// The commands whose names start with this word.
    Family(&'static str),
    One(&'static Command),
}

const OPENING: &str =
    "Reads LabVIEW type descriptors and flattened data, hands a record over in the
shape its reader asks for, and keeps the records of a run in one file, a book.

";

const CLOSING: &str = "
Options stand anywhere behind the command's name or before it:
  --hex          every input but a book is hexadecimal text, whatever its name
  --json         the answer as one line of JSON, refusals too
  -h, --help     this text, or that of one command
  -V, --version  the version
  --             what follows is no option

A file holds the bytes as they came or, where its name ends in .hex, hexadecimal
text with spaces and # comments; - is standard input. That a file was written is
said on standard error. The exit status is 0 where the bytes are accepted (or
equal), 1 where they are refused, 2 for a wrong use, trouble with a file or an
answer that can't be written, and 3 where two descriptors differ.
";

const BOOKS: &str = "A blank book is one file for the records of a run. Each is kept as its
descriptor and its data, and found by its identifier, its one unsigned 32-bit
member named \"blank\". A book is raw bytes, whatever its name and --hex say, and
at most 65,536 of them: the capacity, the number of entries in use, an entry of
16 bytes for each record, and the records.

";

pub fn version() -> String {
    format!("kerbcanopy {}\n", env!("CARGO_PKG_VERSION"))
}

/// The help about one command, about some, or about all of them.
pub fn text(topic: Topic) -> String {
    match topic {
        Topic::One(command) => format!("usage: {}\n\n{}", usage(command), about(command.name)),
        Topic::Family(family) => {
            let lines: String = command::members(family).map(line).collect();
            format!("usage: kerbcanopy {family} COMMAND ..\n\n{BOOKS}{lines}")
        }
        Topic::All => {
            let lines: String = COMMANDS.iter().map(line).collect();
            format!("usage: kerbcanopy COMMAND ..\n\n{OPENING}{lines}{CLOSING}")
        }
    }
}

/// A command's name with the first line about it.
fn line(command: &Command) -> String {
    let about = about(command.name).lines().next().unwrap_or_default();
    format!("  {:<12}{about}\n", command.name)
}

fn usage(command: &Command) -> String {
    let mut words = vec!["kerbcanopy".to_string(), command.name.into()];
    let Range { start, end } = command.optional;
    for (index, operand) in command.operands.iter().enumerate() {
        let open = if index == start && start < end {
            "["
        } else {
            ""
        };
        let close = if index + 1 == end { "]" } else { "" };
        words.push(format!("{open}{}{close}", operand.word()));
    }
    if command.steps {
        words.push("[STEP..]".into());
    }
    words.extend(command.needed.iter().map(|option| match *option {
        "--capacity" => "--capacity N".into(),
        option => format!("{option} M"),
    }));
    for option in command.options {
        words.push(match *option {
            "-o" => "[-o OUT]".into(),
            "--room" => "[--room N]".into(),
            option => format!("[{option}]"),
        });
    }
    words.push("[--hex] [--json]".into());
    words.join(" ")
}

/// What each command does: a line, then what else there is to say.
const ABOUT: [(&str, &str); 17] = [
    (
        "check",
        "lists a descriptor's types, or says why it is none

A line for each type, indented by its depth: what it is, its name, and where it
stands in the descriptor. --table gives the table's rows instead, in its seven
numbers; --all lists every item of an enumeration.
",
    ),
    (
        "compare",
        "says whether two descriptors are equal, reserved bytes apart

Where they differ, it says where first and how, and the exit status is 3.
",
    ),
    (
        "normal",
        "gives the descriptor with every reserved byte zero

As text; with -o as a file, raw or as text by its name, or raw on standard output
where OUT is -. --room N lends so many bytes for it.
",
    ),
    (
        "data",
        "says whether data is accepted under a descriptor, and its pieces

A piece is one number or Boolean, one whole string, or the sizes of one array.
",
    ),
    (
        "dump",
        "lists every value of accepted data with its path, name and type

The path stands first: the steps that value and view take. The first elements of
an array are listed, or every one with --all. A time stamp is a date and a time in
universal time, by the Gregorian calendar in every year (year 0 comes before year
1) and with 86,400 seconds in every day; its fraction has all its digits, up to 64.
In JSON it is a time by ISO 8601. A Boolean is true for any byte but 00; here and in
explain, a byte that is neither 00 nor 01 is shown beside it.
",
    ),
    (
        "explain",
        "shows every byte of a descriptor, and of data, with what it is

For refused bytes it shows what was read before the refusal, and marks the place.
--html gives a page for a browser, where pointing at bytes marks what they are;
-o writes the page or the text to a file; --all cuts no array short.
",
    ),
    (
        "value",
        "gives the number that steps lead to

A step is a member's number in a cluster or an element's in an array, counted
from 0, or 0 in a time stamp, or a member's name where it is unique there. A name
of digits alone, or one with other bytes than printable ASCII, is written in
quotes as check shows it.
",
    ),
    (
        "view",
        "gives the bytes that steps lead to, length and size words included

The steps are those of value. -o writes the bytes to a file.
",
    ),
    (
        "difference",
        "gives the exact time between two time stamps, first less second

A PATH is the steps of value in one word, with spaces between them, as dump lists
them, so several stand in quotes: '1 start'. A name with spaces has quotes of its
own, and - is no step at all. Without a second DESCRIPTOR and DATA both stamps
stand in one record. Given are the seconds as a decimal number with all its
digits, then as whole seconds, rounded down, and the fraction of 2^64 that is
left, from 0 up to one second.
",
    ),
    (
        "little",
        "gives the little-endian form of data

As text, or with -o as for normal.
",
    ),
    (
        "big",
        "gives the data whose little-endian form is read

As text, or with -o as for normal.
",
    ),
    (
        "read",
        "gives the members that a reader asks for, by name and type

WRITER is the descriptor of the data, READER a cluster of the members wanted. Given
are their bytes joined, in the reader's order: as text, or with -o as for normal.
",
    ),
    (
        "book new",
        "makes a blank book, one file for the records of a run

It has N entries, one for each record that it is to hold, and M bytes in all, of
which 4 and 16 for each entry are taken; 65,536 are the most. There is no record in
it yet. A file that is there already is never replaced.
",
    ),
    (
        "book check",
        "says whether a file is a well-formed book, and what is free in it

Free are the entries behind the last in use and the bytes behind the last record.
Every record is judged, and its identifier is read again.
",
    ),
    (
        "book add",
        "adds a record to a book, by its identifier, \"blank\"

DESCRIPTOR is a cluster with one unsigned 32-bit member named \"blank\", DATA a record
under it. What is said, the identifier and the entry, is on the disk by then. The
file is replaced as a whole or not at all: a refusal, a full disk or a kill leaves
the old book. It is locked meanwhile, so that of several adds at once none is lost:
the later ones wait. Permissions, access control list and extended attributes are
kept. A book with several names (hard links) is not changed, since that would part
them.
",
    ),
    (
        "book find",
        "gives the record of an identifier: its descriptor, then its data

ID is a decimal number, or a hexadecimal one behind 0x. As text, or with -o as for
normal. --descriptor and --data give one of the two alone: with -o as the files
that the other commands take.
",
    ),
    (
        "book list",
        "lists the identifiers in a book in the order of its entries

A line for each.
",
    ),
];

fn about(name: &str) -> &'static str {
    let about = ABOUT.iter().find(|(command, _)| *command == name);
    about.map_or("", |(_, words)| words)
}

#[cfg(test)]
mod tests {
    use super::*;

    #[test]
    fn every_command_has_words_of_its_own() {
        let mut abouts: Vec<_> = COMMANDS.iter().map(|command| about(command.name)).collect();
        assert!(!abouts.contains(&""));
        abouts.sort();
        abouts.dedup();
        assert_eq!(abouts.len(), COMMANDS.len());
        for topic in [Topic::All, Topic::Family("book")] {
            for line in text(topic).lines() {
                assert!(line.len() <= 80, "{line}");
            }
        }
    }

    #[test]
    fn a_usage_names_what_can_be_left_out() {
        let of = |name: &str| {
            let command = COMMANDS.iter().find(|command| command.name == name);
            usage(command.expect("it is there"))
        };
        assert_eq!(
            of("explain"),
            "kerbcanopy explain DESCRIPTOR [DATA] [--all] [--html] [-o OUT] [--hex] [--json]"
        );
        assert_eq!(
            of("difference"),
            "kerbcanopy difference DESCRIPTOR DATA PATH [DESCRIPTOR DATA] PATH [--hex] [--json]"
        );
        assert_eq!(
            of("view"),
            "kerbcanopy view DESCRIPTOR DATA [STEP..] [-o OUT] [--hex] [--json]"
        );
        assert_eq!(
            of("book new"),
            "kerbcanopy book new FILE --capacity N --bytes M [--hex] [--json]"
        );
        assert_eq!(
            of("book find"),
            "kerbcanopy book find FILE ID [--descriptor] [--data] [-o OUT] [--hex] [--json]"
        );
    }
}
