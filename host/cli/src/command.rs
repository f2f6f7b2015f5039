//! The commands: what each takes, and what it runs.

use std::ffi::{OsStr, OsString};
use std::ops::Range;
use std::path::Path;

use crate::arguments::{Arguments, Options};
use crate::ask;
use crate::help;
use crate::input::Input;
use crate::outcome::Outcome;

/// What an operand is; of a file it says how much an answer needs.
#[derive(Clone, Copy, Debug, PartialEq, Eq)]
pub enum Operand {
    Descriptor(&'static str),
    Data(&'static str),
    /// All the steps of a path in one word.
    Path,
    /// A book to be read: raw bytes, whatever its name says.
    Book,
    /// A book to be made or changed. It is read once it is locked, so that its name
    /// is handed on.
    Changed,
    /// The identifier of a record.
    Identifier,
}

#[derive(Debug)]
pub struct Command {
    /// One word or, of several commands about one thing, that and another.
    pub name: &'static str,
    pub operands: &'static [Operand],
    /// The operands that may be left out, all of them or none.
    pub optional: Range<usize>,
    /// Whether steps follow the operands.
    pub steps: bool,
    /// The options that can't be left out.
    pub needed: &'static [&'static str],
    /// The options beside `--hex` and `--json`, which every command takes.
    pub options: &'static [&'static str],
    run: fn(&Request) -> Result<Outcome, String>,
}

/// What is asked.
pub struct Request<'a> {
    /// All operands as they were given.
    pub operands: &'a [OsString],
    /// What stands in those that are read before.
    pub files: Vec<Input>,
    /// The others: steps or paths, a book that is changed, an identifier.
    pub words: &'a [OsString],
    pub options: &'a Options,
}

const DESCRIPTOR: Operand = Operand::Descriptor("DESCRIPTOR");
const DATA: Operand = Operand::Data("DATA");
const OUTPUT: &[&str] = &["-o", "--room"];
/// What helps where a path's steps were given apart.
const ONE_WORD: &str = "; a path of several steps is one word in quotes";

pub const COMMANDS: [Command; 17] = [
    command("check", &[DESCRIPTOR], &["--table", "--all"], ask::check),
    command(
        "compare",
        &[Operand::Descriptor("FIRST"), Operand::Descriptor("SECOND")],
        &[],
        ask::compare,
    ),
    command("normal", &[DESCRIPTOR], OUTPUT, ask::normal),
    command("data", &[DESCRIPTOR, DATA], &[], ask::data),
    command("dump", &[DESCRIPTOR, DATA], &["--all"], ask::dump),
    Command {
        optional: 1..2,
        ..command(
            "explain",
            &[DESCRIPTOR, DATA],
            &["--all", "--html", "-o"],
            ask::explain,
        )
    },
    stepped("value", &[], ask::value),
    stepped("view", &["-o"], ask::view),
    Command {
        optional: 3..5,
        ..command(
            "difference",
            &[
                DESCRIPTOR,
                DATA,
                Operand::Path,
                DESCRIPTOR,
                DATA,
                Operand::Path,
            ],
            &[],
            ask::difference,
        )
    },
    command("little", &[DESCRIPTOR, DATA], OUTPUT, ask::little),
    command("big", &[DESCRIPTOR, DATA], OUTPUT, ask::big),
    command(
        "read",
        &[
            Operand::Descriptor("WRITER"),
            Operand::Descriptor("READER"),
            DATA,
        ],
        OUTPUT,
        ask::read,
    ),
    Command {
        needed: &["--capacity", "--bytes"],
        ..command("book new", &[Operand::Changed], &[], ask::book_new)
    },
    command("book check", &[Operand::Book], &[], ask::book_check),
    command(
        "book add",
        &[Operand::Changed, DESCRIPTOR, DATA],
        &[],
        ask::book_add,
    ),
    command(
        "book find",
        &[Operand::Book, Operand::Identifier],
        &["--descriptor", "--data", "-o"],
        ask::book_find,
    ),
    command("book list", &[Operand::Book], &[], ask::book_list),
];

const fn command(
    name: &'static str,
    operands: &'static [Operand],
    options: &'static [&'static str],
    run: fn(&Request) -> Result<Outcome, String>,
) -> Command {
    Command {
        name,
        operands,
        optional: 0..0,
        steps: false,
        needed: &[],
        options,
        run,
    }
}

const fn stepped(
    name: &'static str,
    options: &'static [&'static str],
    run: fn(&Request) -> Result<Outcome, String>,
) -> Command {
    Command {
        steps: true,
        ..command(name, &[DESCRIPTOR, DATA], options, run)
    }
}

impl Operand {
    pub fn word(self) -> &'static str {
        match self {
            Operand::Descriptor(word) | Operand::Data(word) => word,
            Operand::Path => "PATH",
            Operand::Book | Operand::Changed => "FILE",
            Operand::Identifier => "ID",
        }
    }

    /// How many bytes of a file an answer needs; none where this is no file.
    pub fn limit(self) -> Option<usize> {
        match self {
            Operand::Descriptor(_) => Some(kerbcanopy::DESCRIPTOR_LIMIT),
            Operand::Data(_) => Some(kerbcanopy::DATA_LIMIT),
            Operand::Book => Some(kerbcanopy::BOOK_LIMIT),
            Operand::Path | Operand::Changed | Operand::Identifier => None,
        }
    }
}

impl Command {
    /// What so many words are, as far as they are there: those that can't be left
    /// out come first of all.
    pub fn taken(&self, count: usize) -> Vec<Operand> {
        let (before, rest) = self.operands.split_at(self.optional.start);
        let needed = [before, &rest[self.optional.len()..]].concat();
        match count <= needed.len() {
            true => needed,
            false => self.operands.to_vec(),
        }
    }

    /// What to say beside the trouble with so many words: among more than are needed
    /// there may be steps of a path.
    pub fn hint(&self, count: usize) -> &'static str {
        let more = count > self.operands.len() - self.optional.len();
        match more && self.operands.contains(&Operand::Path) {
            true => ONE_WORD,
            false => "",
        }
    }
}

/// The command that the first of these words name, and the words behind its name.
pub fn named<'a, 'b>(words: &'a [&'b OsStr]) -> Option<(&'static Command, &'a [&'b OsStr])> {
    COMMANDS.iter().find_map(|command| {
        let name: Vec<&OsStr> = command.name.split(' ').map(OsStr::new).collect();
        Some((command, words.strip_prefix(&name[..])?))
    })
}

/// The first word of several commands, where this is one.
pub fn family(word: &OsStr) -> Option<&'static str> {
    let names = COMMANDS.iter().map(|command| command.name);
    let mut families = names.filter_map(|name| Some(name.split_once(' ')?.0));
    families.find(|family| word == *family)
}

/// The commands whose names start with this word.
pub fn members(family: &str) -> impl Iterator<Item = &'static Command> {
    let first = move |name: &str| name.split(' ').next() == Some(family);
    COMMANDS.iter().filter(move |command| first(command.name))
}

/// Reads the files and asks, or says what the trouble is.
pub fn run(arguments: &Arguments) -> Result<Outcome, String> {
    let (command, operands, options) = match arguments {
        Arguments::Help(topic) => return Ok(Outcome::accepted(help::text(*topic))),
        Arguments::Version => return Ok(Outcome::accepted(help::version())),
        Arguments::Run(command, operands, options) => (command, operands, options),
    };
    let taken = command.taken(operands.len());
    let (words, steps) = operands.split_at(operands.len().min(taken.len()));
    let mut files = Vec::new();
    let mut paths = Vec::new();
    let mut behind_path = false;
    for (word, operand) in words.iter().zip(taken) {
        match operand.limit() {
            Some(limit) => {
                let read = match operand {
                    Operand::Book => Input::raw(word, limit),
                    _ => Input::read(word, options.hex, limit),
                };
                files.push(read.map_err(|trouble| {
                    // It may be another step of the path.
                    match behind_path && !Path::new(word).exists() {
                        true => trouble + command.hint(operands.len()),
                        false => trouble,
                    }
                })?);
            }
            None => paths.push(word.clone()),
        }
        behind_path = operand == Operand::Path;
    }
    paths.extend_from_slice(steps);
    (command.run)(&Request {
        operands,
        files,
        words: &paths,
        options,
    })
}
