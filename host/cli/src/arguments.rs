//! The words of the command line: the command, its operands, and options before,
//! among or behind them.

use std::ffi::{OsStr, OsString};
use std::os::unix::ffi::OsStrExt;

use crate::command::{self, Command, Operand};
use crate::help::Topic;
use crate::stream::{self, Stream};
use crate::words::shown;

/// Everything that an option can ask for.
#[derive(Debug, Default, PartialEq, Eq)]
pub struct Options {
    pub all: bool,
    pub data: bool,
    pub descriptor: bool,
    pub hex: bool,
    pub html: bool,
    pub json: bool,
    pub table: bool,
    pub out: Option<OsString>,
    pub room: Option<usize>,
    pub capacity: Option<usize>,
    pub bytes: Option<usize>,
}

#[derive(Debug)]
pub enum Arguments {
    Help(Topic),
    Version,
    Run(&'static Command, Vec<OsString>, Options),
}

/// The options without a value.
const FLAGS: [&str; 7] = [
    "--all",
    "--data",
    "--descriptor",
    "--hex",
    "--html",
    "--json",
    "--table",
];

/// The words so far.
#[derive(Default)]
struct Words<'a> {
    operands: Vec<&'a OsStr>,
    options: Options,
    /// The options as they were named, in order.
    named: Vec<&'static str>,
    help: bool,
    version: bool,
}

impl Arguments {
    /// Reads the words, or says what is wrong with them.
    pub fn read(words: &[OsString]) -> Result<Arguments, String> {
        let words = Words::read(words)?;
        let Some((command, operands)) = command::named(&words.operands) else {
            return words.without_command();
        };
        if words.help {
            return Ok(Arguments::Help(Topic::One(command)));
        }
        if words.version {
            return Ok(Arguments::Version);
        }
        words.fit(command, operands)?;
        let operands = operands.iter().map(|&word| word.into()).collect();
        Ok(Arguments::Run(command, operands, words.options))
    }

    /// Whether the answer is to be JSON.
    pub fn json(&self) -> bool {
        matches!(self, Arguments::Run(_, _, options) if options.json)
    }
}

impl<'a> Words<'a> {
    fn read(words: &'a [OsString]) -> Result<Words<'a>, String> {
        let mut read = Words::default();
        let mut words = words.iter();
        while let Some(word) = words.next() {
            match word.as_bytes() {
                b"--" => read
                    .operands
                    .extend(words.by_ref().map(OsString::as_os_str)),
                [b'-', _, ..] => read.option(word, &mut words)?,
                _ => read.operands.push(word),
            }
        }
        Ok(read)
    }

    /// What words come to that name no command, or no whole one: help about several
    /// or the version, else trouble.
    fn without_command(&self) -> Result<Arguments, String> {
        let (topic, trouble) = match &self.operands[..] {
            [] => (Topic::All, "no command; see kerbcanopy --help".to_string()),
            [first, behind @ ..] => match (command::family(first), behind) {
                (None, _) => {
                    let name = shown(first);
                    return Err(format!("there is no command {name}; see kerbcanopy --help"));
                }
                (Some(family), [second, ..]) => {
                    let name = shown(second);
                    return Err(format!(
                        "there is no command {family} {name}; see kerbcanopy {family} --help"
                    ));
                }
                (Some(family), []) => (Topic::Family(family), incomplete(family)),
            },
        };
        match (self.help, self.version) {
            (true, _) => Ok(Arguments::Help(topic)),
            (_, true) => Ok(Arguments::Version),
            _ => Err(trouble),
        }
    }

    /// Takes an option, with its value from the words behind it where it has one.
    fn option(
        &mut self,
        word: &OsStr,
        words: &mut impl Iterator<Item = &'a OsString>,
    ) -> Result<(), String> {
        // A file's name behind the sign may be no UTF-8.
        let mut halves = word.as_bytes().splitn(2, |byte| *byte == b'=');
        let name = OsStr::from_bytes(halves.next().unwrap_or_default());
        let given = halves.next().map(|value| OsStr::from_bytes(value).into());
        let option = name.to_str().unwrap_or_default();
        let known = FLAGS.into_iter().find(|known| *known == option);
        match (option, known, given) {
            ("-o" | "--output" | "--room" | "--capacity" | "--bytes", _, given) => {
                self.valued(option, given.or_else(|| words.next().cloned()))?;
            }
            ("-h" | "--help", _, None) => self.help = true,
            ("-V" | "--version", _, None) => self.version = true,
            (_, Some(known), None) => self.flag(known),
            (_, Some(_), Some(_)) | ("-h" | "--help" | "-V" | "--version", _, _) => {
                return Err(format!("{option} takes no value; see kerbcanopy --help"));
            }
            _ => {
                let option = shown(name);
                return Err(format!(
                    "there is no option {option}; see kerbcanopy --help"
                ));
            }
        }
        Ok(())
    }

    /// Takes an option that has a value, or says what that is to be.
    fn valued(&mut self, option: &str, value: Option<OsString>) -> Result<(), String> {
        let options = &mut self.options;
        let (named, number, what) = match option {
            "--room" => ("--room", &mut options.room, "bytes"),
            "--bytes" => ("--bytes", &mut options.bytes, "bytes"),
            "--capacity" => ("--capacity", &mut options.capacity, "entries"),
            _ => {
                let name = value.filter(|value| !value.is_empty());
                options.out = Some(name.ok_or("-o needs the name of a file")?);
                self.named.push("-o");
                return Ok(());
            }
        };
        let given = value.and_then(|value| value.to_str()?.parse().ok());
        *number = Some(given.ok_or_else(|| format!("{named} needs a number of {what}"))?);
        self.named.push(named);
        Ok(())
    }

    fn flag(&mut self, option: &'static str) {
        let flag = match option {
            "--all" => &mut self.options.all,
            "--data" => &mut self.options.data,
            "--descriptor" => &mut self.options.descriptor,
            "--hex" => &mut self.options.hex,
            "--html" => &mut self.options.html,
            "--json" => &mut self.options.json,
            _ => &mut self.options.table,
        };
        *flag = true;
        self.named.push(option);
    }

    /// Says what the command can't take of these words.
    fn fit(&self, command: &Command, operands: &[&OsStr]) -> Result<(), String> {
        let name = command.name;
        let see = format!("see kerbcanopy {name} --help");
        self.fit_options(command)
            .map_err(|trouble| format!("{name} {trouble}; {see}"))?;
        let taken = command.taken(operands.len());
        let hint = command.hint(operands.len());
        if let Some(missing) = taken.get(operands.len()) {
            let missing = missing.word();
            return Err(format!("{name} needs a {missing}{hint}; {see}"));
        }
        if let (Some(more), false) = (operands.get(taken.len()), command.steps) {
            let more = shown(more);
            return Err(format!("{name} can't take {more} as well{hint}; {see}"));
        }
        let dashes = operands.iter().zip(taken);
        let dashes: Vec<Operand> = dashes
            .filter_map(|(word, operand)| (*word == "-").then_some(operand))
            .collect();
        if dashes.contains(&Operand::Changed) {
            return Err(format!(
                "{name} can't take standard input for a book; {see}"
            ));
        }
        if dashes.iter().filter_map(|operand| operand.limit()).count() > 1 {
            return Err(format!("{name} can read standard input once; {see}"));
        }
        Ok(())
    }

    /// Says what the command can't do with these options, or without others.
    fn fit_options(&self, command: &Command) -> Result<(), String> {
        let common = ["--hex", "--json"];
        let known = [&common, command.needed, command.options].concat();
        let mut named = self.named.iter();
        if let Some(option) = named.find(|option| !known.contains(option)) {
            return Err(format!("takes no {option}"));
        }
        let mut needed = command.needed.iter();
        if let Some(missing) = needed.find(|option| !self.named.contains(option)) {
            return Err(format!("needs {missing}"));
        }
        let options = &self.options;
        if options.html && options.json {
            return Err("gives --html or --json, not both".into());
        }
        if options.descriptor && options.data {
            return Err("gives --descriptor or --data, not both".into());
        }
        let out = options.out.as_deref().filter(|_| options.json);
        if let Some(out) = out.filter(|out| stream::named(out) == Some(Stream::Output)) {
            return Err(format!("can't give --json and -o {} in one", shown(out)));
        }
        Ok(())
    }
}

/// That a first word alone is no command, and which second ones there are.
fn incomplete(family: &str) -> String {
    let names = command::members(family).map(|command| command.name);
    let seconds: Vec<&str> = names.filter_map(|name| name.split(' ').nth(1)).collect();
    let seconds = seconds.join(", ");
    format!("{family} needs one of {seconds}; see kerbcanopy {family} --help")
}

#[cfg(test)]
mod tests {
    use super::*;

    fn read(words: &[&str]) -> Result<Arguments, String> {
        let words: Vec<OsString> = words.iter().map(OsString::from).collect();
        Arguments::read(&words)
    }

    fn run(words: &[&str]) -> (&'static str, Vec<OsString>, Options) {
        match read(words) {
            Ok(Arguments::Run(command, operands, options)) => (command.name, operands, options),
            other => panic!("{words:?}: {other:?}"),
        }
    }

    #[test]
    fn options_stand_anywhere() {
        let options = || Options {
            json: true,
            out: Some("c".into()),
            ..Options::default()
        };
        for words in [
            ["--json", "-o", "c", "little", "a", "b"],
            ["little", "-o", "c", "a", "--json", "b"],
            ["little", "a", "b", "--json", "--output", "c"],
        ] {
            assert_eq!(
                run(&words),
                ("little", vec!["a".into(), "b".into()], options())
            );
        }
        assert_eq!(
            run(&["little", "a", "b", "--output=c", "--json"]).2,
            options()
        );
        assert_eq!(run(&["normal", "a", "--room", "7"]).2.room, Some(7));
        assert_eq!(run(&["normal", "a", "--room=0"]).2.room, Some(0));
    }

    #[test]
    fn a_command_may_have_two_words() {
        for words in [
            ["book", "new", "a", "--capacity", "4", "--bytes=512"],
            ["--bytes=512", "book", "--capacity", "4", "new", "a"],
        ] {
            let (name, operands, options) = run(&words);
            assert_eq!((name, operands), ("book new", vec!["a".into()]));
            assert_eq!((options.capacity, options.bytes), (Some(4), Some(512)));
        }
        let (name, operands, options) = run(&["book", "find", "a", "9", "--data"]);
        assert_eq!((name, operands.len()), ("book find", 2));
        assert!(options.data && !options.descriptor);
    }

    #[test]
    fn two_dashes_end_the_options() {
        let (_, operands, options) = run(&["view", "--", "-", "--json", "-1"]);
        assert_eq!(operands, ["-", "--json", "-1"]);
        assert_eq!(options, Options::default());
    }

    #[test]
    fn help_and_version_come_first() {
        let all = read(&["--help"]);
        assert!(matches!(all, Ok(Arguments::Help(Topic::All))));
        let books = read(&["--help", "book"]);
        assert!(matches!(books, Ok(Arguments::Help(Topic::Family("book")))));
        for (words, name) in [
            (&["check", "-h", "--table"][..], "check"),
            (&["book", "--help", "check"], "book check"),
        ] {
            let one = read(words);
            assert!(
                matches!(one, Ok(Arguments::Help(Topic::One(command))) if command.name == name)
            );
        }
        for words in [
            &["--version"][..],
            &["-V"],
            &["read", "--version"],
            &["book", "-V"],
            &["book", "-V", "add"],
        ] {
            assert!(matches!(read(words), Ok(Arguments::Version)), "{words:?}");
        }
    }

    #[test]
    fn a_wrong_use_is_named() {
        let cases: [(&[&str], &str); 34] = [
            (&[], "no command"),
            (&["look", "a"], "there is no command look"),
            (&["\u{1b}"], "there is no command \\x1B"),
            (&["check"], "check needs a DESCRIPTOR"),
            (&["compare", "a"], "compare needs a SECOND"),
            (&["read", "a", "b"], "read needs a DATA"),
            (&["check", "a", "b"], "check can't take b as well"),
            (&["explain", "a", "b", "c"], "explain can't take c as well"),
            (&["check", "a", "--html"], "check takes no --html"),
            (&["check", "a", "-o", "b"], "check takes no -o"),
            (&["check", "a", "--x\r"], "there is no option --x\\x0D"),
            (&["value", "a", "b", "-1"], "there is no option -1"),
            (&["check", "a", "--hex=1"], "--hex takes no value"),
            (&["check", "a", "--json="], "--json takes no value"),
            (&["--version=2"], "--version takes no value"),
            (&["normal", "a", "-o"], "-o needs the name of a file"),
            (&["normal", "a", "--room", "x"], "--room needs a number"),
            (
                &["explain", "a", "--html", "--json"],
                "explain gives --html or --json",
            ),
            (
                &["normal", "a", "--json", "-o", "-"],
                "normal can't give --json",
            ),
            (&["compare", "-", "-"], "compare can read standard input"),
            (&["difference", "a", "b", "0"], "difference needs a PATH"),
            (
                &["difference", "a", "b", "0", "c", "d"],
                "difference needs a PATH",
            ),
            (
                &["difference", "a", "-", "-", "b", "-", "-"],
                "difference can read standard input",
            ),
            (
                &["book"],
                "book needs one of new, check, add, find, list; see kerbcanopy book --help",
            ),
            (&["book", "look"], "there is no command book look"),
            (&["book add", "a"], "there is no command book add"),
            (&["book", "add", "a"], "book add needs a DESCRIPTOR"),
            (
                &["book", "new", "a", "--bytes", "9"],
                "book new needs --capacity",
            ),
            (
                &["book", "new", "a", "--capacity=9"],
                "book new needs --bytes",
            ),
            (
                &["book", "new", "a", "--capacity", "few"],
                "--capacity needs a number of entries",
            ),
            (
                &["book", "check", "a", "--bytes=4"],
                "book check takes no --bytes",
            ),
            (
                &["book", "find", "a", "9", "--data", "--descriptor"],
                "book find gives --descriptor or --data",
            ),
            (
                &["book", "add", "-", "a", "b"],
                "book add can't take standard input for a book",
            ),
            (
                &["book", "add", "a", "-", "-"],
                "book add can read standard input once",
            ),
        ];
        for (words, expected) in cases {
            let trouble = read(words).expect_err("it is wrong");
            assert!(trouble.starts_with(expected), "{words:?}: {trouble}");
            assert!(!trouble.contains('\n'));
        }
    }
}
