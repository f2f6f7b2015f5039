//! The command `kerbcanopy`. The library judges the bytes; this owns files,
//! messages and the exit status: 0 accepted or equal, 1 refused, 2 a wrong use or
//! trouble with a file, 3 for two descriptors that differ. Standard output has
//! only what was asked for; each status but 0 has one line on standard error, where
//! a note stands, too, that a file was written.
#![forbid(unsafe_code)]

mod arguments;
mod ask;
mod book;
mod command;
#[cfg(test)]
mod consistency;
mod content;
mod date;
mod descriptor;
mod difference;
mod explain;
mod facts;
mod help;
mod hexadecimal;
mod input;
mod json;
mod keep;
mod layout;
mod moment;
mod outcome;
mod output;
mod path;
mod refusal;
mod replace;
mod stream;
mod tokens;
mod value;
mod words;

use std::process::ExitCode;

use arguments::Arguments;
use outcome::Outcome;

fn main() -> ExitCode {
    let words: Vec<_> = std::env::args_os().skip(1).collect();
    let outcome = match Arguments::read(&words) {
        Ok(arguments) => command::run(&arguments)
            .unwrap_or_else(|trouble| Outcome::trouble(&trouble, arguments.json())),
        Err(trouble) => {
            // Words that could not be read whole may still ask for it.
            let mut options = words.iter().take_while(|word| *word != "--");
            Outcome::trouble(&trouble, options.any(|word| word == "--json"))
        }
    };
    outcome.show()
}
