//! Holds the proved library against the second implementation. Without
//! arguments it is the gate run: fixed seeds, then a fresh one.
#![forbid(unsafe_code)]

mod answers;
mod case;
mod data;
mod descriptor;
mod difference;
mod entry;
mod facts;
mod fuzz;
mod grow;
mod interval;
mod kind;
mod lent;
mod listed;
mod options;
mod output;
mod parts;
mod proved;
mod random;
mod record;
mod seed;
mod stamp;
mod store;
mod tally;
mod tight;
mod tree;
mod twin;

use std::process::ExitCode;

use crate::case::Limits;
use crate::options::{Options, Run};

/// How many checks passed and failed.
pub struct Checks {
    pub passed: u64,
    pub failed: u64,
}

fn main() -> ExitCode {
    let options = match Options::read(std::env::args().skip(1)) {
        Ok(options) => options,
        Err(message) => {
            eprintln!("{message}\n{}", options::USAGE);
            return ExitCode::from(2);
        }
    };
    seed::name_panics();
    let limits = Limits::all();
    let Checks { passed, failed } = match options.run {
        Run::Facts => return print_facts(),
        Run::Listed(listed) => listed::run(&listed, &limits, options.exact),
        Run::Time(time) => fuzz::run(time, &limits, options.exact),
    };
    println!("{passed} passed, {failed} failed");
    match failed {
        0 => ExitCode::SUCCESS,
        _ => ExitCode::FAILURE,
    }
}

fn print_facts() -> ExitCode {
    match facts::text() {
        Ok(text) => {
            print!("{text}");
            ExitCode::SUCCESS
        }
        Err(missing) => {
            eprintln!("{missing}");
            ExitCode::FAILURE
        }
    }
}
