//! What a command comes to, and how that leaves the program.

use std::io::{self, ErrorKind, Write};
use std::process::ExitCode;

use system::streams;

use crate::json::Json;

/// The exit status.
#[derive(Clone, Copy, Debug, PartialEq, Eq)]
pub enum Status {
    Accepted = 0,
    Refused = 1,
    Trouble = 2,
    Different = 3,
}

#[derive(Debug)]
pub struct Outcome {
    pub status: Status,
    /// For standard output.
    pub answer: Vec<u8>,
    /// A line for standard error about a file that was written; else empty.
    pub note: String,
    /// The line for standard error; empty where the status is 0.
    pub complaint: String,
    /// What is done, whatever becomes of the answer; else empty.
    pub done: &'static str,
}

impl Outcome {
    fn new(status: Status, answer: impl Into<Vec<u8>>, complaint: String) -> Outcome {
        Outcome {
            status,
            answer: answer.into(),
            note: String::new(),
            complaint,
            done: "",
        }
    }

    pub fn accepted(answer: impl Into<Vec<u8>>) -> Outcome {
        Outcome::new(Status::Accepted, answer, String::new())
    }

    pub fn refused(answer: impl Into<Vec<u8>>, complaint: String) -> Outcome {
        Outcome::new(Status::Refused, answer, complaint)
    }

    pub fn different(answer: impl Into<Vec<u8>>, complaint: String) -> Outcome {
        Outcome::new(Status::Different, answer, complaint)
    }

    /// A wrong use, or trouble with a file.
    pub fn trouble(trouble: &str, json: bool) -> Outcome {
        let answer = match json {
            true => Json::object([("trouble", Json::text(trouble))]).line(),
            false => String::new(),
        };
        Outcome::new(Status::Trouble, answer, trouble.into())
    }

    /// Writes to both streams. A reader that has gone changes nothing; an answer
    /// that could not be written is trouble.
    pub fn show(self) -> ExitCode {
        let (status, complaint) = match write_all(&self.answer) {
            Ok(()) => (self.status, self.complaint),
            Err(error) if error.kind() == ErrorKind::BrokenPipe => (self.status, self.complaint),
            Err(error) => {
                let told = [self.done, &self.complaint].into_iter();
                let told = told.filter(|told| !told.is_empty());
                let told: String = told.map(|told| format!("; {told}")).collect();
                (Status::Trouble, format!("standard output: {error}{told}"))
            }
        };
        let lines = [self.note, complaint].into_iter();
        let lines = lines.filter(|line| !line.is_empty());
        let lines: String = lines.map(|line| format!("kerbcanopy: {line}\n")).collect();
        // There is nobody left to tell where this can't be written either.
        let _ = io::stderr().write_all(lines.as_bytes());
        ExitCode::from(status as u8)
    }
}

/// Writes the answer, if there is one, to the file behind standard output: Rust's own
/// way there would not say that it can't be written to.
fn write_all(answer: &[u8]) -> io::Result<()> {
    match answer {
        [] => Ok(()),
        _ => streams::output()?.write_all(answer),
    }
}
