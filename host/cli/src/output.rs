//! Bytes that a command gives: as text, raw, or in a file.

use std::ffi::OsStr;
use std::io::Write;
use std::path::Path;

use kerbcanopy::Answer;
use system::streams;

use crate::arguments::Options;
use crate::hexadecimal;
use crate::input::is_text;
use crate::json::Json;
use crate::outcome::Outcome;
use crate::refusal;
use crate::replace;
use crate::stream::{self, Stream};
use crate::words::{counted, shown};

/// Hands over what was written. Without `-o` it is text on standard output, with
/// `-o -` the raw bytes there, else a file of the kind that its name says.
pub fn hand_over(answer: Answer, bytes: &[u8], options: &Options) -> Result<Outcome, String> {
    let Some(out) = &options.out else {
        return Ok(Outcome::accepted(match options.json {
            true => written(answer, bytes).line(),
            false => hexadecimal::text(bytes),
        }));
    };
    if stream::named(out) == Some(Stream::Output) {
        return Ok(Outcome::accepted(bytes));
    }
    match is_text(out) {
        true => save(out, hexadecimal::text(bytes).as_bytes())?,
        false => save(out, bytes)?,
    }
    Ok(match options.json {
        true => {
            let out = [("out", Json::text(shown(out)))];
            Outcome::accepted(written(answer, bytes).with(out).line())
        }
        false => Outcome {
            note: note(out, &format!("{} written", counted(bytes.len(), "byte"))),
            ..Outcome::accepted("")
        },
    })
}

/// The note that a file was written. There is none where that is standard error, which
/// the note would go to as well.
pub fn note(out: &OsStr, what: &str) -> String {
    match stream::named(out) {
        Some(Stream::Output | Stream::Error) => String::new(),
        Some(Stream::Other(_)) | None => format!("{}: {what}", shown(out)),
    }
}

/// Replaces the file, or says what the trouble is. A stream is written to as it is.
pub fn save(out: &OsStr, bytes: &[u8]) -> Result<(), String> {
    let saved = match stream::named(out) {
        Some(Stream::Output) => streams::output().and_then(|mut file| file.write_all(bytes)),
        Some(Stream::Error) => streams::error().and_then(|mut file| file.write_all(bytes)),
        Some(Stream::Other(number)) => {
            streams::other(number).and_then(|mut file| file.write_all(bytes))
        }
        None => replace::write(Path::new(out), bytes),
    };
    saved.map_err(|error| format!("{}: {error}", shown(out)))
}

fn written(answer: Answer, bytes: &[u8]) -> Json {
    refusal::answer_json(answer).with([("bytes", Json::text(hexadecimal::digits(bytes)))])
}
