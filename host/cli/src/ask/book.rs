//! The questions about a blank book.

use std::ffi::OsStr;
use std::fs;
use std::ops::Range;
use std::os::unix::fs::MetadataExt;
use std::path::Path;

use kerbcanopy::Answer;

use crate::arguments::Options;
use crate::book::file::{self, Locked};
use crate::book::{self, Book, Entry, READER};
use crate::command::Request;
use crate::hexadecimal;
use crate::input::Input;
use crate::json::Json;
use crate::outcome::Outcome;
use crate::output;
use crate::refusal::{Lent, Refusal, answer_json};
use crate::words::{counted, shown};

/// A new book without a record.
pub fn new(request: &Request) -> Result<Outcome, String> {
    let ([name], Some(capacity), Some(length)) = (
        request.words,
        request.options.capacity,
        request.options.bytes,
    ) else {
        unreachable!("book new has one file, a capacity and a number of bytes")
    };
    let about = |trouble| format!("{}: {trouble}", shown(name));
    let bytes = book::blank(capacity, length).map_err(about)?;
    file::create(Path::new(name), &bytes).map_err(about)?;
    let book = headed(&bytes);
    let answer = match request.options.json {
        true => figures(kerbcanopy::store_check(&bytes), &book).line(),
        false => format!(
            "{}: {} written, {}, {} free\n",
            shown(name),
            counted(length, "byte"),
            counted(capacity, "entry"),
            counted(book.free(), "byte"),
        ),
    };
    Ok(Outcome {
        done: "the book is made",
        ..Outcome::accepted(answer)
    })
}

/// Whether it is a book, and what is used and free in it.
pub fn check(request: &Request) -> Result<Outcome, String> {
    let [file] = &request.files[..] else {
        unreachable!("book check has one file")
    };
    let answer = kerbcanopy::store_check(&file.bytes);
    if answer.number != 0 {
        let refusal = Refusal::of(answer, &Lent::book(file, 0));
        return Ok(refusal.outcome(request.options.json));
    }
    let book = headed(&file.bytes);
    Ok(Outcome::accepted(match request.options.json {
        true => figures(answer, &book).line(),
        false => format!(
            "{}: accepted, {}\n  {} of {} in use, {} free\n  {} of {} in use, {} free\n",
            file.name,
            counted(book.count, "record"),
            book.count,
            counted(book.capacity, "entry"),
            book.capacity - book.count,
            book.used(),
            counted(file.bytes.len(), "byte"),
            book.free(),
        ),
    }))
}

/// A record put into a book, which is locked from before it is read until it is written.
pub fn add(request: &Request) -> Result<Outcome, String> {
    let ([name], [descriptor, data]) = (request.words, &request.files[..]) else {
        unreachable!("book add has a book, a descriptor and data")
    };
    let about = |trouble| format!("{}: {trouble}", shown(name));
    let locked = Locked::open(Path::new(name)).map_err(about)?;
    let mut file = raw(shown(name), locked.read().map_err(about)?);
    let answer = kerbcanopy::store_add(&mut file.bytes, &descriptor.bytes, &data.bytes);
    if answer.number != 0 {
        let shape = raw(descriptor.name.clone(), READER.to_vec());
        let lent = Lent {
            second: Some(&shape),
            book: Some(&file),
            ..Lent::data(descriptor, data)
        };
        return Ok(Refusal::of(answer, &lent).outcome(request.options.json));
    }
    locked.replace(&file.bytes).map_err(about)?;
    let book = headed(&file.bytes);
    let Some((number, entry)) = book.entries().enumerate().last() else {
        unreachable!("an entry was added")
    };
    let body = entry.start..entry.end();
    let answer = match request.options.json {
        true => placed(answer, number, &entry, &body).line(),
        false => format!(
            "{}: identifier {} added as entry {number}, {} at {}\n",
            file.name,
            entry.identifier,
            counted(body.len(), "byte"),
            body.start,
        ),
    };
    Ok(Outcome {
        done: "the record is in the book",
        ..Outcome::accepted(answer)
    })
}

/// The body of a record, or one of its two parts.
pub fn find(request: &Request) -> Result<Outcome, String> {
    let ([file], [word]) = (&request.files[..], request.words) else {
        unreachable!("book find has a book and an identifier")
    };
    let identifier = identifier(word)?;
    let part = kerbcanopy::store_find(&file.bytes, identifier);
    if part.answer.number != 0 {
        let refusal = Refusal::of(part.answer, &Lent::book(file, identifier));
        return Ok(refusal.outcome(request.options.json));
    }
    let book = headed(&file.bytes);
    let mut entries = book.entries().enumerate();
    let Some((number, entry)) = entries.find(|(_, entry)| entry.identifier == identifier) else {
        unreachable!("it was found")
    };
    let body = part.start..part.start + part.length;
    let given = wanted(&body, &entry, request.options);
    let bytes = &file.bytes[given.clone()];
    if let Some(out) = &request.options.out {
        spare(out, &request.operands[0])?;
        return output::hand_over(part.answer, bytes, request.options);
    }
    let json = placed(part.answer, number, &entry, &given);
    let json = json.with([("bytes", Json::text(hexadecimal::digits(bytes)))]);
    Ok(Outcome::accepted(match request.options.json {
        true => json.line(),
        false => {
            let length = counted(bytes.len(), "byte");
            let parts = parts(&entry, given == body);
            let text = hexadecimal::text(bytes);
            format!("# {length} at {}{parts}\n{text}", given.start)
        }
    }))
}

/// The identifiers in the order of the entries.
pub fn list(request: &Request) -> Result<Outcome, String> {
    let [file] = &request.files[..] else {
        unreachable!("book list has one file")
    };
    let count = Book::of(&file.bytes).map_or(0, |book| book.count);
    let mut identifiers = vec![0; count];
    let answer = kerbcanopy::store_list(&file.bytes, &mut identifiers);
    if answer.number != 0 {
        let refusal = Refusal::of(answer, &Lent::book(file, 0));
        return Ok(refusal.outcome(request.options.json));
    }
    let identifiers = identifiers.iter().copied();
    Ok(Outcome::accepted(match request.options.json {
        true => {
            let listed = Json::list(identifiers.map(Json::number));
            answer_json(answer).with([("identifiers", listed)]).line()
        }
        false => identifiers
            .map(|identifier| format!("{identifier}\n"))
            .collect(),
    }))
}

/// An identifier in decimal digits, or in hexadecimal ones behind 0x.
fn identifier(word: &OsStr) -> Result<u32, String> {
    let text = word.to_str().unwrap_or_default();
    let hexadecimal = text.strip_prefix("0x").or_else(|| text.strip_prefix("0X"));
    let (digits, radix) = hexadecimal.map_or((text, 10), |digits| (digits, 16));
    // A sign is none of them.
    let plain = digits.chars().all(|digit| digit.is_digit(radix));
    let number = u32::from_str_radix(digits, radix).ok().filter(|_| plain);
    number.ok_or_else(|| {
        format!(
            "{} is no identifier: it is a number from 0 to {}, or such a one in hexadecimal behind 0x",
            shown(word),
            u32::MAX,
        )
    })
}

/// An accepted book's head.
fn headed(bytes: &[u8]) -> Book<'_> {
    match Book::of(bytes) {
        Some(book) => book,
        None => unreachable!("an accepted book has a head"),
    }
}

/// An input that is no operand.
fn raw(name: String, bytes: Vec<u8>) -> Input {
    Input {
        name,
        bytes,
        text: false,
    }
}

/// Which bytes of the book are asked for, out of a record's body.
fn wanted(body: &Range<usize>, entry: &Entry, options: &Options) -> Range<usize> {
    let data = body.start + entry.descriptor;
    match (options.descriptor, options.data) {
        (true, _) => body.start..data,
        (_, true) => data..body.end,
        _ => body.clone(),
    }
}

/// What a body consists of, where the whole is given.
fn parts(entry: &Entry, whole: bool) -> String {
    if !whole {
        return String::new();
    }
    let descriptor = counted(entry.descriptor, "byte");
    let data = counted(entry.data, "byte");
    format!(": a descriptor of {descriptor}, then data of {data}")
}

/// Keeps a book from being replaced by one of its records.
fn spare(out: &OsStr, book: &OsStr) -> Result<(), String> {
    let identity = |name: &OsStr| {
        let of = fs::metadata(name).ok()?;
        Some((of.dev(), of.ino()))
    };
    let book = match book == "-" {
        true => OsStr::new("/dev/stdin"),
        false => book,
    };
    match out != "-" && identity(out).is_some() && identity(out) == identity(book) {
        true => Err(format!(
            "{}: it is the book itself, and not replaced",
            shown(out)
        )),
        false => Ok(()),
    }
}

/// What is used and free in a book.
fn figures(answer: Answer, book: &Book) -> Json {
    let sizes = [
        ("capacity", book.capacity),
        ("records", book.count),
        ("bytes", book.bytes.len()),
        ("used", book.used()),
        ("free", book.free()),
    ];
    answer_json(answer).with(sizes.map(|(name, size)| (name, Json::size(size))))
}

/// Where a record stands, or what is given of it.
fn placed(answer: Answer, number: usize, entry: &Entry, given: &Range<usize>) -> Json {
    let sizes = [
        ("entry", number),
        ("start", given.start),
        ("length", given.len()),
        ("descriptor", entry.descriptor),
        ("data", entry.data),
    ];
    let sizes = sizes.map(|(name, size)| (name, Json::size(size)));
    let identifier = [("identifier", Json::number(entry.identifier))];
    answer_json(answer).with(identifier).with(sizes)
}
