//! Files and standard input, raw or as hexadecimal text, read no further than an
//! answer needs.

use std::ffi::OsStr;
use std::fs::File;
use std::io::{self, BufReader, Read};

use crate::hexadecimal::Decoder;
use crate::words::shown;

/// What an operand of the command line holds.
pub struct Input {
    /// The file's name, fit to be shown.
    pub name: String,
    pub bytes: Vec<u8>,
    /// Whether it was read as hexadecimal text.
    pub text: bool,
}

impl Input {
    /// Reads up to one byte over the limit: whatever follows, the answer is that
    /// there is too much. Says what the trouble is where it can't be read.
    pub fn read(operand: &OsStr, hex: bool, limit: usize) -> Result<Input, String> {
        Input::of(operand, hex || is_text(operand), limit)
    }

    /// Reads as many bytes as they came, whatever the name says.
    pub fn raw(operand: &OsStr, limit: usize) -> Result<Input, String> {
        Input::of(operand, false, limit)
    }

    fn of(operand: &OsStr, hex: bool, limit: usize) -> Result<Input, String> {
        let name = match operand == "-" {
            true => "standard input".to_string(),
            false => shown(operand),
        };
        let bytes = match operand == "-" {
            true => read(io::stdin().lock(), hex, limit + 1),
            false => File::open(operand)
                .map_err(|error| error.to_string())
                .and_then(|file| read(file, hex, limit + 1)),
        };
        let bytes =
            bytes.map_err(|trouble| format!("{name}: {trouble}{}", by_name(operand, &trouble)))?;
        Ok(Input {
            name,
            bytes,
            text: hex,
        })
    }
}

/// Why text was looked for, where that is what went wrong.
fn by_name(operand: &OsStr, trouble: &str) -> &'static str {
    match is_text(operand) && trouble.starts_with("line ") {
        true => " (its name says that it is hexadecimal text)",
        false => "",
    }
}

/// Whether the name says that the file holds hexadecimal text.
pub fn is_text(name: &OsStr) -> bool {
    let name = name.as_encoded_bytes();
    let ending = name.len().checked_sub(4).map(|at| &name[at..]);
    ending.is_some_and(|ending| ending.eq_ignore_ascii_case(b".hex"))
}

/// At most `most` bytes.
fn read(source: impl Read, hex: bool, most: usize) -> Result<Vec<u8>, String> {
    if hex {
        return decode(source, most);
    }
    let mut bytes = Vec::new();
    let read = source.take(most as u64).read_to_end(&mut bytes);
    read.map_err(|error| error.to_string())?;
    Ok(bytes)
}

fn decode(source: impl Read, most: usize) -> Result<Vec<u8>, String> {
    let mut decoder = Decoder::default();
    for character in BufReader::new(source).bytes() {
        decoder.push(character.map_err(|error| error.to_string())?)?;
        if decoder.bytes.len() == most {
            return Ok(decoder.bytes);
        }
    }
    decoder.space()?;
    Ok(decoder.bytes)
}

#[cfg(test)]
mod tests {
    use super::*;

    #[test]
    fn no_more_is_read_than_asked_for() {
        assert_eq!(read(io::repeat(7), false, 5), Ok(vec![7; 5]));
        assert_eq!(read(io::repeat(b'7'), true, 5), Ok(vec![0x77; 5]));
        assert_eq!(read(&b"0102"[..], true, 5), Ok(vec![1, 2]));
        assert_eq!(read(&b"0102"[..], false, 3), Ok(b"010".to_vec()));
    }

    #[test]
    fn the_name_says_what_is_text() {
        for name in ["a.hex", "a.HEX", "b/a.Hex", "a.b.hex", ".hex"] {
            assert!(is_text(OsStr::new(name)), "{name}");
        }
        for name in ["a", "hex", "a.hex.bin", "a.hexa", "-"] {
            assert!(!is_text(OsStr::new(name)), "{name}");
        }
    }
}
