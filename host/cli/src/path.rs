//! Paths: steps by number or by name, and a path in words.

use std::ffi::{OsStr, OsString};
use std::os::unix::ffi::OsStrExt;

use crate::descriptor::Descriptor;
use crate::facts;
use crate::json::Json;
use crate::words::{kind, quoted, shown};

/// The row that a step leads to from this one; none where it leads nowhere.
fn inside(descriptor: &Descriptor, row: usize, step: u32) -> Option<usize> {
    match descriptor.rows[row].code {
        0x40 => Some(row + 1),
        // A time stamp has one part.
        0x50 | 0x54 => descriptor.inside(row).get(step as usize).copied(),
        _ => None,
    }
}

/// The row at the end of a path; none where a step leads nowhere.
pub fn row(descriptor: &Descriptor, path: &[u32]) -> Option<usize> {
    let step = |row, step: &u32| inside(descriptor, row, *step);
    path.iter().try_fold(0, step)
}

/// Each step with the name of the member that it leads to.
fn named<'a>(descriptor: &Descriptor<'a>, path: &[u32]) -> Vec<(u32, Option<&'a [u8]>)> {
    let name = |end: usize| {
        let row = row(descriptor, &path[..end])?;
        let of = code_of_parent(descriptor, &path[..end])?;
        descriptor.name(row).filter(|_| of == 0x50)
    };
    let steps = path.iter().enumerate();
    steps
        .map(|(index, &step)| (step, name(index + 1)))
        .collect()
}

/// The code of the type that the last step was made in.
fn code_of_parent(descriptor: &Descriptor, path: &[u32]) -> Option<u16> {
    let parent = row(descriptor, path.split_last()?.1)?;
    Some(descriptor.rows[parent].code)
}

/// A path as `3 "blank", 1 "note"`.
pub fn words(descriptor: &Descriptor, path: &[u32]) -> String {
    let words = named(descriptor, path).into_iter().map(|(step, name)| {
        let name = name.map(|name| format!(" {}", quoted(name)));
        format!("{step}{}", name.unwrap_or_default())
    });
    words.collect::<Vec<_>>().join(", ")
}

/// The names along a path, null where a step has none.
pub fn names(descriptor: &Descriptor, path: &[u32]) -> Json {
    let names = named(descriptor, path).into_iter();
    Json::list(names.map(|(_, name)| name.map_or(Json::Null, Json::characters)))
}

/// The numbers of a path.
pub fn numbers(path: &[u32]) -> Json {
    Json::list(path.iter().map(|&step| Json::number(step)))
}

/// The steps of a path in one word: spaces stand between them, and a step in quotes
/// may have some in it. A dash alone, as the listings show it, is no step at all.
pub fn split(word: &OsStr) -> Vec<OsString> {
    let bytes = word.as_bytes();
    if bytes == b"-" {
        return Vec::new();
    }
    let mut steps = Vec::new();
    let mut rest = bytes.trim_ascii_start();
    while !rest.is_empty() {
        let (step, behind) = rest.split_at(step_end(rest));
        steps.push(OsStr::from_bytes(step).into());
        rest = behind.trim_ascii_start();
    }
    steps
}

/// Where the first step ends: at a space outside of quotes.
fn step_end(bytes: &[u8]) -> usize {
    let mut quoted = false;
    let mut escaped = false;
    for (at, &byte) in bytes.iter().enumerate() {
        match byte {
            _ if escaped => escaped = false,
            b'"' if at == 0 || quoted => quoted = at == 0,
            b'\\' if quoted => escaped = true,
            _ if byte.is_ascii_whitespace() && !quoted => return at,
            _ => {}
        }
    }
    bytes.len()
}

/// The numbers of steps that may be names, or why a name has none. Behind a step
/// that leads nowhere a name counts as 0: the step before it is refused.
pub fn resolve(descriptor: &Descriptor, steps: &[OsString]) -> Result<Vec<u32>, String> {
    let mut at = Some(0);
    let mut path = Vec::new();
    for step in steps {
        let number = match (number(step)?, at) {
            (Some(number), _) => number,
            (None, None) => 0,
            (None, Some(row)) => member(descriptor, row, step)?,
        };
        at = at.and_then(|row| inside(descriptor, row, number));
        path.push(number);
    }
    Ok(path)
}

/// A step of digits is a number, any other a name.
fn number(step: &OsStr) -> Result<Option<u32>, String> {
    let text = step.to_str().unwrap_or_default();
    if text.is_empty() || !text.bytes().all(|byte| byte.is_ascii_digit()) {
        return Ok(None);
    }
    let number = text.parse().map(Some);
    number.map_err(|_| format!("{text} is no step: 4294967295 is the highest"))
}

/// The number of the one member of this name.
fn member(descriptor: &Descriptor, row: usize, step: &OsStr) -> Result<u32, String> {
    let word = shown(step);
    match descriptor.rows[row].code {
        0x50 => {}
        0x40 => {
            let kind = kind(descriptor, row);
            return Err(format!(
                "{word} is no element's number, and this is an {kind}"
            ));
        }
        0x54 => {
            return Err(format!(
                "{word} is no part of a time stamp, whose one part is 0"
            ));
        }
        _ => return Ok(0),
    }
    let wanted = name(step).ok_or(format!("{word} is no name in quotes"))?;
    let members = descriptor.inside(row).into_iter().enumerate();
    let mut same = members.filter(|(_, member)| descriptor.name(*member) == Some(&wanted[..]));
    match (same.next(), same.next()) {
        (Some((number, _)), None) => Ok(number as u32),
        (Some((first, _)), Some((second, _))) => Err(format!(
            "the name {word} is that of several members, {first} and {second} among them: take the number"
        )),
        (None, _) => {
            let names = facts::names(descriptor, row);
            Err(format!("no member has the name {word}; there are {names}"))
        }
    }
}

/// The name that a step spells: as it stands or, in quotes, as the listings show it.
fn name(step: &OsStr) -> Option<Vec<u8>> {
    let bytes = step.as_encoded_bytes();
    let Some(inner) = bytes.strip_prefix(b"\"") else {
        return Some(bytes.to_vec());
    };
    let mut inner = inner.iter().copied();
    let mut name = Vec::new();
    loop {
        match inner.next()? {
            b'"' => return inner.next().is_none().then_some(name),
            b'\\' => name.push(match inner.next()? {
                b'x' => {
                    let high = char::from(inner.next()?).to_digit(16)?;
                    let low = char::from(inner.next()?).to_digit(16)?;
                    (high * 16 + low) as u8
                }
                plain @ (b'"' | b'\\') => plain,
                _ => return None,
            }),
            plain => name.push(plain),
        }
    }
}

#[cfg(test)]
mod tests {
    use super::*;

    /// "t"; a cluster "7" of one number; "é" in Latin-1; an array; "t" again.
    const RIG: &[u8] = b"\x00\x36\x00\x50\x00\x05\
        \x00\x06\x00\x02\x01t\
        \x00\x0C\x00\x50\x00\x01\x00\x04\x00\x03\x017\
        \x00\x06\x00\x02\x01\xE9\
        \x00\x12\x00\x40\x00\x01\xFF\xFF\xFF\xFF\x00\x06\x00\x02\x01e\x01a\
        \x00\x06\x00\x02\x01t";

    fn resolved(steps: &[&str]) -> Result<Vec<u32>, String> {
        let rig = Descriptor::of(RIG).expect("it is accepted");
        let steps: Vec<OsString> = steps.iter().map(OsString::from).collect();
        resolve(&rig, &steps)
    }

    #[test]
    fn steps_are_numbers_or_names() {
        assert_eq!(resolved(&[]), Ok(vec![]));
        assert_eq!(resolved(&["3", "4294967295"]), Ok(vec![3, u32::MAX]));
        assert_eq!(resolved(&["a", "2"]), Ok(vec![3, 2]));
        assert_eq!(resolved(&["7"]), Ok(vec![7]));
        assert_eq!(resolved(&["\"7\"", "0"]), Ok(vec![1, 0]));
        assert_eq!(resolved(&["\"\\xE9\""]), Ok(vec![2]));
    }

    #[test]
    fn a_name_behind_nowhere_is_left_to_the_library() {
        assert_eq!(resolved(&["9", "t"]), Ok(vec![9, 0]));
        assert_eq!(resolved(&["0", "t"]), Ok(vec![0, 0]));
    }

    #[test]
    fn a_name_without_a_number_is_told() {
        let trouble = |steps: &[&str]| resolved(steps).expect_err("it is no step");
        assert!(trouble(&["t"]).contains("several members, 0 and 4"));
        let names = r#""t", "7", "\xE9", "a", "t""#;
        for step in ["b", ""] {
            let expected = format!("no member has the name {step}; there are {names}");
            assert_eq!(trouble(&[step]), expected);
        }
        assert!(trouble(&["a", "e"]).contains("no element's number"));
        assert!(trouble(&["\"a"]).contains("no name in quotes"));
        assert!(trouble(&["\"a\"b"]).contains("no name in quotes"));
        assert!(trouble(&["\"\\n\""]).contains("no name in quotes"));
        assert!(trouble(&["4294967296"]).contains("no step"));
    }

    #[test]
    fn a_path_in_one_word_is_split_at_its_spaces() {
        let of = |word: &str| split(OsStr::new(word));
        assert_eq!(of("-"), [""; 0]);
        assert_eq!(of(""), [""; 0]);
        assert_eq!(of("  "), [""; 0]);
        assert_eq!(of("3"), ["3"]);
        assert_eq!(of(" 3 \t0  id "), ["3", "0", "id"]);
        assert_eq!(of(r#""a b" 0"#), [r#""a b""#, "0"]);
        assert_eq!(
            of(r#""a \" b" "" c"d e""#),
            [r#""a \" b""#, r#""""#, "c\"d", "e\""]
        );
        assert_eq!(of(r#""a\\" b"#), [r#""a\\""#, "b"]);
        assert_eq!(of("\"a b"), ["\"a b"]);
        assert_eq!(of(r#""-""#), [r#""-""#]);
        assert_eq!(of("- 0"), ["-", "0"]);
    }

    #[test]
    fn a_path_has_words() {
        let rig = Descriptor::of(RIG).expect("it is accepted");
        assert_eq!(words(&rig, &[1, 0]), "1 \"7\", 0");
        assert_eq!(words(&rig, &[3, 5]), "3 \"a\", 5");
        assert_eq!(words(&rig, &[9, 5]), "9, 5");
        assert_eq!(names(&rig, &[2]).line(), "[\"\\u00e9\"]\n");
        assert_eq!(row(&rig, &[3, 9]), Some(6));
        assert_eq!(row(&rig, &[0, 0]), None);
    }
}
