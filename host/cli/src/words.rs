//! Types, names and foreign text in plain words.

use std::ffi::OsStr;

use crate::descriptor::Descriptor;

/// How many items of an enumeration are listed where not all are asked for.
const ITEMS: usize = 12;

/// A number of things: `1 byte`, `2 bytes`, `2 entries`.
pub fn counted(count: usize, thing: &str) -> String {
    match thing.strip_suffix('y') {
        _ if count == 1 => format!("1 {thing}"),
        Some(stem) => format!("{count} {stem}ies"),
        None => format!("{count} {thing}s"),
    }
}

/// What a code is, whatever its count.
pub fn code(code: u16) -> String {
    match code {
        0x01..=0x04 => format!("signed {}-bit integer", 8 << (code - 0x01)),
        0x05..=0x08 => format!("unsigned {}-bit integer", 8 << (code - 0x05)),
        0x09..=0x0E => real(code - 0x09).into(),
        0x15..=0x17 => format!("{}-bit enumeration", 8 << (code - 0x15)),
        0x19..=0x1E => format!("{} quantity", real(code - 0x19)),
        0x21 => "Boolean".into(),
        0x30 => "string".into(),
        0x40 => "array".into(),
        0x50 => "cluster".into(),
        0x54 => "time stamp".into(),
        _ => "no type that is read here".into(),
    }
}

/// What a count word counts, one of it.
pub fn thing(code: u16) -> &'static str {
    match code {
        0x15..=0x17 => "item",
        0x19..=0x1E => "unit pair",
        0x40 => "dimension",
        _ => "member",
    }
}

/// What a count word may say.
pub fn counts(code: u16) -> &'static str {
    match code {
        0x19..=0x1E => "not 1 to 9",
        0x40 => "not 1 to 4",
        _ => "at least 1 is needed",
    }
}

fn real(kind: u16) -> &'static str {
    let kinds = [
        "single",
        "double",
        "extended",
        "complex single",
        "complex double",
        "complex extended",
    ];
    kinds[kind as usize]
}

/// What the type in this row is: its code with its units or its count.
pub fn kind(descriptor: &Descriptor, row: usize) -> String {
    let of = &descriptor.rows[row];
    let words = code(of.code);
    match of.code {
        0x19..=0x1E => format!("{words} in {}", units(&descriptor.pairs(row))),
        0x15..=0x17 | 0x40 | 0x50 => {
            format!("{words} of {}", counted(of.count as usize, thing(of.code)))
        }
        _ => words,
    }
}

/// The type with its name in quotes.
pub fn named_kind(descriptor: &Descriptor, row: usize) -> String {
    match descriptor.name(row) {
        None => kind(descriptor, row),
        Some(name) => format!("{} {}", kind(descriptor, row), quoted(name)),
    }
}

/// An enumeration's items in quotes, the first of them where there are many.
pub fn items(items: &[&[u8]], all: bool) -> String {
    let most = if all { items.len() } else { ITEMS };
    let mut words: Vec<_> = items.iter().take(most).map(|item| quoted(item)).collect();
    if items.len() > most {
        words.push(format!(".. {} more", items.len() - most));
    }
    words.join(", ")
}

/// Units as a product of powers of the base units.
pub fn units(pairs: &[(u16, i16)]) -> String {
    let powers = pairs.iter().map(|&pair| unit(pair));
    powers.collect::<Vec<_>>().join(" ")
}

/// One base unit with its exponent.
pub fn unit((base, exponent): (u16, i16)) -> String {
    let bases = ["rad", "sr", "s", "m", "kg", "A", "K", "mol", "cd"];
    match (bases.get(usize::from(base)), exponent) {
        (None, _) => format!("base {base}"),
        (Some(base), 1) => base.to_string(),
        (Some(base), _) => format!("{base}^{exponent}"),
    }
}

/// Characters in quotes, as [`escaped`] shows them.
pub fn quoted(characters: &[u8]) -> String {
    format!("\"{}\"", escaped(characters))
}

/// Printable ASCII as it is, quotes and backslashes behind a backslash, and
/// any other byte by its number.
pub fn escaped(characters: &[u8]) -> String {
    let mut text = String::new();
    for &byte in characters {
        match byte {
            b'"' | b'\\' => text.extend(['\\', byte as char]),
            b' '..=b'~' => text.push(byte as char),
            _ => text.push_str(&format!("\\x{byte:02X}")),
        }
    }
    text
}

/// A file's name or another word of the command line, fit for a terminal: letters
/// and digits of any script and printable ASCII as they are, all else by number.
pub fn shown(word: &OsStr) -> String {
    let mut text = String::new();
    for chunk in word.as_encoded_bytes().utf8_chunks() {
        for character in chunk.valid().chars() {
            match character {
                ' '..='~' => text.push(character),
                _ if character.is_alphanumeric() => text.push(character),
                _ => text.push_str(&escaped(character.to_string().as_bytes())),
            }
        }
        text.push_str(&escaped(chunk.invalid()));
    }
    text
}

#[cfg(test)]
mod tests {
    use super::*;

    #[test]
    fn things_are_counted() {
        assert_eq!(counted(1, "byte"), "1 byte");
        assert_eq!(counted(0, "byte"), "0 bytes");
        assert_eq!(counted(1, "entry"), "1 entry");
        assert_eq!(counted(2, "entry"), "2 entries");
    }

    #[test]
    fn every_carried_code_has_words() {
        let carried = (0x01..=0x0E).chain(0x15..=0x17).chain(0x19..=0x1E);
        let carried = carried.chain([0x21, 0x30, 0x40, 0x50, 0x54]);
        let mut words: Vec<_> = carried.map(code).collect();
        assert!(!words.contains(&code(0x32)));
        words.sort();
        words.dedup();
        assert_eq!(words.len(), 28);
    }

    #[test]
    fn kinds_are_told_apart() {
        let of = |bytes: &[u8]| kind(&Descriptor::of(bytes).expect("it is accepted"), 0);
        assert_eq!(of(b"\x00\x04\x00\x02"), "signed 16-bit integer");
        assert_eq!(of(b"\x00\x04\x00\x08"), "unsigned 64-bit integer");
        assert_eq!(of(b"\x00\x04\x00\x0E"), "complex extended");
        let enumeration = b"\x00\x08\x00\x17\x00\x01\x01a";
        assert_eq!(of(enumeration), "32-bit enumeration of 1 item");
        let speed = b"\x00\x0E\x00\x1A\x00\x02\x00\x02\xFF\xFF\x00\x03\x00\x01";
        assert_eq!(of(speed), "double quantity in s^-1 m");
    }

    #[test]
    fn units_are_products() {
        assert_eq!(units(&[(4, 1), (3, 2), (2, -2)]), "kg m^2 s^-2");
        assert_eq!(units(&[(0, 0), (8, 1)]), "rad^0 cd");
        assert_eq!(unit((9, 1)), "base 9");
    }

    #[test]
    fn many_items_are_cut() {
        let many = vec![&b"a"[..]; ITEMS + 2];
        let shown = ["\"a\""; ITEMS].join(", ");
        assert_eq!(items(&many, false), format!("{shown}, .. 2 more"));
        assert_eq!(items(&many[2..], false), shown);
        assert_eq!(items(&many, true).len(), (ITEMS + 2) * 5 - 2);
    }

    #[test]
    fn foreign_text_can_steer_no_terminal() {
        assert_eq!(escaped(b"a \"b\\\n\xE9~\x7F"), r#"a \"b\\\x0A\xE9~\x7F"#);
        assert_eq!(shown(OsStr::new("bäd ß1~")), "bäd ß1~");
        let nasty = OsStr::new("\u{1b}[2J\u{9b}\u{202e}\r");
        assert_eq!(shown(nasty), r"\x1B[2J\xC2\x9B\xE2\x80\xAE\x0D");
    }
}
