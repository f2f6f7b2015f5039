//! JSON for scripts: one line, in ASCII alone, so that nothing in it can steer a
//! terminal.

use std::fmt::Write;

#[derive(Clone, Debug, PartialEq, Eq)]
pub enum Json {
    Null,
    Truth(bool),
    /// A number as it is to be written.
    Number(String),
    Text(String),
    List(Vec<Json>),
    Object(Vec<(&'static str, Json)>),
}

impl Json {
    pub fn number(number: impl Into<u64>) -> Json {
        Json::Number(number.into().to_string())
    }

    pub fn size(number: usize) -> Json {
        Json::Number(number.to_string())
    }

    pub fn text(text: impl Into<String>) -> Json {
        Json::Text(text.into())
    }

    /// Bytes that came as text: one character for each, that of its number, so
    /// that none is lost whatever the rig's character set is.
    pub fn characters(bytes: &[u8]) -> Json {
        Json::Text(bytes.iter().map(|&byte| char::from(byte)).collect())
    }

    pub fn list(items: impl IntoIterator<Item = Json>) -> Json {
        Json::List(items.into_iter().collect())
    }

    pub fn object(fields: impl IntoIterator<Item = (&'static str, Json)>) -> Json {
        Json::Object(fields.into_iter().collect())
    }

    /// The fields of this object with more behind them.
    pub fn with(self, more: impl IntoIterator<Item = (&'static str, Json)>) -> Json {
        match self {
            Json::Object(fields) => Json::object(fields.into_iter().chain(more)),
            other => other,
        }
    }

    /// The text with the end of its line.
    pub fn line(&self) -> String {
        let mut text = String::new();
        self.write(&mut text);
        text.push('\n');
        text
    }

    fn write(&self, text: &mut String) {
        match self {
            Json::Null => text.push_str("null"),
            Json::Truth(truth) => text.push_str(if *truth { "true" } else { "false" }),
            Json::Number(number) => text.push_str(number),
            Json::Text(characters) => quote(characters, text),
            Json::List(items) => {
                let write = |item: &Json, text: &mut String| item.write(text);
                joined(items, ['[', ']'], text, write);
            }
            Json::Object(fields) => joined(fields, ['{', '}'], text, |(name, value), text| {
                quote(name, text);
                text.push(':');
                value.write(text);
            }),
        }
    }
}

fn joined<T>(items: &[T], around: [char; 2], text: &mut String, write: impl Fn(&T, &mut String)) {
    text.push(around[0]);
    for (index, item) in items.iter().enumerate() {
        if index > 0 {
            text.push(',');
        }
        write(item, text);
    }
    text.push(around[1]);
}

fn quote(characters: &str, text: &mut String) {
    text.push('"');
    for character in characters.chars() {
        match character {
            '"' | '\\' => text.extend(['\\', character]),
            ' '..='~' => text.push(character),
            _ => {
                for unit in character.encode_utf16(&mut [0; 2]) {
                    let _ = write!(text, "\\u{unit:04x}");
                }
            }
        }
    }
    text.push('"');
}

#[cfg(test)]
mod tests {
    use super::*;

    #[test]
    fn every_kind_is_written() {
        let json = Json::object([
            (
                "a",
                Json::list([Json::Null, Json::Truth(true), Json::size(7)]),
            ),
            ("b", Json::text("x\"\\\n\u{7f}é😀")),
            ("c", Json::characters(b"\xE9\0")),
        ]);
        let line =
            r#"{"a":[null,true,7],"b":"x\"\\\u000a\u007f\u00e9\ud83d\ude00","c":"\u00e9\u0000"}"#;
        assert_eq!(json.line(), format!("{line}\n"));
        assert_eq!(Json::list([]).line(), "[]\n");
    }
}
