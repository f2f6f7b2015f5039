//! Bytes as hexadecimal text, in words of 16 bits as the papers print them.

/// Reads text as it comes: two digits a byte, spaces between bytes as they are,
/// and from a `#` to the end of its line a comment.
#[derive(Default)]
pub struct Decoder {
    pub bytes: Vec<u8>,
    /// The first digit of a byte whose second has not come yet.
    half: Option<u8>,
    comment: bool,
    lines: usize,
}

impl Decoder {
    /// Reads one more character, or says what is wrong with it.
    pub fn push(&mut self, character: u8) -> Result<(), String> {
        match character {
            b'\n' => {
                self.space()?;
                self.lines += 1;
                self.comment = false;
            }
            _ if self.comment => {}
            b'#' => {
                self.space()?;
                self.comment = true;
            }
            _ if character.is_ascii_whitespace() => self.space()?,
            _ => self.digit(character)?,
        }
        Ok(())
    }

    fn digit(&mut self, character: u8) -> Result<(), String> {
        let Some(digit) = char::from(character).to_digit(16) else {
            let character = character.escape_ascii();
            return Err(self.trouble(&format!("'{character}' is no hexadecimal digit")));
        };
        match self.half.take() {
            None => self.half = Some(digit as u8),
            Some(half) => self.bytes.push(half * 16 + digit as u8),
        }
        Ok(())
    }

    /// Between two bytes, or at the end: no byte may be open.
    pub fn space(&self) -> Result<(), String> {
        match self.half {
            None => Ok(()),
            Some(_) => Err(self.trouble("a byte has one digit where two are needed")),
        }
    }

    fn trouble(&self, what: &str) -> String {
        format!("line {}: {what}", self.lines + 1)
    }
}

/// The bytes as text, eight words to a line.
pub fn text(bytes: &[u8]) -> String {
    let lines = bytes.chunks(16).map(|bytes| line(bytes) + "\n");
    lines.collect()
}

/// The bytes in one line.
pub fn line(bytes: &[u8]) -> String {
    let words = bytes.chunks(2).map(digits);
    words.collect::<Vec<_>>().join(" ")
}

/// The digits alone.
pub fn digits(bytes: &[u8]) -> String {
    bytes.iter().map(|byte| format!("{byte:02X}")).collect()
}

#[cfg(test)]
mod tests {
    use super::*;

    fn bytes(text: &[u8]) -> Result<Vec<u8>, String> {
        let mut decoder = Decoder::default();
        for &character in text {
            decoder.push(character)?;
        }
        decoder.space()?;
        Ok(decoder.bytes)
    }

    #[test]
    fn spaces_and_comments_are_left_out() {
        let text = b"# an integer\n0004 00 03  # 0005\r\n\n\t01";
        assert_eq!(bytes(text), Ok(vec![0, 4, 0, 3, 1]));
        assert_eq!(bytes(b"aB# Cd"), Ok(vec![0xAB]));
        assert_eq!(bytes(b""), Ok(vec![]));
    }

    #[test]
    fn trouble_is_named_with_its_line() {
        let half = |line| format!("line {line}: a byte has one digit where two are needed");
        assert_eq!(bytes(b"00\n000 4"), Err(half(2)));
        assert_eq!(bytes(b"00\n\n0"), Err(half(3)));
        assert_eq!(bytes(b"0#0"), Err(half(1)));
        assert_eq!(bytes(b"0\n0"), Err(half(1)));
        let digit = |shown| Err(format!("line 1: '{shown}' is no hexadecimal digit"));
        assert_eq!(bytes(b"00g4"), digit("g"));
        assert_eq!(bytes(b"+4"), digit("+"));
        assert_eq!(bytes(b"\xE9"), digit("\\xe9"));
        assert_eq!(bytes(b"\x1B"), digit("\\x1b"));
    }

    #[test]
    fn text_is_read_back() {
        let all: Vec<u8> = (0..=255).collect();
        assert_eq!(bytes(text(&all).as_bytes()), Ok(all));
        assert_eq!(text(&[0, 4, 0x0F]), "0004 0F\n");
    }
}
