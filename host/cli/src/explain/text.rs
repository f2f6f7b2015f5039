//! The explanation as lines: place, bytes, what they are.

use super::Section;
use crate::layout::{Field, Sort};

/// How many bytes stand in a line.
const BYTES: usize = 8;
/// How many lines a field has where not all are asked for.
const LINES: usize = 4;
/// Where in a line the first byte stands, how wide the bytes are, and where what
/// they are stands.
const FIRST: usize = 13;
const WIDTH: usize = 27;
const MEANING: usize = FIRST + WIDTH;

pub fn of(sections: &[Section], all: bool, coloured: bool) -> String {
    let mut text = String::new();
    for section in sections {
        text += &format!("{}: {}\n", section.file.name, section.verdict);
        let lines = Lines {
            section,
            all,
            coloured,
        };
        for field in &section.fields {
            lines.field(field, &mut text);
        }
        if section.place() == Some(section.file.bytes.len()) {
            let end = section.file.bytes.len();
            lines.line(end, " [end]", lines.refused(), &mut text);
        }
    }
    text
}

struct Lines<'a> {
    section: &'a Section<'a>,
    all: bool,
    coloured: bool,
}

impl Lines<'_> {
    fn field(&self, field: &Field, text: &mut String) {
        let says = format!("{}{}", "  ".repeat(field.depth), field.text);
        let mut says = self.painted(&says, colour(field.sort));
        if field.bytes.is_empty() {
            *text += &format!("{:MEANING$}{says}\n", "");
        }
        // Of an input that is too long not all was read.
        let cut = matches!(self.section.answer.number, 1 | 20);
        let shown = match self.all && !cut {
            true => usize::MAX,
            false => LINES * BYTES,
        };
        for at in field.bytes.clone().step_by(BYTES) {
            if at - field.bytes.start >= shown {
                let more = match cut {
                    true => "and more".into(),
                    false => format!("{} more", field.bytes.end - at),
                };
                *text += &format!("{:FIRST$}.. {more}\n", "");
                break;
            }
            let end = field.bytes.end.min(at + BYTES);
            let bytes = self.bytes(at, end);
            self.line(at, &bytes, std::mem::take(&mut says), text);
            let place = self.section.place();
            if let Some(place) = place.filter(|place| (at..end).contains(place)) {
                let under = FIRST + 3 * (place - at);
                let gap = MEANING - under - 1;
                let refused = self.refused();
                *text += &format!("{:under$}^{:gap$}{refused}\n", "", "");
            }
        }
    }

    /// A line: the place in decimal and in hexadecimal, the bytes, what they are.
    fn line(&self, at: usize, bytes: &str, says: String, text: &mut String) {
        let width = match self.coloured {
            // The marks of a colour take no room.
            true => WIDTH + bytes.len() - plain(bytes),
            false => WIDTH,
        };
        *text += format!("{at:>5}  {at:04X} {bytes:width$} {says}").trim_end();
        text.push('\n');
    }

    /// The bytes behind a space each, the one at the place in brackets.
    fn bytes(&self, start: usize, end: usize) -> String {
        let mut text = String::new();
        for at in start..end {
            let byte = self.section.file.bytes[at];
            let place = self.section.place();
            match place {
                Some(place) if place == at => {
                    text += &self.painted(&format!("[{byte:02X}]"), "1;41;97");
                }
                Some(place) if place + 1 == at && at > start => text += &format!("{byte:02X}"),
                _ => text += &format!(" {byte:02X}"),
            }
        }
        text
    }

    fn refused(&self) -> String {
        let number = self.section.answer.number;
        let meaning = kerbcanopy::meaning(number);
        self.painted(&format!("refused with {number}: {meaning}"), "1;31")
    }

    fn painted(&self, text: &str, colour: &str) -> String {
        match self.coloured && !colour.is_empty() {
            true => format!("\u{1b}[{colour}m{text}\u{1b}[0m"),
            false => text.into(),
        }
    }
}

/// How many characters are seen of a text with colours.
fn plain(text: &str) -> usize {
    let mut seen = 0;
    let mut hidden = false;
    for character in text.chars() {
        match character {
            '\u{1b}' => hidden = true,
            'm' if hidden => hidden = false,
            _ if !hidden => seen += 1,
            _ => {}
        }
    }
    seen
}

fn colour(sort: Sort) -> &'static str {
    match sort {
        Sort::Size => "36",
        Sort::Code => "1;33",
        Sort::Count => "35",
        Sort::Body => "34",
        Sort::Name | Sort::Text => "32",
        Sort::Number => "1",
        Sort::Reserved | Sort::Fill | Sort::More | Sort::Rest => "2",
        Sort::Fault => "31",
        Sort::Heading => "",
    }
}

#[cfg(test)]
mod tests {
    use super::*;

    #[test]
    fn marks_of_a_colour_are_not_seen() {
        assert_eq!(plain(" 00\u{1b}[1;41;97m[0A]\u{1b}[0m"), 7);
        assert_eq!(plain("m"), 1);
    }
}
