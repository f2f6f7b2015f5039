//! The fields of a descriptor in byte order, with what each is. The library's
//! answer leads: the reading stops at what its number judges, where its place is
//! the one that it has, and never judges by itself.

use std::ops::Range;

use kerbcanopy::Answer;

use crate::descriptor::CODE;
use crate::hexadecimal::digits;
use crate::words::{code, counted, counts, quoted, thing, unit};

/// What sort of field it is; a reader sees it as a colour.
#[derive(Clone, Copy, Debug, PartialEq, Eq)]
pub enum Sort {
    Size,
    Reserved,
    Code,
    Count,
    /// A fixed word, an item or a unit pair in a body.
    Body,
    Name,
    Fill,
    /// A number of data.
    Number,
    /// Characters of data.
    Text,
    /// A part that has no bytes of its own.
    Heading,
    /// What is not listed one by one.
    More,
    /// What is refused.
    Fault,
    /// What was not read.
    Rest,
}

impl Sort {
    /// The sort's name in JSON and on a page.
    pub fn word(self) -> &'static str {
        match self {
            Sort::Size => "size",
            Sort::Reserved => "reserved",
            Sort::Code => "code",
            Sort::Count => "count",
            Sort::Body => "body",
            Sort::Name => "name",
            Sort::Fill => "fill",
            Sort::Number => "number",
            Sort::Text => "text",
            Sort::Heading => "heading",
            Sort::More => "more",
            Sort::Fault => "fault",
            Sort::Rest => "rest",
        }
    }
}

#[derive(Debug, PartialEq, Eq)]
pub struct Field {
    pub bytes: Range<usize>,
    pub depth: usize,
    pub sort: Sort,
    pub text: String,
    /// What a time stamp says, for scripts.
    pub time: Option<String>,
}

pub struct Layout {
    /// Together they are all the bytes, in order.
    pub fields: Vec<Field>,
    /// The steps to the descriptor at fault.
    pub path: Vec<u32>,
    /// What the refusal was judged by, in figures.
    pub facts: String,
}

/// The fields of a descriptor that has this answer.
pub fn of(bytes: &[u8], answer: Answer) -> Layout {
    let mut reading = Reading {
        bytes,
        answer,
        at: 0,
        fields: Vec::new(),
        path: Vec::new(),
        starts: Vec::new(),
        facts: String::new(),
    };
    let whole = match answer.number {
        1 => None,
        _ => reading.descriptor(bytes.len(), "", false),
    };
    reading.tell_start();
    if reading.at < bytes.len() {
        let text = match whole {
            Some(()) => "bytes after the descriptor",
            None if answer.number == 8 => "after its end, not read",
            None => "not read",
        };
        let rest = bytes.len() - reading.at;
        if whole.is_some() {
            reading.facts = format!("{} behind it", counted(rest, "byte"));
        }
        reading.take(rest, Sort::Rest, text.into());
    }
    Layout {
        fields: reading.fields,
        path: reading.path,
        facts: reading.facts,
    }
}

struct Reading<'a> {
    bytes: &'a [u8],
    answer: Answer,
    at: usize,
    fields: Vec<Field>,
    path: Vec<u32>,
    /// Where the descriptors start that are not read to their ends, the top first.
    starts: Vec<usize>,
    facts: String,
}

/// Each step is none where the reading ends.
impl Reading<'_> {
    fn descriptor(&mut self, end: usize, label: &str, in_array: bool) -> Option<()> {
        let start = self.at;
        self.starts.push(start);
        let (size, low) = self.header(start, end, label, in_array)?;
        let end = start + size;
        self.body(start, end, low)?;
        if low == 0x54 && self.refuses(10, start) {
            return self
                .stop("inside is no cluster of 03, 03, 07 and 07, all without names".into());
        }
        self.name(end)?;
        self.starts.pop();
        Some(())
    }

    /// The size and the low code byte.
    fn header(
        &mut self,
        start: usize,
        end: usize,
        label: &str,
        in_array: bool,
    ) -> Option<(usize, u16)> {
        let room = counted(end - start, "byte");
        if self.refuses(2, start) {
            return self.stop(format!("{room} left"));
        }
        let size = self.word()?;
        self.take(2, Sort::Size, format!("{label}size {size}"));
        if self.refuses(3, start) || self.refuses(4, start) {
            return self.stop(format!("size {size}, {room} there"));
        }
        self.take(1, Sort::Reserved, "reserved".into());
        let low = u16::from(*self.bytes.get(self.at)?);
        let words = format!("code {low:02X}, {}", code(low));
        // Of a time stamp the number judges the subtype.
        if low != 0x54 && self.refuses(5, self.at) {
            return self.fault(1, words);
        }
        if in_array && low == 0x40 && self.refuses(10, self.at) {
            return self.fault(1, format!("{words} in an array"));
        }
        self.take(1, Sort::Code, words);
        if self.refuses(6, start) || self.refuses(7, start) {
            // Their meaning says it all.
            return None;
        }
        Some((usize::from(size), low))
    }

    fn body(&mut self, start: usize, end: usize, low: u16) -> Option<()> {
        match low {
            0x15..=0x17 => self.items(start, end, low),
            0x19..=0x1E => self.pairs(end, low),
            0x30 => self.fixed(end, "length", "any"),
            0x40 => {
                for dimension in 0..self.count(end, low)? {
                    self.fixed(end, &format!("dimension {dimension}"), "any size")?;
                }
                self.inside(end, 0, "element: ", true)
            }
            0x50 => {
                for member in 0..u32::from(self.count(end, low)?) {
                    self.inside(end, member, &format!("member {member}: "), false)?;
                }
                Some(())
            }
            0x54 => {
                self.fits("subtype", 2, end)?;
                let words = format!("subtype {}", self.word()?);
                if self.refuses(5, start + CODE) {
                    return self.fault(2, format!("{words}, not 6"));
                }
                self.take(2, Sort::Body, words);
                self.inside(end, 0, "part 0: ", false)
            }
            _ => Some(()),
        }
    }

    /// A descriptor inside this one.
    fn inside(&mut self, end: usize, step: u32, label: &str, in_array: bool) -> Option<()> {
        self.path.push(step);
        self.descriptor(end, label, in_array)?;
        self.path.pop();
        Some(())
    }

    fn count(&mut self, end: usize, low: u16) -> Option<u16> {
        self.fits("count", 2, end)?;
        let count = self.word()?;
        let words = counted(usize::from(count), thing(low));
        if self.refuses(9, self.at) {
            return self.fault(2, format!("{words}, {}", counts(low)));
        }
        self.take(2, Sort::Count, words);
        Some(count)
    }

    fn items(&mut self, start: usize, end: usize, low: u16) -> Option<()> {
        for number in 0..self.count(end, low)? {
            let label = format!("item {number}");
            self.fits(&label, 1, end)?;
            let length = 1 + usize::from(*self.bytes.get(self.at)?);
            self.fits(&label, length, end)?;
            let item = self.bytes.get(self.at + 1..self.at + length)?;
            self.take(length, Sort::Body, format!("{label}: {}", quoted(item)));
        }
        if (self.at - start) % 2 == 1 {
            let fill = *self.bytes.get(self.at)?;
            if self.refuses(10, self.at) {
                return self.fault(1, format!("fill byte {fill:02X}, not 00"));
            }
            self.take(1, Sort::Fill, "fill".into());
        }
        Some(())
    }

    fn pairs(&mut self, end: usize, low: u16) -> Option<()> {
        for number in 0..self.count(end, low)? {
            let label = format!("unit pair {number}");
            self.fits(&label, 4, end)?;
            let base = self.word()?;
            if self.refuses(10, self.at) {
                return self.fault(2, format!("{label}: base {base}, not 0 to 8"));
            }
            let exponent = self.bytes.get(self.at + 2..self.at + 4)?;
            let exponent = i16::from_be_bytes([exponent[0], exponent[1]]);
            let words = format!("{label}: {}", unit((base, exponent)));
            self.take(4, Sort::Body, words);
        }
        Some(())
    }

    /// The word FFFFFFFF, which says that it can be any.
    fn fixed(&mut self, end: usize, label: &str, any: &str) -> Option<()> {
        self.fits(label, 4, end)?;
        let word = digits(self.bytes.get(self.at..self.at + 4)?);
        if self.refuses(10, self.at) {
            return self.fault(4, format!("{label}: {word}, not FFFFFFFF"));
        }
        // A wrong one is not judged where what comes behind it is missing.
        let says = if word == "FFFFFFFF" { any } else { &word };
        self.take(4, Sort::Body, format!("{label}: {says}"));
        Some(())
    }

    fn name(&mut self, end: usize) -> Option<()> {
        if self.at == end {
            return Some(());
        }
        let characters = usize::from(*self.bytes.get(self.at)?);
        let length = 1 + characters;
        let fill = length % 2;
        let left = end - self.at;
        if self.refuses(11, self.at) {
            let name = format!("a name of {}", counted(characters, "character"));
            let facts = if length + fill != left {
                let takes = counted(length + fill, "byte");
                format!("{name} takes {takes}, {left} left")
            } else {
                let byte = self.bytes.get(end - 1)?;
                format!("{name} with {byte:02X} behind it, not 00")
            };
            return self.fault(left, facts);
        }
        let name = self.bytes.get(self.at + 1..self.at + length)?;
        self.take(length, Sort::Name, format!("name {}", quoted(name)));
        if fill == 1 {
            self.take(1, Sort::Fill, "fill".into());
        }
        Some(())
    }

    /// Whether this is the refusal.
    fn refuses(&self, number: u32, place: usize) -> bool {
        self.answer.number == number && self.answer.place as usize == place
    }

    /// The reading ends here, by these facts.
    fn stop<T>(&mut self, facts: String) -> Option<T> {
        self.facts = facts;
        None
    }

    /// The reading ends with a field that is refused.
    fn fault<T>(&mut self, length: usize, facts: String) -> Option<T> {
        self.take(length, Sort::Fault, facts.clone());
        self.stop(facts)
    }

    /// Whether so many bytes stand before the descriptor's end; else what is left of
    /// it ends the reading: 8, whose place is that end.
    fn fits(&mut self, label: &str, length: usize, end: usize) -> Option<()> {
        let left = end - self.at;
        if self.refuses(8, end) && length > left {
            let needed = counted(length, "byte");
            return self.fault(left, format!("{label}: {needed} needed, {left} left"));
        }
        Some(())
    }

    /// Where the descriptor at fault starts, where the place doesn't say it.
    fn tell_start(&mut self) {
        let place = self.answer.place as usize;
        if let Some(start) = self.starts.last().filter(|start| **start != place) {
            let ends = match self.answer.number {
                8 => " and ends here",
                _ => "",
            };
            self.facts += &format!("; its descriptor starts at {start}{ends}");
        }
    }

    fn word(&self) -> Option<u16> {
        let word = self.bytes.get(self.at..self.at + 2)?;
        Some(u16::from_be_bytes([word[0], word[1]]))
    }

    /// The next bytes as a field.
    fn take(&mut self, length: usize, sort: Sort, text: String) {
        let end = self.at + length;
        self.fields.push(Field {
            bytes: self.at..end,
            depth: self.path.len(),
            sort,
            text,
            time: None,
        });
        self.at = end;
    }
}

#[cfg(test)]
mod tests {
    use super::*;

    fn texts(bytes: &[u8]) -> Vec<String> {
        let answer = kerbcanopy::check_descriptor(bytes).answer;
        let fields = of(bytes, answer).fields;
        fields.into_iter().map(|field| field.text).collect()
    }

    #[test]
    fn an_accepted_descriptor_is_read_to_its_end() {
        let rig = b"\x00\x14\x00\x50\x00\x01\x00\x0A\x40\x15\x00\x01\x01a\x00\x00\x03rig";
        let expected = [
            "size 20",
            "reserved",
            "code 50, cluster",
            "1 member",
            "member 0: size 10",
            "reserved",
            "code 15, 8-bit enumeration",
            "1 item",
            "item 0: \"a\"",
            "name \"\"",
            "fill",
            "name \"rig\"",
        ];
        assert_eq!(texts(rig), expected);
    }

    /// A cluster of this and a signed 32-bit integer.
    fn beside(own: &[u8]) -> Vec<u8> {
        let size = 10 + own.len() as u8;
        [&[0, size, 0, 0x50, 0, 2], own, &[0, 4, 0, 3]].concat()
    }

    #[test]
    fn the_facts_are_those_that_were_judged() {
        let cases: [(&[u8], &str); 9] = [
            (b"\x00\x04\x00", "3 bytes left"),
            (b"\x00\x08\x00\x03", "size 8, 4 bytes there"),
            (
                b"\x00\x0A\x00\x54\x00\x06\x00\x04\x00\x0A",
                "inside is no cluster of 03, 03, 07 and 07, all without names",
            ),
            (b"\x00\x04\x00\x03\x02a", "2 bytes behind it"),
            (b"\x00\x04\x00\x03", ""),
            (
                b"\x00\x04\x00\x32",
                "code 32, no type that is read here; its descriptor starts at 0",
            ),
            (
                b"\x00\x04\x00\x50",
                "count: 2 bytes needed, 0 left; its descriptor starts at 0 and ends here",
            ),
            (
                b"\x00\x06\x00\x40\x00\x05",
                "5 dimensions, not 1 to 4; its descriptor starts at 0",
            ),
            (
                b"\x00\x06\x00\x03\x02a",
                "a name of 2 characters takes 4 bytes, 2 left; its descriptor starts at 0",
            ),
        ];
        for (bytes, expected) in cases {
            let answer = kerbcanopy::check_descriptor(bytes).answer;
            assert_eq!(of(bytes, answer).facts, expected, "{bytes:?}");
        }
    }

    #[test]
    fn the_byte_at_the_place_has_the_words_of_the_refusal() {
        let cases: [(&[u8], usize, &str); 13] = [
            (b"\x00\x04\x00\x32", 9, "code 32, no type that is read here"),
            (
                b"\x00\x06\x00\x50\x00\x00",
                10,
                "0 members, at least 1 is needed",
            ),
            (
                b"\x00\x06\x00\x15\x00\x00",
                10,
                "0 items, at least 1 is needed",
            ),
            (b"\x00\x06\x00\x19\x00\x0A", 10, "10 unit pairs, not 1 to 9"),
            (b"\x00\x06\x00\x40\x00\x05", 10, "5 dimensions, not 1 to 4"),
            (
                b"\x00\x08\x00\x30\xFF\xFF\xFF\xFE",
                10,
                "length: FFFFFFFE, not FFFFFFFF",
            ),
            (
                b"\x00\x12\x00\x40\x00\x02\xFF\xFF\xFF\xFF\x00\x00\x00\x01\x00\x04\x00\x03",
                16,
                "dimension 1: 00000001, not FFFFFFFF",
            ),
            (
                b"\x00\x0E\x00\x19\x00\x02\x00\x08\x00\x09\x00\x09\x00\x01",
                16,
                "unit pair 1: base 9, not 0 to 8",
            ),
            (
                b"\x00\x0A\x00\x15\x00\x01\x02ab\x01",
                15,
                "fill byte 01, not 00",
            ),
            (
                b"\x00\x0E\x00\x40\x00\x01\xFF\xFF\xFF\xFF\x00\x04\x00\x40",
                19,
                "code 40, array in an array",
            ),
            (
                b"\x00\x06\x00\x03\x02a",
                10,
                "a name of 2 characters takes 4 bytes, 2 left",
            ),
            (
                b"\x00\x08\x00\x03\x01a\x00\x00",
                10,
                "a name of 1 character takes 2 bytes, 4 left",
            ),
            (
                b"\x00\x06\x00\x03\x00a",
                10,
                "a name of 0 characters with 61 behind it, not 00",
            ),
        ];
        for (own, place, text) in cases {
            let bytes = beside(own);
            let fields = of(&bytes, kerbcanopy::check_descriptor(&bytes).answer).fields;
            let fault = fields.iter().find(|field| field.sort == Sort::Fault);
            let fault = fault.expect("a field is refused");
            assert_eq!((fault.bytes.start, &fault.text[..]), (place, text));
        }
    }

    #[test]
    fn what_runs_over_is_told_before_the_end() {
        let cases: [(&[u8], &str); 9] = [
            (b"\x00\x04\x00\x50", "count: 2 bytes needed, 0 left"),
            (b"\x00\x04\x00\x54", "subtype: 2 bytes needed, 0 left"),
            (
                b"\x00\x06\x00\x30\xFF\xFF",
                "length: 4 bytes needed, 2 left",
            ),
            (b"\x00\x06\x00\x15\x00\x01", "item 0: 1 byte needed, 0 left"),
            (
                b"\x00\x0A\x00\x15\x00\x02\x02ab\x02",
                "item 1: 3 bytes needed, 1 left",
            ),
            (
                b"\x00\x0A\x00\x19\x00\x02\x00\x09\x00\x01",
                "unit pair 1: 4 bytes needed, 0 left",
            ),
            (
                b"\x00\x06\x00\x40\x00\x01",
                "dimension 0: 4 bytes needed, 0 left",
            ),
            (
                b"\x00\x08\x00\x40\x00\x01\xFF\xFF",
                "dimension 0: 4 bytes needed, 2 left",
            ),
            (
                b"\x00\x0A\x00\x40\x00\x02\x00\x00\x00\x01",
                "dimension 1: 4 bytes needed, 0 left",
            ),
        ];
        for (own, text) in cases {
            let bytes = beside(own);
            let answer = kerbcanopy::check_descriptor(&bytes).answer;
            let end = 6 + own.len();
            assert_eq!((answer.number, answer.place as usize), (8, end));
            let Layout { fields, facts, .. } = of(&bytes, answer);
            let [.., fault, rest] = &fields[..] else {
                panic!("two fields at least: {fields:?}")
            };
            assert_eq!((fault.bytes.end, &fault.text[..]), (end, text));
            assert_eq!(rest.bytes, end..bytes.len());
            assert_eq!(rest.text, "after its end, not read");
            assert_eq!(
                facts,
                format!("{text}; its descriptor starts at 6 and ends here")
            );
        }
    }

    #[test]
    fn reading_stops_at_what_is_refused() {
        let integer = "code 03, signed 32-bit integer";
        let cases: [(&[u8], &[&str]); 9] = [
            (b"", &[]),
            (b"\x00\x04\x00", &["not read"]),
            (b"\x00\x05\x00\x03\x00", &["size 5", "not read"]),
            (
                b"\x00\x06\x00\x32\x01a",
                &[
                    "size 6",
                    "reserved",
                    "code 32, no type that is read here",
                    "not read",
                ],
            ),
            (
                b"\x00\x06\x00\x54\x00\x05",
                &[
                    "size 6",
                    "reserved",
                    "code 54, time stamp",
                    "subtype 5, not 6",
                ],
            ),
            // Its words are all to be there before one is judged.
            (
                b"\x00\x0A\x00\x40\x00\x02\x00\x00\x00\x01",
                &[
                    "size 10",
                    "reserved",
                    "code 40, array",
                    "2 dimensions",
                    "dimension 0: 00000001",
                    "dimension 1: 4 bytes needed, 0 left",
                ],
            ),
            (
                b"\x00\x0E\x00\x40\x00\x01\xFF\xFF\xFF\xFE\x00\x04\x00\x03",
                &[
                    "size 14",
                    "reserved",
                    "code 40, array",
                    "1 dimension",
                    "dimension 0: FFFFFFFE, not FFFFFFFF",
                    "not read",
                ],
            ),
            (
                b"\x00\x06\x00\x03\x01a\x00",
                &[
                    "size 6",
                    "reserved",
                    integer,
                    "name \"a\"",
                    "bytes after the descriptor",
                ],
            ),
            (
                b"\x00\x04\x00\x03\x02a",
                &["size 4", "reserved", integer, "bytes after the descriptor"],
            ),
        ];
        for (bytes, expected) in cases {
            assert_eq!(texts(bytes), expected, "{bytes:?}");
        }
    }
}
