//! A refusal in plain words: the number, what it means, the input, the place,
//! the bytes or steps around it, and the path of the member that it falls in.

use std::ffi::OsString;

use kerbcanopy::accepted::Stamp;
use kerbcanopy::{Answer, meaning};

use crate::book::told;
use crate::descriptor::Descriptor;
use crate::difference;
use crate::facts;
use crate::hexadecimal::Decoder;
use crate::input::Input;
use crate::json::Json;
use crate::layout;
use crate::moment;
use crate::outcome::Outcome;
use crate::path;
use crate::tokens::{self, Order};
use crate::words::{counted, named_kind, shown};

/// How many bytes are shown on either side of the place.
const AROUND: usize = 8;

/// What a question was lent.
pub struct Lent<'a> {
    pub first: &'a Input,
    pub second: Option<&'a Input>,
    pub data: Option<&'a Input>,
    /// How numbers of the data are read.
    pub order: Order,
    /// The path, as it was given and by its numbers.
    pub steps: &'a [OsString],
    pub path: &'a [u32],
    /// The output's length.
    pub room: usize,
    /// The two stamps whose difference is asked for, each with its data.
    pub stamps: Option<[(&'a Input, Stamp); 2]>,
    /// The book that is asked, and the identifier that is looked for in it.
    pub book: Option<&'a Input>,
    pub identifier: u32,
}

impl<'a> Lent<'a> {
    /// Descriptors alone.
    pub fn descriptors(first: &'a Input, second: Option<&'a Input>) -> Lent<'a> {
        Lent {
            first,
            second,
            data: None,
            order: Order::Big,
            steps: &[],
            path: &[],
            room: 0,
            stamps: None,
            book: None,
            identifier: 0,
        }
    }

    /// Data under a descriptor.
    pub fn data(first: &'a Input, data: &'a Input) -> Lent<'a> {
        Lent {
            data: Some(data),
            ..Lent::descriptors(first, None)
        }
    }

    /// A book, asked for this identifier or for none.
    pub fn book(book: &'a Input, identifier: u32) -> Lent<'a> {
        Lent {
            book: Some(book),
            identifier,
            ..Lent::descriptors(book, None)
        }
    }

    /// The input of this number, and what it is. The request is told by the file
    /// that it was about.
    fn input(&self, number: u32) -> (&'a Input, &'static str) {
        let data = self.data.unwrap_or(self.first);
        if let Some(book) = self.book {
            return match (number, self.second) {
                (1, _) => (self.first, "the descriptor"),
                // The shape is the book's own, and no file: its name is the descriptor's,
                // which lacks what is asked for.
                (2, Some(shape)) => (shape, "the book's shape"),
                (3, _) => (data, "the data"),
                _ => (book, "the request"),
            };
        }
        match (number, self.second, self.data) {
            (1, None, _) => (self.first, "the descriptor"),
            (1, _, None) => (self.first, "the first descriptor"),
            (1, _, _) => (self.first, "the writer's descriptor"),
            (2, Some(second), None) => (second, "the second descriptor"),
            (2, Some(second), _) => (second, "the reader's descriptor"),
            (3, _, _) => (data, "the data"),
            _ => (data, "the request"),
        }
    }
}

pub struct Refusal {
    answer: Answer,
    file: String,
    input: &'static str,
    /// What stands at the place.
    there: String,
    /// What was judged, in figures.
    facts: String,
    /// The path of the member that the place falls in.
    path: Vec<u32>,
    path_words: String,
    names: Json,
}

impl Refusal {
    /// What this refusal of a question says.
    pub fn of(answer: Answer, lent: &Lent) -> Refusal {
        let (file, input) = lent.input(answer.input);
        let mut refusal = Refusal {
            answer,
            file: file.name.clone(),
            input,
            there: around(&file.bytes, answer.place as usize),
            facts: String::new(),
            path: Vec::new(),
            path_words: String::new(),
            names: Json::list([]),
        };
        match answer.number {
            1..=12 => {
                let layout = layout::of(&file.bytes, answer);
                refusal.facts = layout.facts;
                refusal.falls_in(layout.path, None);
            }
            32 => refusal.of_stamps(lent.stamps),
            50 => {
                refusal.there = format!("room for {}", counted(lent.room, "byte"));
                refusal.facts = format!("{} needed", counted(answer.place as usize, "byte"));
            }
            60..=64 => {
                (refusal.there, refusal.facts) = told::of(answer, &file.bytes, lent.identifier);
            }
            _ => refusal.under_types(lent),
        }
        if !file.text && looks_like_text(&file.bytes) {
            refusal.facts += match answer {
                Answer { number: 63, .. } => "; it looks like hexadecimal text, and a book is raw",
                Answer { input: 1..=3, .. } => {
                    "; it looks like hexadecimal text, which --hex reads"
                }
                _ => "",
            };
        }
        refusal
    }

    /// 32: the two stamps, and what their difference's seconds would be. Neither is
    /// wrong by itself, so both files are named.
    fn of_stamps(&mut self, stamps: Option<[(&Input, Stamp); 2]>) {
        if let Some([(data, first), (other, second)]) = stamps {
            if other.name != data.name {
                self.file = format!("{} and {}", data.name, other.name);
            }
            let [one, other] = [first, second].map(moment::text);
            self.there = format!("{one} less {other}");
            self.facts = format!("{} seconds", moment::whole_seconds(first, second));
        }
    }

    /// What is refused under accepted descriptors.
    fn under_types(&mut self, lent: &Lent) {
        let Some(first) = Descriptor::of(&lent.first.bytes) else {
            return;
        };
        match self.answer.number {
            20..=23 | 25 => {
                let data = lent.data.map_or(&[][..], |data| &data.bytes);
                self.of_data(&first, data, lent.order);
            }
            30 | 31 => {
                let reached = match self.answer.number {
                    30 => &lent.path[..self.answer.place as usize],
                    _ => lent.path,
                };
                let row = path::row(&first, reached).unwrap_or(0);
                let steps = marked(lent.steps, self.answer);
                self.there = format!("{steps}; {}", named_kind(&first, row));
                self.falls_in(reached.to_vec(), Some(&first));
            }
            41 => self.there = named_kind(&first, 0),
            _ => {
                let second = lent.second.and_then(|second| Descriptor::of(&second.bytes));
                if let Some(second) = second {
                    self.of_member(&first, &second);
                }
            }
        }
    }

    /// 20 to 23 and 25: the piece at fault, or the bytes behind the last.
    fn of_data(&mut self, types: &Descriptor, data: &[u8], order: Order) {
        let Answer { number, place, .. } = self.answer;
        let walked = tokens::walk(types, data, self.answer, order, 0);
        if let Some(fault) = walked.fault {
            self.facts = facts::of_piece(types, fault.row, data, place as usize, number, order);
            self.falls_in(fault.path, Some(types));
        } else if number == 25 {
            self.facts = format!("{} left", counted(data.len() - walked.end, "byte"));
        }
    }

    /// 40 and 42 to 44: the reader's member whose number is the place, and what
    /// the writer has instead.
    fn of_member(&mut self, writer: &Descriptor, reader: &Descriptor) {
        let member = match reader.rows[0].code {
            0x50 => path::row(reader, &[self.answer.place]),
            _ => None,
        };
        let Some(member) = member else {
            self.there = named_kind(reader, 0);
            return;
        };
        self.falls_in(vec![self.answer.place], Some(reader));
        self.there = named_kind(reader, member);
        self.facts = match self.answer.number {
            42 => format!("the writer has {}", facts::names(writer, 0)),
            43 => {
                let same = facts::namesakes(writer, reader.name(member));
                format!("the writer's members {same} have it")
            }
            44 => instead(writer, reader, member).unwrap_or_default(),
            _ => String::new(),
        };
    }

    fn falls_in(&mut self, path: Vec<u32>, descriptor: Option<&Descriptor>) {
        match descriptor {
            Some(descriptor) => {
                self.path_words = path::words(descriptor, &path);
                self.names = path::names(descriptor, &path);
            }
            // A refused descriptor's names stand behind what was refused.
            None => {
                let steps: Vec<_> = path.iter().map(u32::to_string).collect();
                self.path_words = steps.join(", ");
                self.names = Json::list(path.iter().map(|_| Json::Null));
            }
        }
        self.path = path;
    }

    /// The whole in one line.
    pub fn line(&self) -> String {
        let Answer {
            number,
            input,
            place,
        } = self.answer;
        let within = match self.path_words.as_str() {
            "" => String::new(),
            words => format!("; in {words}"),
        };
        format!(
            "{}: refused with {number}: {} (input {input}, {}; place {place}{within}): {}{}",
            self.file,
            meaning(number),
            self.input,
            self.there,
            self.facts(),
        )
    }

    /// What was judged, behind something else.
    fn facts(&self) -> String {
        match self.facts.trim_start_matches("; ") {
            "" => String::new(),
            facts => format!("; {facts}"),
        }
    }

    pub fn json(&self) -> Json {
        answer_json(self.answer).with([
            ("meaning", Json::text(meaning(self.answer.number))),
            ("file", Json::text(&self.file)),
            ("path", path::numbers(&self.path)),
            ("names", self.names.clone()),
            ("there", Json::text(&self.there)),
            ("facts", Json::text(self.facts.trim_start_matches("; "))),
        ])
    }

    pub fn outcome(&self, json: bool) -> Outcome {
        let answer = if json {
            self.json().line()
        } else {
            String::new()
        };
        Outcome::refused(answer, self.line())
    }
}

/// The three numbers of an answer.
pub fn answer_json(answer: Answer) -> Json {
    Json::object([
        ("number", Json::number(answer.number)),
        ("input", Json::number(answer.input)),
        ("place", Json::number(answer.place)),
    ])
}

/// How the writer's member of the same name differs from the reader's.
fn instead(writer: &Descriptor, reader: &Descriptor, member: usize) -> Option<String> {
    let name = reader.name(member);
    let same = |row: &usize| writer.name(*row) == name;
    let twin = writer.inside(0).into_iter().find(same)?;
    let own = [reader.own(member), writer.own(twin)].map(Descriptor::of);
    let [Some(own), Some(other)] = &own else {
        return None;
    };
    let found = difference::first(own, other)?;
    let at = path::words(own, &found.path);
    let within = if at.is_empty() {
        at
    } else {
        format!(" in {at}")
    };
    Some(format!(
        "first difference{within}: {} is {} here and {} in the writer",
        found.what, found.first.text, found.second.text
    ))
}

/// Whether bytes that were taken as they are could be read as hexadecimal text.
fn looks_like_text(bytes: &[u8]) -> bool {
    let mut decoder = Decoder::default();
    let read = bytes.iter().try_for_each(|&byte| decoder.push(byte));
    read.is_ok() && !decoder.bytes.is_empty()
}

/// The steps, the one that leads nowhere in brackets.
fn marked(steps: &[OsString], answer: Answer) -> String {
    if steps.is_empty() {
        return "no steps".into();
    }
    let mark = |(place, step): (usize, &OsString)| match answer.number {
        30 if place == answer.place as usize => format!("[{}]", shown(step)),
        _ => shown(step),
    };
    let steps: Vec<String> = steps.iter().enumerate().map(mark).collect();
    format!("steps {}", steps.join(" "))
}

/// The bytes around the place, the one there in brackets.
pub fn around(bytes: &[u8], place: usize) -> String {
    let place = place.min(bytes.len());
    let start = place.saturating_sub(AROUND);
    let end = bytes.len().min(place + 1 + AROUND);
    let mut words = Vec::new();
    if start > 0 {
        words.push("..".to_string());
    }
    for (index, byte) in bytes[start..end].iter().enumerate() {
        if start + index == place {
            words.push(format!("[{byte:02X}]"));
        } else {
            words.push(format!("{byte:02X}"));
        }
    }
    if place == bytes.len() {
        words.push("[end]".to_string());
    } else if end < bytes.len() {
        words.push("..".to_string());
    }
    words.join(" ")
}

#[cfg(test)]
mod tests {
    use super::*;

    #[test]
    fn the_place_is_marked() {
        let bytes: Vec<u8> = (0..32).collect();
        assert_eq!(around(&bytes[..4], 0), "[00] 01 02 03");
        assert_eq!(around(&bytes[..4], 4), "00 01 02 03 [end]");
        assert_eq!(around(&[], 0), "[end]");
        assert_eq!(
            around(&bytes, 16),
            ".. 08 09 0A 0B 0C 0D 0E 0F [10] 11 12 13 14 15 16 17 18 .."
        );
        assert_eq!(around(&bytes, 31), ".. 17 18 19 1A 1B 1C 1D 1E [1F]");
    }

    #[test]
    fn the_step_is_marked() {
        let refusal = |number, place| Answer {
            number,
            input: 4,
            place,
        };
        let steps = ["3", "id", "0"].map(OsString::from);
        assert_eq!(marked(&steps, refusal(30, 1)), "steps 3 [id] 0");
        assert_eq!(marked(&steps[..2], refusal(31, 0)), "steps 3 id");
        assert_eq!(marked(&[], refusal(31, 0)), "no steps");
    }
}
