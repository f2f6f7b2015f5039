//! Bytes and what they are, field by field, to be shown as text or as a page.

pub mod page;
pub mod text;

use std::ops::Range;

use kerbcanopy::Answer;

use crate::content::{self, ELEMENTS};
use crate::descriptor::Descriptor;
use crate::facts;
use crate::input::Input;
use crate::json::Json;
use crate::layout::{self, Field, Sort};
use crate::moment;
use crate::refusal::{Lent, Refusal, answer_json};
use crate::tokens::{self, Fault, Found, Order, Part};
use crate::words::{counted, kind, quoted};

/// One input, explained.
pub struct Section<'a> {
    /// What input it is.
    pub title: &'static str,
    pub file: &'a Input,
    pub answer: Answer,
    /// Together they are all the bytes, in order.
    pub fields: Vec<Field>,
    pub verdict: String,
    pub refusal: Option<Refusal>,
}

impl<'a> Section<'a> {
    pub fn descriptor(file: &'a Input) -> Section<'a> {
        let answer = kerbcanopy::check_descriptor(&file.bytes).answer;
        let refusal = Refusal::of(answer, &Lent::descriptors(file, None));
        let types = counted(answer.place as usize, "type");
        let fields = layout::of(&file.bytes, answer).fields;
        Section::new("descriptor", file, answer, fields, types, refusal)
    }

    /// Data under a descriptor that is accepted.
    pub fn data(descriptor: &Input, file: &'a Input, all: bool) -> Section<'a> {
        let answer = kerbcanopy::check_data(&descriptor.bytes, &file.bytes);
        let refusal = Refusal::of(answer, &Lent::data(descriptor, file));
        let pieces = counted(answer.place as usize, "piece");
        let fields = match Descriptor::of(&descriptor.bytes) {
            Some(types) => data_fields(&types, &file.bytes, answer, all),
            None => Vec::new(),
        };
        Section::new("data", file, answer, fields, pieces, refusal)
    }

    fn new(
        title: &'static str,
        file: &'a Input,
        answer: Answer,
        fields: Vec<Field>,
        counted_parts: String,
        refusal: Refusal,
    ) -> Section<'a> {
        let length = counted(file.bytes.len(), "byte");
        let verdict = match answer.number {
            0 => format!("{length}, accepted, {counted_parts}"),
            // No more is read of an input that is too long.
            1 | 20 => format!("refused with {}", answer.number),
            number => format!("{length}, refused with {number}"),
        };
        Section {
            title,
            file,
            answer,
            fields,
            verdict,
            refusal: (answer.number != 0).then_some(refusal),
        }
    }

    /// The byte to be marked; it may be the one behind the last.
    pub fn place(&self) -> Option<usize> {
        (self.answer.number != 0).then_some(self.answer.place as usize)
    }

    /// The answer, or the refusal.
    pub fn answer_json(&self) -> Json {
        match &self.refusal {
            Some(refusal) => refusal.json(),
            None => answer_json(self.answer).with([("file", Json::text(&self.file.name))]),
        }
    }

    pub fn json(&self) -> Json {
        let fields = self.fields.iter().map(|field| {
            let time = field.time.iter().map(|time| ("time", Json::text(time)));
            Json::object([
                ("start", Json::size(field.bytes.start)),
                ("length", Json::size(field.bytes.len())),
                ("depth", Json::size(field.depth)),
                ("sort", Json::text(field.sort.word())),
                ("text", Json::text(&field.text)),
            ])
            .with(time)
        });
        Json::object([("title", Json::text(self.title))]).with([
            ("answer", self.answer_json()),
            ("fields", Json::list(fields)),
        ])
    }
}

fn data_fields(types: &Descriptor, data: &[u8], answer: Answer, all: bool) -> Vec<Field> {
    let most = if all { u64::MAX } else { ELEMENTS };
    let walked = tokens::walk(types, data, answer, Order::Big, most);
    let mut fields = Vec::new();
    for found in &walked.found {
        match found {
            Found::Part(part) => part_fields(types, data, part, all, &mut fields),
            Found::More(more) => fields.push(Field {
                bytes: more.bytes.clone(),
                depth: more.path.len() + 1,
                sort: Sort::More,
                text: format!(".. {} more elements", more.count),
                time: None,
            }),
        }
    }
    let mut end = walked.end;
    if let Some(fault) = &walked.fault {
        let field = fault_field(types, data, fault, end, answer);
        end = field.bytes.end;
        fields.push(field);
    }
    if end < data.len() {
        let text = match answer.number {
            25 => "bytes left over",
            _ => "not read",
        };
        fields.push(Field {
            bytes: end..data.len(),
            depth: 0,
            sort: Sort::Rest,
            text: text.into(),
            time: None,
        });
    }
    fields
}

/// The piece at fault, which starts here, with the facts.
fn fault_field(
    types: &Descriptor,
    data: &[u8],
    fault: &Fault,
    start: usize,
    answer: Answer,
) -> Field {
    let Fault { row, path } = fault;
    let facts = facts::of_piece(types, *row, data, start, answer.number, Order::Big);
    Field {
        bytes: start..fault_end(types, *row, start, data.len(), answer),
        depth: path.len(),
        sort: Sort::Fault,
        text: format!("{}: refused, {facts}", label(types, *row, path)),
        time: None,
    }
}

/// Where the bytes end that the refused piece was judged by: its number, its
/// length or its sizes, or all that is there of a piece that is not whole.
fn fault_end(types: &Descriptor, row: usize, start: usize, end: usize, answer: Answer) -> usize {
    let length = match (answer.number, types.width(row)) {
        (21, _) => return end,
        (_, Some(width)) => width,
        (_, None) => 4 * usize::from(types.rows[row].count.max(1)),
    };
    end.min(start + length)
}

fn part_fields(types: &Descriptor, data: &[u8], part: &Part, all: bool, fields: &mut Vec<Field>) {
    let start = part.bytes.start;
    let bytes = &data[part.bytes.clone()];
    let label = label(types, part.row, &part.path);
    let code = types.rows[part.row].code;
    // Where it is not whole, its integers say what there is of it.
    let stamp = match code {
        0x54 => moment::of(types.own(part.row), bytes),
        _ => None,
    };
    let says = match (code, stamp) {
        (0x30, _) => string(start, bytes, &label, all),
        (0x40, _) => sizes(start, &part.sizes, &label),
        (0x54, Some(stamp)) => {
            let text = format!("{label} = {}", moment::text(stamp));
            vec![(start..start, Sort::Heading, text)]
        }
        (0x50 | 0x54, _) => vec![(start..start, Sort::Heading, label)],
        _ => {
            let number = content::number(types, part.row, bytes);
            let text = format!("{label} = {number}");
            vec![(part.bytes.clone(), Sort::Number, text)]
        }
    };
    fields.extend(says.into_iter().map(|(bytes, sort, text)| Field {
        bytes,
        depth: part.path.len(),
        sort,
        text,
        time: stamp.map(moment::iso),
    }));
}

/// Where some bytes of a part stand, of what sort they are, and what they say.
type Says = (Range<usize>, Sort, String);

/// A string's length word, and its characters where it has any.
fn string(start: usize, bytes: &[u8], label: &str, all: bool) -> Vec<Says> {
    let (word, characters) = bytes.split_at(4);
    let text = format!("{label}, length {}", characters.len());
    let behind = start + word.len();
    let mut says = vec![(start..behind, Sort::Size, text)];
    if !characters.is_empty() {
        let text = content::characters(characters, all);
        says.push((behind..start + bytes.len(), Sort::Text, text));
    }
    says
}

/// An array's size words.
fn sizes(start: usize, sizes: &[u32], label: &str) -> Vec<Says> {
    let size_word = |(dimension, size)| {
        let at = start + 4 * dimension;
        let text = match dimension {
            0 => format!("{label}, size {size}"),
            _ => format!("size {size}"),
        };
        (at..at + 4, Sort::Count, text)
    };
    sizes.iter().enumerate().map(size_word).collect()
}

/// A part's last step, its name and its type.
fn label(types: &Descriptor, row: usize, path: &[u32]) -> String {
    let step = path.last().map(u32::to_string);
    let name = types.name(row).map(quoted);
    let words = [step, name, Some(kind(types, row))];
    let words: Vec<String> = words.into_iter().flatten().collect();
    words.join(" ")
}
