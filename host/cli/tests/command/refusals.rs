//! Every refusal number: its line, its JSON and its status.

mod books;
mod data;
mod descriptors;
mod places;
mod record;
mod stamps;

use crate::common::Folder;
use crate::common::json::Json;

/// Steps, with names where the descriptor is accepted.
type Path<'a> = &'a [(usize, Option<&'a str>)];

/// What a refusal says.
#[derive(Clone, Copy)]
struct Refused<'a> {
    number: u32,
    file: &'a str,
    input: u32,
    role: &'a str,
    place: usize,
    path: Path<'a>,
    there: &'a str,
    facts: &'a str,
}

impl Refused<'_> {
    fn line(&self) -> String {
        let steps = self.path.iter().map(|(step, name)| match name {
            Some(name) => format!("{step} \"{name}\""),
            None => step.to_string(),
        });
        let steps: Vec<String> = steps.collect();
        let within = match &steps[..] {
            [] => String::new(),
            steps => format!("; in {}", steps.join(", ")),
        };
        let facts = match self.facts {
            "" => String::new(),
            facts => format!("; {facts}"),
        };
        format!(
            "{}: refused with {}: {} (input {}, {}; place {}{within}): {}{facts}",
            self.file,
            self.number,
            meaning(self.number),
            self.input,
            self.role,
            self.place,
            self.there,
        )
    }

    fn json(&self) -> Json {
        let number = |number: usize| Json::Number(number.to_string());
        let text = |text: &str| Json::Text(text.into());
        let names = self
            .path
            .iter()
            .map(|(_, name)| name.map_or(Json::Null, text));
        let path = self.path.iter().map(|(step, _)| number(*step));
        let fields = [
            ("number", number(self.number as usize)),
            ("input", number(self.input as usize)),
            ("place", number(self.place)),
            ("meaning", text(meaning(self.number))),
            ("file", text(self.file)),
            ("path", Json::List(path.collect())),
            ("names", Json::List(names.collect())),
            ("there", text(self.there)),
            ("facts", text(self.facts)),
        ];
        Json::Object(fields.map(|(name, value)| (name.to_string(), value)).into())
    }

    /// Runs the words, and once more with `--json`.
    #[track_caller]
    fn by(&self, folder: &Folder, words: &[&str]) {
        let before = folder.names();
        folder.run(words).refuses(&self.line());
        let ran = folder.run(&[words, &["--json"]].concat());
        assert_eq!((ran.status, ran.complaint()), (1, &self.line()[..]));
        assert_eq!(ran.json(), self.json());
        assert_eq!(folder.names(), before);
    }
}

fn meaning(number: u32) -> &'static str {
    match number {
        1 => "the descriptor has more than 4,096 bytes",
        2 => "fewer than 4 bytes are left where a descriptor should start",
        3 => "the size has its high bit set",
        4 => "the size is odd, under 4, or runs past the end of what it stands in",
        5 => "the code is none that is read here, or a time stamp's subtype is not 6",
        6 => "it stands nine levels deep, and eight are the most",
        7 => "it would be type 257, and 256 are the most",
        8 => "what the type needs is longer than its size allows",
        9 => "a count is outside its limits",
        10 => {
            "a length or dimension is not FFFFFFFF, a unit's base is over 8, \
             an enumeration's fill byte is not zero, an array stands directly in an array, \
             or a time stamp holds anything but its cluster of four integers"
        }
        11 => "what is left after the type is no name",
        12 => "bytes follow the descriptor",
        20 => "the data has more than 65,536 bytes",
        21 => "the data ends inside this piece",
        22 => "a length or size is 2147483648 or more",
        23 => "the enumeration has no item of this number",
        25 => "bytes are left over",
        30 => "the step leads nowhere: there is no such part",
        31 => {
            "there is no single number: a string, array, cluster, time stamp, extended or complex number"
        }
        32 => "the difference's seconds don't fit 64 signed bits",
        40 => {
            "the reader is no cluster, or this member's name is missing, empty or an earlier member's"
        }
        41 => "the writer is no cluster",
        42 => "the writer has no member of this name",
        43 => "the writer has several members of this name",
        44 => "the writer's member of this name is of another type",
        60 => "the identifier is already in the book",
        61 => "the book has no free entry",
        62 => "the book has no room for the body",
        63 => "the book is not well formed",
        64 => "the book has no record of this identifier",
        _ => "the output is too small",
    }
}

/// Eight bytes on either side of the place.
fn around(bytes: &[u8], place: usize) -> String {
    let start = place.saturating_sub(8);
    let end = bytes.len().min(place + 9);
    let shown: Vec<String> = (start..end)
        .map(|at| match at == place {
            true => format!("[{:02X}]", bytes[at]),
            false => format!("{:02X}", bytes[at]),
        })
        .collect();
    let before = if start > 0 { ".. " } else { "" };
    let behind = match place == bytes.len() {
        true => " [end]",
        false if end < bytes.len() => " ..",
        false => "",
    };
    format!("{before}{}{behind}", shown.join(" "))
}

/// A request about data that is refused.
fn request(number: u32, place: usize) -> Refused<'static> {
    Refused {
        number,
        file: "data-bath.hex",
        input: 4,
        role: "the request",
        place,
        path: &[],
        there: "",
        facts: "",
    }
}
