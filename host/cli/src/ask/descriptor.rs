//! The questions about descriptors.

use kerbcanopy::Row;

use crate::command::Request;
use crate::descriptor::Descriptor;
use crate::difference::{self, Difference, Side};
use crate::json::Json;
use crate::outcome::Outcome;
use crate::output;
use crate::path;
use crate::refusal::{Lent, Refusal, answer_json};
use crate::words::{counted, items, kind, named_kind, units};

/// A descriptor's types, as a tree or as the table's rows.
pub fn check(request: &Request) -> Result<Outcome, String> {
    let [file] = &request.files[..] else {
        unreachable!("check has one file")
    };
    let answer = kerbcanopy::check_descriptor(&file.bytes).answer;
    let Some(descriptor) = Descriptor::of(&file.bytes) else {
        let refusal = Refusal::of(answer, &Lent::descriptors(file, None));
        return Ok(refusal.outcome(request.options.json));
    };
    let rows = 0..descriptor.rows.len();
    if request.options.json {
        let rows = Json::list(rows.map(|row| row_json(&descriptor, row)));
        let json = answer_json(answer).with([("rows", rows)]);
        return Ok(Outcome::accepted(json.line()));
    }
    let lines: String = match request.options.table {
        true => table(&descriptor.rows),
        false => rows
            .map(|row| line(&descriptor, row, request.options.all))
            .collect(),
    };
    let types = counted(descriptor.rows.len(), "type");
    Ok(Outcome::accepted(format!(
        "{}: accepted, {types}\n{lines}",
        file.name
    )))
}

fn line(descriptor: &Descriptor, row: usize, all: bool) -> String {
    let of = &descriptor.rows[row];
    let items = match &descriptor.items(row)[..] {
        [] => String::new(),
        listed => format!(": {}", items(listed, all)),
    };
    format!(
        "{}{}{items}, {} at {}\n",
        "  ".repeat(of.depth as usize),
        named_kind(descriptor, row),
        counted(of.size as usize, "byte"),
        of.start,
    )
}

fn table(rows: &[Row]) -> String {
    let mut text = String::from(" row code start  size depth count name-place name-length\n");
    for (number, row) in rows.iter().enumerate() {
        text += &format!(
            "{number:>4}   {:02X} {:>5} {:>5} {:>5} {:>5} {:>10} {:>11}\n",
            row.code, row.start, row.size, row.depth, row.count, row.name_place, row.name_length,
        );
    }
    text
}

/// A row's seven numbers, and what they say.
fn row_json(descriptor: &Descriptor, row: usize) -> Json {
    let of = &descriptor.rows[row];
    let numbers = [
        ("code", of.code),
        ("start", of.start),
        ("size", of.size),
        ("depth", of.depth),
        ("count", of.count),
        ("name_place", of.name_place),
        ("name_length", of.name_length),
    ];
    let numbers = numbers.map(|(name, number)| (name, Json::number(number)));
    let name = descriptor.name(row).map_or(Json::Null, Json::characters);
    let items = descriptor.items(row);
    let pairs = descriptor.pairs(row);
    let mut said = vec![("type", Json::text(kind(descriptor, row))), ("name", name)];
    if !items.is_empty() {
        said.push((
            "items",
            Json::list(items.iter().map(|item| Json::characters(item))),
        ));
    }
    if !pairs.is_empty() {
        said.push(("units", Json::text(units(&pairs))));
    }
    Json::object(numbers).with(said)
}

/// Whether two descriptors are equal and, if not, where they first differ.
pub fn compare(request: &Request) -> Result<Outcome, String> {
    let [first, second] = &request.files[..] else {
        unreachable!("compare has two files")
    };
    let compared = kerbcanopy::compare(&first.bytes, &second.bytes);
    if compared.answer.number != 0 {
        let lent = Lent::descriptors(first, Some(second));
        let refusal = Refusal::of(compared.answer, &lent);
        return Ok(refusal.outcome(request.options.json));
    }
    let json = answer_json(compared.answer).with([("equal", Json::Truth(compared.equal))]);
    if compared.equal {
        return Ok(Outcome::accepted(match request.options.json {
            true => json.line(),
            false => "equal\n".into(),
        }));
    }
    let types = [first, second].map(|file| Descriptor::of(&file.bytes));
    let [Some(one), Some(other)] = &types else {
        unreachable!("both are accepted")
    };
    let found = difference::first(one, other);
    let answer = match (request.options.json, &found) {
        (true, Some(found)) => json
            .with([("difference", difference_json(one, found))])
            .line(),
        (true, None) => json.line(),
        (false, Some(found)) => format!("not equal\n{}\n", difference_words(one, found)),
        (false, None) => "not equal\n".into(),
    };
    let complaint = format!("{} and {} are not equal", first.name, second.name);
    Ok(Outcome::different(answer, complaint))
}

fn difference_words(first: &Descriptor, found: &Difference) -> String {
    let within = match path::words(first, &found.path).as_str() {
        "" => String::new(),
        words => format!(" in {words}"),
    };
    let side = |side: &Side| format!("{} at {}", side.text, side.place);
    format!(
        "first difference{within}: {}: {} in the first, {} in the second",
        found.what,
        side(&found.first),
        side(&found.second),
    )
}

fn difference_json(first: &Descriptor, found: &Difference) -> Json {
    let side = |side: &Side| {
        Json::object([
            ("place", Json::size(side.place)),
            ("text", Json::text(&side.text)),
        ])
    };
    Json::object([
        ("path", path::numbers(&found.path)),
        ("names", path::names(first, &found.path)),
        ("what", Json::text(&found.what)),
        ("first", side(&found.first)),
        ("second", side(&found.second)),
    ])
}

/// The normal form, which is as long as the descriptor.
pub fn normal(request: &Request) -> Result<Outcome, String> {
    let [file] = &request.files[..] else {
        unreachable!("normal has one file")
    };
    let room = request.options.room.unwrap_or(file.bytes.len());
    let mut form = vec![0; room.min(file.bytes.len())];
    let answer = kerbcanopy::normal_form(&file.bytes, &mut form);
    if answer.number != 0 {
        let lent = Lent {
            room,
            ..Lent::descriptors(file, None)
        };
        return Ok(Refusal::of(answer, &lent).outcome(request.options.json));
    }
    output::hand_over(answer, &form[..answer.place as usize], request.options)
}
