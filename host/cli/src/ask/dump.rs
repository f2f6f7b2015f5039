//! Every value of accepted data with its path, name and type.

use super::data::{inputs, verdict};
use crate::command::Request;
use crate::content::{self, ELEMENTS};
use crate::descriptor::Descriptor;
use crate::hexadecimal;
use crate::json::Json;
use crate::moment;
use crate::outcome::Outcome;
use crate::path;
use crate::refusal::{Lent, Refusal, answer_json};
use crate::tokens::{self, Found, More, Order, Part};
use crate::value;
use crate::words::{counted, kind, named_kind};

pub fn dump(request: &Request) -> Result<Outcome, String> {
    let (file, data) = inputs(request);
    let answer = kerbcanopy::check_data(&file.bytes, &data.bytes);
    let types = Descriptor::of(&file.bytes);
    let (0, Some(types)) = (answer.number, &types) else {
        let refusal = Refusal::of(answer, &Lent::data(file, data));
        return Ok(refusal.outcome(request.options.json));
    };
    let most = if request.options.all {
        u64::MAX
    } else {
        ELEMENTS
    };
    let found = tokens::walk(types, &data.bytes, answer, Order::Big, most).found;
    if request.options.json {
        let parts = found
            .iter()
            .map(|found| found_json(types, &data.bytes, found));
        let json = answer_json(answer).with([("parts", Json::list(parts))]);
        return Ok(Outcome::accepted(json.line()));
    }
    let lines = found.iter().map(|found| match found {
        Found::Part(part) => {
            let says = says(types, &data.bytes, part, request.options.all);
            (steps(&part.path), says)
        }
        Found::More(more) => (steps(&more.path), unlisted(more)),
    });
    let lines: Vec<_> = lines.collect();
    let width = lines.iter().map(|(path, _)| path.len()).max().unwrap_or(0);
    let lines = lines
        .iter()
        .map(|(path, says)| format!("  {path:width$}  {says}\n"));
    Ok(Outcome::accepted(
        verdict(data, answer) + &lines.collect::<String>(),
    ))
}

/// The steps as `value` and `view` take them; a dash where there are none.
fn steps(path: &[u32]) -> String {
    match path {
        [] => "-".into(),
        _ => {
            let steps: Vec<_> = path.iter().map(u32::to_string).collect();
            steps.join(" ")
        }
    }
}

fn unlisted(more: &More) -> String {
    let count = more.count;
    let bytes = counted(more.bytes.len(), "byte");
    format!(".. {count} more, {bytes} at {}", more.bytes.start)
}

fn says(types: &Descriptor, data: &[u8], part: &Part, all: bool) -> String {
    let bytes = &data[part.bytes.clone()];
    let says = match types.rows[part.row].code {
        0x30 => format!(" = {}", content::characters(&bytes[4..], all)),
        0x40 => format!(", {}", content::extent(&part.sizes)),
        0x50 => String::new(),
        0x54 => match moment::of(types.own(part.row), bytes) {
            Some(stamp) => format!(" = {}", moment::text(stamp)),
            None => String::new(),
        },
        _ => format!(" = {}", content::number(types, part.row, bytes)),
    };
    format!(
        "{}{says}, {} at {}",
        named_kind(types, part.row),
        counted(bytes.len(), "byte"),
        part.bytes.start,
    )
}

fn found_json(types: &Descriptor, data: &[u8], found: &Found) -> Json {
    let part = match found {
        Found::Part(part) => part,
        Found::More(more) => {
            return Json::object([
                ("path", path::numbers(&more.path)),
                ("more", Json::number(more.count)),
                ("start", Json::size(more.bytes.start)),
                ("length", Json::size(more.bytes.len())),
            ]);
        }
    };
    let bytes = &data[part.bytes.clone()];
    let name = types.name(part.row).map_or(Json::Null, Json::characters);
    let code = types.rows[part.row].code;
    let place = Json::object([
        ("path", path::numbers(&part.path)),
        ("name", name),
        ("code", Json::number(code)),
        ("type", Json::text(kind(types, part.row))),
        ("start", Json::size(part.bytes.start)),
        ("length", Json::size(bytes.len())),
    ]);
    match code {
        0x30 => place.with([("characters", Json::characters(&bytes[4..]))]),
        0x40 => {
            let sizes = part.sizes.iter().map(|&size| Json::number(size));
            place.with([("sizes", Json::list(sizes))])
        }
        0x50 => place,
        0x54 => {
            let stamp = moment::of(types.own(part.row), bytes);
            place.with(stamp.into_iter().flat_map(moment::json))
        }
        _ => place.with(scalar_json(types, part.row, bytes)),
    }
}

/// A number's fields, with its item where it is an enumeration's, and with the byte
/// as it came where it is a Boolean.
fn scalar_json(types: &Descriptor, row: usize, bytes: &[u8]) -> Vec<(&'static str, Json)> {
    let read = kerbcanopy::read_value(types.own(row), bytes, &[]);
    if read.answer.number != 0 {
        let text = value::scalar(types.own(row), types.rows[row].code, bytes);
        let bytes = hexadecimal::digits(bytes);
        return vec![("text", Json::text(text)), ("bytes", Json::text(bytes))];
    }
    let mut fields = Vec::from(value::json(&read));
    if types.rows[row].code == 0x21 {
        fields.push(("bytes", Json::text(hexadecimal::digits(bytes))));
    }
    if let Some(item) = types.items(row).get(read.bits as usize) {
        fields.push(("item", Json::characters(item)));
    }
    fields
}
