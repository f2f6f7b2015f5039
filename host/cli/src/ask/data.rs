//! The questions about data under a descriptor.

use std::ffi::OsString;

use kerbcanopy::Answer;

use crate::command::Request;
use crate::descriptor::Descriptor;
use crate::hexadecimal;
use crate::input::Input;
use crate::json::Json;
use crate::outcome::Outcome;
use crate::output;
use crate::path;
use crate::refusal::{Lent, Refusal, answer_json};
use crate::tokens::Order;
use crate::value as values;
use crate::words::counted;

/// A descriptor, and data under it.
pub type Record<'a> = (&'a Input, &'a Input);

/// The descriptor and the data.
pub fn inputs<'a>(request: &'a Request) -> Record<'a> {
    match &request.files[..] {
        [descriptor, data] => (descriptor, data),
        _ => unreachable!("questions about data have two files"),
    }
}

/// Whether the data is accepted, and how many pieces it has.
pub fn data(request: &Request) -> Result<Outcome, String> {
    let (descriptor, data) = inputs(request);
    let answer = kerbcanopy::check_data(&descriptor.bytes, &data.bytes);
    if answer.number != 0 {
        let refusal = Refusal::of(answer, &Lent::data(descriptor, data));
        return Ok(refusal.outcome(request.options.json));
    }
    Ok(Outcome::accepted(match request.options.json {
        true => answer_json(answer).line(),
        false => verdict(data, answer),
    }))
}

/// That the data is accepted, with its piece count.
pub fn verdict(data: &Input, answer: Answer) -> String {
    let pieces = counted(answer.place as usize, "piece");
    format!("{}: accepted, {pieces}\n", data.name)
}

/// The number at the end of a path.
pub fn value(request: &Request) -> Result<Outcome, String> {
    let record = inputs(request);
    let path = follow(record, request.words)?;
    let (descriptor, data) = record;
    let read = kerbcanopy::read_value(&descriptor.bytes, &data.bytes, &path);
    if read.answer.number != 0 {
        let refusal = not_followed(record, request.words, &path, read.answer);
        return Ok(refusal.outcome(request.options.json));
    }
    Ok(Outcome::accepted(match request.options.json {
        true => answer_json(read.answer).with(values::json(&read)).line(),
        false => format!("{}\n", values::text(&read)),
    }))
}

/// The bytes of a part, behind a comment that says where they stand.
pub fn view(request: &Request) -> Result<Outcome, String> {
    let record = inputs(request);
    let path = follow(record, request.words)?;
    let (descriptor, data) = record;
    let part = kerbcanopy::view(&descriptor.bytes, &data.bytes, &path);
    if part.answer.number != 0 {
        let refusal = not_followed(record, request.words, &path, part.answer);
        return Ok(refusal.outcome(request.options.json));
    }
    let bytes = &data.bytes[part.start..part.start + part.length];
    if request.options.out.is_some() {
        return output::hand_over(part.answer, bytes, request.options);
    }
    let json = answer_json(part.answer).with([
        ("start", Json::size(part.start)),
        ("length", Json::size(part.length)),
        ("bytes", Json::text(hexadecimal::digits(bytes))),
    ]);
    let length = counted(part.length, "byte");
    let text = hexadecimal::text(bytes);
    Ok(Outcome::accepted(match request.options.json {
        true => json.line(),
        false => format!("# {length} at {}\n{text}", part.start),
    }))
}

/// The numbers of the steps. The bytes are judged before them, so a name that
/// can't be found is told only where they are accepted.
pub fn follow((descriptor, data): Record, steps: &[OsString]) -> Result<Vec<u32>, String> {
    let answer = kerbcanopy::check_data(&descriptor.bytes, &data.bytes);
    match Descriptor::of(&descriptor.bytes) {
        Some(types) if answer.number == 0 => path::resolve(&types, steps)
            .map_err(|trouble| format!("{}: {trouble}", descriptor.name)),
        _ => Ok(Vec::new()),
    }
}

/// What is refused of a record or of the path in it.
pub fn not_followed(
    (descriptor, data): Record,
    steps: &[OsString],
    path: &[u32],
    answer: Answer,
) -> Refusal {
    let lent = Lent {
        steps,
        path,
        ..Lent::data(descriptor, data)
    };
    Refusal::of(answer, &lent)
}

/// The little-endian form.
pub fn little(request: &Request) -> Result<Outcome, String> {
    turned(request, Order::Big, kerbcanopy::to_little_endian)
}

/// The data whose little-endian form was read.
pub fn big(request: &Request) -> Result<Outcome, String> {
    turned(request, Order::Little, kerbcanopy::from_little_endian)
}

/// Turns data that is read in this order; the form is as long as the data.
fn turned(
    request: &Request,
    order: Order,
    turn: fn(&[u8], &[u8], &mut [u8]) -> Answer,
) -> Result<Outcome, String> {
    let (descriptor, data) = inputs(request);
    let room = request.options.room.unwrap_or(data.bytes.len());
    let mut form = vec![0; room.min(data.bytes.len())];
    let answer = turn(&descriptor.bytes, &data.bytes, &mut form);
    if answer.number != 0 {
        let lent = Lent {
            order,
            room,
            ..Lent::data(descriptor, data)
        };
        return Ok(Refusal::of(answer, &lent).outcome(request.options.json));
    }
    output::hand_over(answer, &form[..answer.place as usize], request.options)
}
