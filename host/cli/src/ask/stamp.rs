//! The question about two time stamps.

use std::ffi::OsStr;

use super::data::{Record, follow, not_followed};
use crate::command::Request;
use crate::descriptor::Descriptor;
use crate::moment;
use crate::outcome::Outcome;
use crate::path;
use crate::refusal::{Lent, Refusal, answer_json};
use crate::words::{named_kind, shown};
use kerbcanopy::accepted::Stamp;
use kerbcanopy::stamp_difference;

/// The first stamp less the second, out of one record or two.
pub fn difference(request: &Request) -> Result<Outcome, String> {
    let records: [Record; 2] = match &request.files[..] {
        [types, data] => [(types, data); 2],
        [types, data, others, other] => [(types, data), (others, other)],
        _ => unreachable!("difference has one record or two"),
    };
    let mut stamps = Vec::new();
    for (record, word) in records.into_iter().zip(request.words) {
        match stamp_at(record, word, request.options.json)? {
            Ok(stamp) => stamps.push(stamp),
            Err(refused) => return Ok(refused),
        }
    }
    let [first, second] = stamps[..] else {
        unreachable!("difference has two paths")
    };
    let found = stamp_difference(first.into(), second.into());
    if found.answer.number != 0 {
        let [(types, data), (_, other)] = records;
        let lent = Lent {
            stamps: Some([(data, first), (other, second)]),
            ..Lent::data(types, data)
        };
        return Ok(Refusal::of(found.answer, &lent).outcome(request.options.json));
    }
    Ok(Outcome::accepted(match request.options.json {
        true => answer_json(found.answer)
            .with(moment::difference_json(&found))
            .line(),
        false => format!(
            "{} s = {} s + {} x 2^-64 s\n",
            moment::decimal(&found),
            found.seconds,
            found.fraction,
        ),
    }))
}

/// The stamp at the end of a path, or how that was refused. That a path leads to
/// something else is trouble, since the library was not asked.
fn stamp_at(record: Record, word: &OsStr, json: bool) -> Result<Result<Stamp, Outcome>, String> {
    let steps = path::split(word);
    let path = follow(record, &steps)?;
    let (types, data) = record;
    let part = kerbcanopy::view(&types.bytes, &data.bytes, &path);
    if part.answer.number != 0 {
        let refused = not_followed(record, &steps, &path, part.answer);
        return Ok(Err(refused.outcome(json)));
    }
    let bytes = &data.bytes[part.start..part.start + part.length];
    let descriptor = Descriptor::of(&types.bytes);
    let row = descriptor
        .as_ref()
        .and_then(|descriptor| Some((descriptor, path::row(descriptor, &path)?)));
    let Some((descriptor, row)) = row else {
        unreachable!("the path was followed")
    };
    let stamp = match descriptor.rows[row].code {
        0x54 => moment::of(descriptor.own(row), bytes),
        _ => None,
    };
    stamp.map(Ok).ok_or_else(|| {
        format!(
            "{}: the path {} leads to no time stamp but to this: {}",
            types.name,
            shown(word),
            named_kind(descriptor, row),
        )
    })
}
