//! The question about a record in a reader's shape.

use crate::command::Request;
use crate::outcome::Outcome;
use crate::output;
use crate::refusal::{Lent, Refusal};

/// The members that the reader asks for.
pub fn read(request: &Request) -> Result<Outcome, String> {
    let [writer, reader, data] = &request.files[..] else {
        unreachable!("read has three files")
    };
    // No member is asked for twice, so what is given is no longer than the data.
    let room = request.options.room.unwrap_or(data.bytes.len());
    let mut record = vec![0; room.min(data.bytes.len())];
    let answer = kerbcanopy::read_record(&writer.bytes, &reader.bytes, &data.bytes, &mut record);
    if answer.number != 0 {
        let lent = Lent {
            second: Some(reader),
            room,
            ..Lent::data(writer, data)
        };
        return Ok(Refusal::of(answer, &lent).outcome(request.options.json));
    }
    output::hand_over(answer, &record[..answer.place as usize], request.options)
}
