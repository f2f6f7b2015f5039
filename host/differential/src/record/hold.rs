//! Holds the proved library against the second implementation over one case of a
//! record: every answer, and every byte that may or may not be written.

use reference::Answer;

use super::case::{Case, Record};
use crate::answers::{accepted, demand_same};
use crate::difference::{Held, demand, demand_guarded, outputs};
use crate::entry::Entry;
use crate::lent::{Around, Lent};
use crate::output::{Output, Room, in_room, rooms};
use crate::proved;
use crate::random::Random;
use crate::tally::Tally;

/// A record that is lent together with a reader.
struct Asked {
    writer: Lent,
    reader: Lent,
    data: Lent,
}

/// Asks both about the case in rooms of every interesting length. Returns the
/// first difference.
pub fn hold(case: &Case, random: &mut Random, exact: bool, tally: &mut Tally) -> Held<()> {
    let around = Around::new(random, exact);
    let first = Asked::new(&case.record, &case.reader, around);
    let agreeing = case.agreeing.as_ref();
    let second = agreeing.map(|record| Asked::new(record, &case.reader, around.other()));
    let held = every_room(case, &first, second.as_ref(), around, random, tally);
    held.map_err(|difference| {
        let difference = match agreeing {
            Some(record) => difference
                .about("agreeing data", &record.data)
                .about("agreeing writer", &record.writer),
            None => difference,
        };
        difference
            .about("data", &case.record.data)
            .about("reader", &case.reader)
            .about("writer", &case.record.writer)
    })
}

fn every_room(
    case: &Case,
    first: &Asked,
    second: Option<&Asked>,
    around: Around,
    random: &mut Random,
    tally: &mut Tally,
) -> Held<()> {
    let judged = judged_first(case);
    let lengths = rooms(random, needed(case));
    for (index, &length) in lengths.iter().enumerate() {
        let fill = random.byte();
        let room = Room {
            length,
            fill,
            around,
        };
        let output = first.hold(room)?;
        if let Some(refusal) = judged {
            let question = "read_record, against the checks of its inputs";
            demand_same(output.answer, refusal, question)?;
        }
        demand_stated(case, &output, length)?;
        if let Some(second) = second {
            demand_alike(&second.hold(room)?, &output)?;
        }
        if index == 0 {
            tally.record(case, output.answer);
        }
        tally.wrote(Entry::ReadRecord, output.answer, length);
    }
    let mut asked = [Some(first), second].into_iter().flatten();
    demand_guarded(asked.all(Asked::untouched), "read_record's inputs")
}

/// The length that the record needs, 0 where it is refused in any room.
fn needed(case: &Case) -> usize {
    let record = &case.record;
    let none = reference::read_record(&record.writer, &case.reader, &record.data, &mut []);
    match none.number {
        50 => none.place as usize,
        _ => 0,
    }
}

/// What is refused before the members are looked at: the writer, then the reader,
/// then the data.
fn judged_first(case: &Case) -> Option<Answer> {
    let record = &case.record;
    let writer = reference::check_descriptor(&record.writer).answer;
    let reader = Answer {
        input: 2,
        ..reference::check_descriptor(&case.reader).answer
    };
    let data = reference::check_data(&record.writer, &record.data);
    let mut inputs = [writer, reader, data].into_iter();
    inputs.find(|answer| answer.number != 0)
}

/// A difference unless the answer and the bytes are those that the generator
/// states.
fn demand_stated(case: &Case, output: &Output, room: usize) -> Held<()> {
    let question = "read_record, against the generator";
    let (checked, bytes) = match &case.stated {
        Some(Ok(bytes)) => (accepted(bytes.len()), &bytes[..]),
        Some(Err(refusal)) => (*refusal, &[][..]),
        None => return Ok(()),
    };
    demand_same(output.answer, in_room(checked, bytes.len(), room), question)?;
    match output.answer.number {
        0 => output.demand_written(bytes, question),
        _ => Ok(()),
    }
}

/// A difference unless two records that agree got the same answer and left the
/// same bytes in equal rooms.
fn demand_alike(second: &Output, first: &Output) -> Held<()> {
    let question = "read_record of a record that agrees with the first";
    demand_same(second.answer, first.answer, question)?;
    let texts = || outputs(&second.room, &first.room);
    demand(second.room == first.room, question, texts)
}

impl Asked {
    fn new(record: &Record, reader: &[u8], around: Around) -> Self {
        Asked {
            writer: Lent::new(&record.writer, &[], around),
            reader: Lent::new(reader, &[], around.other()),
            data: Lent::new(&record.data, &record.beyond, around),
        }
    }

    /// Both write into such a room.
    fn hold(&self, room: Room) -> Held<Output> {
        let question = format!("read_record, room {}", room.length);
        let [writer, reader, data] = [&self.writer, &self.reader, &self.data].map(Lent::bytes);
        room.hold(
            &question,
            |out| proved::read_record(writer, reader, data, out),
            |out| reference::read_record(writer, reader, data, out),
        )
    }

    fn untouched(&self) -> bool {
        let mut lent = [&self.writer, &self.reader, &self.data].into_iter();
        lent.all(Lent::untouched)
    }
}
