//! The two questions that write: to little-endian and back, into rooms of every
//! interesting length, every byte of them looked at.

use reference::Answer;

use super::case::Case;
use crate::answers::demand_same;
use crate::difference::{Held, demand_guarded};
use crate::entry::Entry;
use crate::lent::{Around, Lent};
use crate::output::{Room, in_room, rooms};
use crate::proved;
use crate::random::Random;
use crate::tally::Tally;

/// One of the two questions, as each implementation answers it.
struct Form {
    entry: Entry,
    name: &'static str,
    proved: proved::Writing,
    other: fn(&[u8], &[u8], &mut [u8]) -> Answer,
}

const TO_LITTLE_ENDIAN: Form = Form {
    entry: Entry::ToLittleEndian,
    name: "to_little_endian",
    proved: proved::to_little_endian,
    other: reference::to_little_endian,
};

const FROM_LITTLE_ENDIAN: Form = Form {
    entry: Entry::FromLittleEndian,
    name: "from_little_endian",
    proved: proved::from_little_endian,
    other: reference::from_little_endian,
};

/// What is lent to a question, and what is known of its answer.
struct Asked<'a> {
    descriptor: Lent,
    data: Lent,
    around: Around,
    /// The check's answer.
    checked: Option<Answer>,
    /// What an accepted answer writes.
    written: Option<&'a [u8]>,
}

/// The case's data both ways, and each order as if it were the other.
pub fn hold(
    case: &Case,
    checked: Answer,
    around: Around,
    random: &mut Random,
    tally: &mut Tally,
) -> Held<()> {
    let (big, little) = (&case.data.big, &case.data.little);
    let lent = |data: &[u8], beyond: &[u8], around: Around| Asked {
        descriptor: Lent::new(&case.descriptor, &[], around),
        data: Lent::new(data, beyond, around),
        around,
        checked: None,
        written: None,
    };
    let there = Asked {
        checked: Some(checked),
        written: case.answer.map(|_| &little[..]),
        ..lent(big, &case.beyond, around)
    };
    let back = Asked {
        checked: case.answer,
        written: case.answer.map(|_| &big[..]),
        ..lent(little, &[], around.other())
    };
    let every = |length| rooms(random, length);
    let rooms = [big.len(), little.len()].map(every);
    TO_LITTLE_ENDIAN.hold_in(&there, &rooms[0], random, tally)?;
    FROM_LITTLE_ENDIAN.hold_in(&back, &rooms[1], random, tally)?;
    let wrong_way = lent(little, &[], around);
    TO_LITTLE_ENDIAN.hold_in(&wrong_way, &[little.len()], random, tally)?;
    let wrong_way = lent(big, &[], around.other());
    FROM_LITTLE_ENDIAN.hold_in(&wrong_way, &[big.len()], random, tally)
}

impl Form {
    fn hold_in(
        &self,
        asked: &Asked,
        rooms: &[usize],
        random: &mut Random,
        tally: &mut Tally,
    ) -> Held<()> {
        for &room in rooms {
            let answer = self.hold(asked, room, random.byte())?;
            tally.wrote(self.entry, answer, room);
        }
        let untouched = asked.descriptor.untouched() && asked.data.untouched();
        demand_guarded(untouched, &format!("{}'s inputs", self.name))
    }

    /// Both write into rooms of one length, filled with the same byte.
    fn hold(&self, asked: &Asked, length: usize, fill: u8) -> Held<Answer> {
        let question = format!("{}, room {length}", self.name);
        let [descriptor, data] = [asked.descriptor.bytes(), asked.data.bytes()];
        let room = Room {
            length,
            fill,
            around: asked.around,
        };
        let output = room.hold(
            &question,
            |out| (self.proved)(descriptor, data, out),
            |out| (self.other)(descriptor, data, out),
        )?;
        let question = format!("{question}, against what is known");
        if let Some(checked) = asked.checked {
            let stated = in_room(checked, data.len(), length);
            demand_same(output.answer, stated, &question)?;
        }
        match asked.written {
            Some(stated) if output.answer.number == 0 => {
                output.demand_written(stated, &question)?
            }
            _ => {}
        }
        Ok(output.answer)
    }
}
