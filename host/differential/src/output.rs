//! What both implementations write into rooms of one length.

use reference::Answer;

use crate::answers::{accepted, demand_same, request};
use crate::difference::{Held, demand, demand_guarded, outputs, plain};
use crate::lent::{Around, Lent};
use crate::random::Random;

/// What is longer than this is not written into every room.
const LONG: usize = 4096;

/// Room for exactly this length, one less, one more, none and plenty.
pub fn rooms(random: &mut Random, length: usize) -> Vec<usize> {
    let large = length + random.between(2, 500);
    let mut rooms = vec![length, length.saturating_sub(1), length + 1, 0, large];
    if length > LONG {
        rooms.truncate(3);
    }
    rooms
}

/// The answer that follows from the check's, the length needed and the room.
pub fn in_room(checked: Answer, length: usize, room: usize) -> Answer {
    match checked.number {
        0 if room < length => request(50, length as u32),
        0 => accepted(length),
        _ => checked,
    }
}

/// Room to write into, filled with one byte.
#[derive(Clone, Copy)]
pub struct Room {
    pub length: usize,
    pub fill: u8,
    pub around: Around,
}

/// The answer that both gave, and the room as both left it.
pub struct Output {
    pub answer: Answer,
    pub room: Vec<u8>,
}

impl Room {
    /// Both write into such a room. A difference unless they give one answer and
    /// leave the same bytes, and the library has written nothing beyond them.
    pub fn hold(
        self,
        question: &str,
        proved: impl FnOnce(&mut [u8]) -> Held<kerbcanopy::Answer>,
        other: impl FnOnce(&mut [u8]) -> Answer,
    ) -> Held<Output> {
        let mut lent = Lent::room(self.length, self.fill, self.around);
        let mut room = vec![self.fill; self.length];
        let answer = plain(proved(lent.bytes_mut())?);
        demand_same(answer, other(&mut room), question)?;
        let texts = || outputs(lent.bytes(), &room);
        demand(lent.bytes() == room, question, texts)?;
        let output = Output { answer, room };
        let written = output.written().len();
        demand_guarded(lent.untouched_beyond(written), question)?;
        Ok(output)
    }
}

impl Output {
    /// The bytes given; a refusal gives none.
    fn written(&self) -> &[u8] {
        match self.answer.number {
            0 => &self.room[..self.answer.place as usize],
            _ => &[],
        }
    }

    /// A difference unless these bytes were given.
    pub fn demand_written(&self, stated: &[u8], question: &str) -> Held<()> {
        let texts = || outputs(self.written(), stated);
        demand(self.written() == stated, question, texts)
    }
}
