//! Answers as the generator states them.

use reference::Answer;

use crate::difference::{Held, demand};

pub fn accepted(place: usize) -> Answer {
    Answer {
        number: 0,
        input: 0,
        place: place as u32,
    }
}

/// A refusal of the data.
pub fn refused(number: u32, place: usize) -> Answer {
    Answer {
        number,
        input: 3,
        place: place as u32,
    }
}

/// A refusal of the reader's descriptor.
pub fn reader(number: u32, place: usize) -> Answer {
    Answer {
        number,
        input: 2,
        place: place as u32,
    }
}

/// A refusal of the request.
pub fn request(number: u32, place: u32) -> Answer {
    Answer {
        number,
        input: 4,
        place,
    }
}

pub fn demand_same(proved: Answer, other: Answer, question: &str) -> Held<()> {
    let texts = || [format!("{proved:?}"), format!("{other:?}")];
    demand(proved == other, question, texts)
}
