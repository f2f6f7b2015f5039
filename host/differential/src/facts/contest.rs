//! Refusals that come before others which a case would earn as well.

use reference::Answer;

use super::case::Case;

/// An answer and one that it comes before.
#[derive(PartialEq, Eq, PartialOrd, Ord)]
pub struct Contest {
    pub answer: (u32, u32),
    pub beaten: (u32, u32),
    /// Whether both are of one header or piece.
    pub near: bool,
    /// The kind of the piece that is refused.
    piece: Option<&'static str>,
}

impl Contest {
    /// Whether both are refusals of one input.
    pub fn is_of_one(&self) -> bool {
        self.answer.1 == self.beaten.1
    }
}

pub fn contests(case: &Case) -> Vec<Contest> {
    let answer = case.told.answer;
    let contest = |beaten: &Answer| Contest {
        answer: named(answer),
        beaten: named(*beaten),
        near: start(answer) == start(*beaten),
        piece: case.piece,
    };
    case.beaten.iter().map(contest).collect()
}

/// An answer's number and input.
pub fn named(answer: Answer) -> (u32, u32) {
    (answer.number, answer.input)
}

/// Where the header or piece starts that is refused; with 5 and 9 the place is inside.
fn start(refusal: Answer) -> u32 {
    match refusal.number {
        5 => refusal.place - 3,
        9 => refusal.place - 4,
        _ => refusal.place,
    }
}
