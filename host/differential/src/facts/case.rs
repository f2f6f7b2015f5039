//! A damaged case, and what its faults alone would earn.

use reference::Answer;

use super::SEED;
use super::asked::{Asked, Told};
use super::source::Source;
use crate::entry::Entry;
use crate::random::Random;
use crate::record::rig::shuffle;
use crate::tally::places::pointed;

/// The most bytes of a case, of a record's, and of one that has to be deep.
const MOST: usize = 44;
const MOST_RECORD: usize = 60;
const MOST_DEEP: usize = 100;

pub struct Case {
    pub asked: Asked,
    pub told: Told,
    /// The other refusals that it would earn by one of its faults alone.
    pub beaten: Vec<Answer>,
    /// What kind of piece is refused.
    pub piece: Option<&'static str>,
}

impl Case {
    /// The case of this number, unless it comes out too long or nothing is wrong.
    pub fn make(entry: Entry, number: u64) -> Option<Case> {
        let mut random = Random::for_case(SEED, number);
        let source = Source::make(entry, &mut random);
        let mut faults = source.faults(&mut random);
        faults.extend(source.faults(&mut random));
        shuffle(&mut random, &mut faults);
        faults.truncate(random.pick(&[0, 1, 2, 2, 3, 3]));
        let (intact, asked) = (source.asked(&[])?, source.asked(&faults)?);
        let told = asked.told();
        if asked == intact && told.answer.number == 0 {
            return None;
        }
        let alone = faults.iter().filter_map(|fault| source.asked(&[*fault]));
        let beaten = match told.answer.number {
            0 => Vec::new(),
            _ => beaten(&asked, told.answer, intact, alone.collect()),
        };
        let case = Case {
            piece: source.piece(told.answer),
            asked,
            told,
            beaten,
        };
        Some(case).filter(Case::is_short)
    }

    fn is_short(&self) -> bool {
        let mut answers = self.beaten.iter().chain([&self.told.answer]);
        let most = match answers.any(|answer| answer.number == 6) {
            true => MOST_DEEP,
            false if self.asked.entry == Entry::ReadRecord => MOST_RECORD,
            false => MOST,
        };
        self.asked.length() <= most
    }

    /// Its place; where that is always 0, where the part starts that is no number, or the
    /// code of the writer that is no cluster.
    pub fn spot(&self) -> u32 {
        let Asked {
            first, data, path, ..
        } = &self.asked;
        match self.told.answer.number {
            31 => reference::view(first, data, path).start as u32,
            41 => first[3].into(),
            _ => self.told.answer.place,
        }
    }

    /// What a descriptor's refusal points at, of its check alone.
    pub fn point(&self) -> Option<&'static str> {
        let Answer { number, place, .. } = self.told.answer;
        let pointing = self.asked.entry == Entry::CheckDescriptor && matches!(number, 5 | 8..=11);
        pointing.then(|| pointed(&self.asked.first, number, place as usize))
    }
}

/// The other refusals of those questions with one fault, or none, whose bytes stand in
/// this one.
fn beaten(asked: &Asked, answer: Answer, intact: Asked, mut alone: Vec<Asked>) -> Vec<Answer> {
    alone.retain(|other| asked.keeps(&intact, other));
    let stands = |refusal: &Answer| match (refusal.number, refusal.input) {
        (..=12, 1) => (refusal.place as usize) < asked.first.len(),
        (..=12, _) => (refusal.place as usize) < asked.second.len(),
        (_, 1) => asked.first == intact.first,
        (_, 2) => asked.second == intact.second,
        _ => asked.data == intact.data,
    };
    let before = Some(intact.told().answer).filter(stands);
    let alone = alone.iter().map(|other| other.told().answer);
    let mut beaten: Vec<Answer> = alone.chain(before).collect();
    // What is judged before the answer is no longer wrong: the faults make up for each other.
    beaten.retain(|other| *other != answer && stage(*other) >= stage(answer));
    beaten.sort_by_key(|other| (other.input, other.number, other.place));
    beaten.dedup();
    beaten
}

/// When an answer is judged: "rig, reader, data, path, then 40, 41, the reader's members
/// in order, 50".
fn stage(answer: Answer) -> u32 {
    match answer.number {
        0 => 0,
        1..=12 => answer.input,
        20..=25 => 3,
        30 | 31 => 4,
        40 => 5,
        41 => 6,
        42..=44 => 7,
        _ => 8,
    }
}
