//! Counts what the questions about data met.

use reference::Answer;

use super::Tally;
use super::lines::Of;
use super::met::{Coded, Deep};
use crate::data::ask::{Ask, Found};
use crate::data::case::Case;
use crate::data::fill::{Part, Standing};
use crate::entry::Entry;

impl Tally {
    /// Counts a case of data.
    pub fn data(&mut self, case: &Case, answer: Answer) {
        self.case(case.kind, answer);
        self.answered(Entry::CheckData, answer);
        let (place, length) = (answer.place as usize, case.data.big.len());
        match answer.number {
            0 => {
                self.lines.count(Of::DataLength, length);
                self.lines.count(Of::Pieces, place);
                let deepest = case.pieces.iter().map(|piece| piece.depth).max();
                self.deep(Deep::Data, deepest.unwrap_or(0));
                let parts = case.parts.iter();
                parts.for_each(|part| self.part(part, &case.data.big));
            }
            20 => self.lines.count(Of::DataTooLong, length),
            25 => self.lines.count(Of::LeftOver, length - place),
            number @ 21..=23 if case.answer.is_some() => {
                let refused = case.pieces.iter().find(|piece| piece.start == place);
                let depth = refused.map(|piece| piece.depth);
                self.deep(Deep::Piece(number), depth.unwrap_or(0));
            }
            _ => {}
        }
    }

    fn part(&mut self, part: &Part, data: &[u8]) {
        let coded = match part.standing {
            Standing::Top => Coded::DataTop,
            Standing::Member => Coded::DataMember,
            Standing::Element => Coded::DataElement,
        };
        self.coded(part.code, coded);
        match part.code {
            0x21 => self.flag(data[part.start], coded),
            0x30 => self.lines.count(Of::Characters, part.length - 4),
            0x40 => self.lines.count(Of::Elements, part.steps as usize),
            _ => {}
        }
    }

    /// Counts a view.
    pub fn viewed(&mut self, ask: &Ask, answer: Answer) {
        self.answered(Entry::View, answer);
        match answer.number {
            0 => self.deep(Deep::View, ask.path.len() + 1),
            30 => self.deep(Deep::NoStep, answer.place as usize + 1),
            _ => {}
        }
    }

    /// Counts a value that was read, or that is none.
    pub fn valued(&mut self, case: &Case, ask: &Ask, answer: Answer) {
        self.answered(Entry::ReadValue, answer);
        match answer.number {
            0 => self.deep(Deep::Value, ask.path.len() + 1),
            31 => self.deep(Deep::NoValue, ask.path.len() + 1),
            _ => return,
        }
        if let Some(code) = ask.code {
            self.coded(code, Coded::Value);
        }
        if let (Some(0x21), Some(Found::Part { start, .. })) = (ask.code, ask.stated) {
            self.flag(case.data.big[start], Coded::Value);
        }
    }
}
