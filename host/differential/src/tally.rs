//! Counts what the cases met, and says whether anything of document 01, or of
//! requests 1 to 4 of document 02, was met too seldom.

mod data;
mod descriptor;
mod flags;
mod interval;
mod lines;
pub mod met;
pub mod places;
mod record;
mod store;
mod table;

use reference::{Answer, Compared};

use crate::entry::Entry;
use crate::kind::Kind;
use crate::twin::{CHANGES, Change};
use lines::Lines;
use met::{ANSWERS, CODES, Coded, Deep, NUMBERS};
use table::{Cell, Table};

pub struct Tally {
    pub cases: u64,
    answers: Table,
    kinds: [Table; 5],
    depths: Table,
    codes: Table,
    bodies: Table,
    places: Table,
    rooms: Table,
    comparisons: Table,
    records: Table,
    stamps: Table,
    flags: Table,
    books: Table,
    neighbours: Table,
    lines: Lines,
}

impl Tally {
    pub fn new() -> Tally {
        let changes = CHANGES.map(|(_, words)| words.to_string());
        let columns = ["equal", "unequal"].map(String::from);
        let comparisons = Table::new(
            "compared, differing in",
            changes.to_vec(),
            columns.to_vec(),
            |row, column| match (column == 0, row <= Change::Reserved as usize) {
                (true, true) | (false, false) => Cell::Must,
                _ if row == Change::Everything as usize => Cell::May,
                _ => Cell::Never,
            },
        );
        Tally {
            cases: 0,
            answers: met::answers(),
            kinds: met::AREAS.map(met::kinds),
            depths: met::depths(),
            codes: met::codes(),
            bodies: met::bodies(),
            places: places::places(),
            rooms: met::rooms(),
            comparisons,
            records: record::reasons(),
            stamps: interval::standings(),
            flags: flags::bytes(),
            books: store::reasons(),
            neighbours: store::neighbours(),
            lines: Lines::new(),
        }
    }

    /// Adds what another tally counted.
    pub fn add(&mut self, other: &Tally) {
        self.cases += other.cases;
        for (table, more) in self.tables_mut().into_iter().zip(other.tables()) {
            table.add(more);
        }
        self.lines.add(&other.lines);
    }

    fn tables(&self) -> [&Table; 17] {
        let [descriptors, data, records, intervals, books] = &self.kinds;
        [
            &self.answers,
            descriptors,
            data,
            records,
            intervals,
            books,
            &self.depths,
            &self.codes,
            &self.bodies,
            &self.places,
            &self.rooms,
            &self.comparisons,
            &self.records,
            &self.stamps,
            &self.flags,
            &self.books,
            &self.neighbours,
        ]
    }

    fn tables_mut(&mut self) -> [&mut Table; 17] {
        let [descriptors, data, records, intervals, books] = &mut self.kinds;
        [
            &mut self.answers,
            descriptors,
            data,
            records,
            intervals,
            books,
            &mut self.depths,
            &mut self.codes,
            &mut self.bodies,
            &mut self.places,
            &mut self.rooms,
            &mut self.comparisons,
            &mut self.records,
            &mut self.stamps,
            &mut self.flags,
            &mut self.books,
            &mut self.neighbours,
        ]
    }

    /// Counts an entry's answer.
    pub fn answered(&mut self, entry: Entry, answer: Answer) {
        let given = (answer.number, answer.input);
        let known = ANSWERS.iter().position(|known| *known == given);
        self.answers
            .count(known.unwrap_or(ANSWERS.len()), entry as usize);
    }

    /// Counts the answer of an entry that writes, and the room by what was needed.
    pub fn wrote(&mut self, entry: Entry, answer: Answer, room: usize) {
        self.answered(entry, answer);
        if !matches!(answer.number, 0 | 50) {
            return;
        }
        let needed = answer.place as usize;
        let row = match room {
            0 => 3,
            _ if room == needed => 0,
            _ if room + 1 == needed => 1,
            _ if room == needed + 1 => 2,
            _ => 4,
        };
        self.rooms.count(row, entry as usize);
    }

    /// Counts a case by its kind and the answer to the first question about it.
    fn case(&mut self, kind: Kind, answer: Answer) {
        let area = kind.known().area;
        let mut numbers = met::numbers(area).iter();
        if let Some(row) = numbers.position(|number| *number == answer.number) {
            self.kinds[area as usize].count(row, kind.column());
        }
    }

    /// Counts a comparison, and what differs where the generator knows it.
    pub fn compared(&mut self, compared: &Compared, change: Option<Change>) {
        self.answered(Entry::Compare, compared.answer);
        if let (0, Some(change)) = (compared.answer.number, change) {
            let column = usize::from(!compared.equal);
            self.comparisons.count(change as usize, column);
        }
    }

    fn deep(&mut self, deep: Deep, depth: usize) {
        if (1..=9).contains(&depth) {
            self.depths.count(deep.row(), depth - 1);
        }
    }

    fn coded(&mut self, code: u8, coded: Coded) {
        if let Some(row) = CODES.iter().position(|known| *known == code) {
            self.codes.count(row, coded as usize);
        }
    }

    /// The numbers that no case met.
    pub fn never_met(&self) -> Vec<u32> {
        let met = |number: &u32| {
            let mut rows = ANSWERS.iter().enumerate();
            rows.any(|(row, answer)| answer.0 == *number && self.answers.row(row) > 0)
        };
        NUMBERS.into_iter().filter(|number| !met(number)).collect()
    }

    /// Says what was met less often than this, and what no answer can be.
    pub fn wrong(&self, least: u64) -> Vec<String> {
        let tables = self.tables().into_iter();
        let mut wrong: Vec<String> = tables.flat_map(|table| table.wrong(least)).collect();
        wrong.extend(self.lines.wrong(least));
        wrong
    }

    pub fn print(&self) {
        println!("{} cases", self.cases);
        for table in self.tables() {
            println!();
            table.print();
        }
        println!();
        self.lines.print();
    }
}
