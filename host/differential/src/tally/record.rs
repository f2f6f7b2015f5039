//! Counts what the question about a record met.

use reference::{Answer, Row};

use super::Tally;
use super::lines::Of;
use super::met::Coded;
use super::table::{Cell, Table};
use crate::record::case::{Case, Record};

/// Why a reader is refused with 40, and how often a member is there.
const REASONS: [&str; 7] = [
    "40, no cluster",
    "40, no name",
    "40, an empty name",
    "40, an earlier member's name",
    "43, found twice",
    "43, found more often",
    "given, other reserved bytes",
];

/// No records yet.
pub fn reasons() -> Table {
    let columns = vec!["records".to_string()];
    let rows = REASONS.map(String::from);
    Table::new("because", rows.to_vec(), columns, |_, _| Cell::Must)
}

/// The members of an accepted descriptor's top.
fn members(descriptor: &[u8]) -> Vec<Row> {
    let checked = reference::check_descriptor(descriptor);
    let inside = |row: &&Row| row.depth == 2;
    checked.rows.iter().filter(inside).copied().collect()
}

fn name<'a>(descriptor: &'a [u8], member: &Row) -> &'a [u8] {
    &descriptor[usize::from(member.name_place)..][..usize::from(member.name_length)]
}

fn own<'a>(descriptor: &'a [u8], member: &Row) -> &'a [u8] {
    &descriptor[usize::from(member.start)..][..usize::from(member.size)]
}

impl Tally {
    /// Counts a case of a record by its answer in the room that it needs.
    pub fn record(&mut self, case: &Case, answer: Answer) {
        self.case(case.kind, answer);
        let of = match answer.number {
            0 => return self.given(case, answer),
            40 => Of::At40,
            42 => Of::At42,
            43 => Of::At43,
            44 => Of::At44,
            _ => return,
        };
        let member = answer.place as usize;
        self.lines.count(of, member);
        let found = members(&case.reader);
        let reason = match (answer.number, case.reader[3]) {
            (40, 0x50) if found[member].name_place == 0 => 1,
            (40, 0x50) if found[member].name_length == 0 => 2,
            (40, 0x50) => 3,
            (40, _) => 0,
            (43, _) => self.times(case, name(&case.reader, &found[member])),
            (44, _) => return self.coded(found[member].code as u8, Coded::Unequal),
            _ => return,
        };
        self.records.count(reason, 0);
    }

    /// The reason of 43: how often the writer has the name.
    fn times(&self, case: &Case, wanted: &[u8]) -> usize {
        let writer = &case.record.writer;
        let named = |member: &&Row| name(writer, member) == wanted;
        match members(writer).iter().filter(named).count() {
            2 => 4,
            _ => 5,
        }
    }

    fn given(&mut self, case: &Case, answer: Answer) {
        let (reader, Record { writer, data, .. }) = (&case.reader, &case.record);
        let [wanted, written] = [members(reader), members(writer)];
        self.lines.count(Of::Writer, written.len());
        self.lines.count(Of::Reader, wanted.len());
        self.lines.count(Of::Given, answer.place as usize);
        let found = |member: &Row| {
            let named = |row: &Row| name(writer, row) == name(reader, member);
            written.iter().position(named)
        };
        for member in &wanted {
            self.coded(member.code as u8, Coded::Given);
            if let (0x21, Some(step)) = (member.code, found(member)) {
                let part = reference::view(writer, data, &[step as u32]);
                self.flag(data[part.start], Coded::Given);
            }
        }
        let first = &wanted[0];
        let other = |step: usize| own(writer, &written[step]) != own(reader, first);
        if found(first).is_some_and(other) {
            self.records.count(6, 0);
        }
    }
}
