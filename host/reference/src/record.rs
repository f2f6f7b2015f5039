//! A record in a reader's shape: the bytes of the reader's members joined, in the
//! reader's order.

use std::ops::Range;

use crate::copy::copy_front;
use crate::data::judge_and_note;
use crate::members::{MemberTable, Members};
use crate::order::Big;
use crate::search::{Index, Search};
use crate::walk::Refusal;
use crate::{Answer, MOST_ROWS, accepted, refused, room};

/// Writes, for each of the reader's members in order, the bytes of the one member
/// of the writer that has its name and an equal type. Accepted: the place is the
/// length written, and `out` beyond it keeps its bytes. Refused, and nothing is
/// written: 1 to 12 with input 1 for the writer or 2 for the reader, 20 to 23 or 25 with
/// input 3; then 40 with input 2, 41 with input 1, 42 to 44 with input 2 and the
/// reader's member as place; last 50 with input 4 and the length needed.
pub fn read_record(writer: &[u8], reader: &[u8], data: &[u8], out: &mut [u8]) -> Answer {
    resolve(writer, reader, data, out).map_or_else(|refusal| refusal, accepted)
}

fn resolve(writer: &[u8], reader: &[u8], data: &[u8], out: &mut [u8]) -> Result<usize, Answer> {
    let (mut writer_table, mut reader_table) = (MemberTable::default(), MemberTable::default());
    let writer = writer_table.read(writer, 1)?;
    let reader = reader_table.read(reader, 2)?;
    let mut starts = [0; MOST_ROWS];
    judge_and_note(writer.rows, data, Big, &mut starts)?;
    let mut index = Index::new(reader);
    index_reader(reader, &mut index)?;
    search_writer(writer, &mut index)?;
    let record = Record {
        writer,
        reader,
        index: &index,
        data,
        starts: &starts,
    };
    let length = record.length()?;
    record.write(room(out, length)?);
    Ok(length)
}

/// 40.
fn index_reader(reader: Members, index: &mut Index) -> Result<(), Answer> {
    if !reader.of_cluster() {
        return Err(at_member(40, 0));
    }
    match (0..reader.count()).find(|member| !index.add(*member)) {
        Some(member) => Err(at_member(40, member)),
        None => Ok(()),
    }
}

/// 41, else what the writer has for the reader's members.
fn search_writer(writer: Members, index: &mut Index) -> Result<(), Answer> {
    if !writer.of_cluster() {
        let (number, place) = (41, 0);
        return Err(refused(Refusal { number, place }, 1));
    }
    for member in 0..writer.count() {
        index.meet(writer.name(member), member);
    }
    Ok(())
}

/// Accepted data under a writer's cluster, for a reader whose members have been
/// searched for.
struct Record<'a> {
    writer: Members<'a>,
    reader: Members<'a>,
    index: &'a Index<'a>,
    data: &'a [u8],
    /// Where each of the writer's rows starts in the data.
    starts: &'a [u16; MOST_ROWS],
}

impl Record<'_> {
    /// The length of all members' bytes, or 42, 43 or 44 for the first member that
    /// is missing, doubled or of another type.
    fn length(&self) -> Result<usize, Answer> {
        let mut length = 0;
        for member in 0..self.reader.count() {
            let found = match self.index.found(member) {
                Search::Missing => return Err(at_member(42, member)),
                Search::Doubled => return Err(at_member(43, member)),
                Search::Found(found) => found,
            };
            let (row, others) = (self.writer.row(found), self.reader.row(member));
            if !self.writer.rows.same_type(row, self.reader.rows, others) {
                return Err(at_member(44, member));
            }
            length += self.bytes(found).len();
        }
        Ok(length)
    }

    /// Writes the members' bytes; `out` has their length.
    fn write(&self, mut out: &mut [u8]) {
        for member in 0..self.reader.count() {
            if let Search::Found(found) = self.index.found(member) {
                let bytes = self.bytes(found);
                copy_front(&self.data[bytes.start..], out, bytes.len());
                out = &mut out[bytes.len()..];
            }
        }
    }

    /// The bytes of one of the writer's members: all up to those of the next.
    #[inline(always)]
    fn bytes(&self, member: usize) -> Range<usize> {
        let start = self.starts[self.writer.row(member)];
        let end = match self.writer.behind(member) {
            Some(row) => usize::from(self.starts[row]),
            None => self.data.len(),
        };
        usize::from(start)..end
    }
}

/// A refusal of the reader at one of its members.
fn at_member(number: u32, member: usize) -> Answer {
    let place = member;
    refused(Refusal { number, place }, 2)
}
