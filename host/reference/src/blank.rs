//! The identifier of a blank. Document 02: it "is always read from the record with
//! the reader's shape `0010 0050 0001 000A 0007 0562 6C61 6E6B`". That reader has one
//! member, whose name and code leave nothing else to compare, so the search for it
//! needs no table of names.

use crate::data::{Notes, judge_and_note};
use crate::members::INSIDE_TOP;
use crate::normal::Starts;
use crate::order::{Big, Order};
use crate::rows::Rows;
use crate::search::Search;
use crate::shape::{Act, SHAPES};
use crate::walk::{Refusal, Visitor, walk};
use crate::{Answer, Row, refused};

/// The name of the reader's member.
const NAME: &[u8; 5] = b"blank";

/// The code of the reader's member: an unsigned number of 32 bits.
const CODE: u8 = 0x07;

/// What is known of the writer whose record was read last. A run of blanks mostly
/// comes from one writer, so the next descriptor is often the same.
pub(crate) struct LastWriter<'a> {
    /// The accepted descriptor that the rest is about; none before the first.
    descriptor: Option<&'a [u8]>,
    starts: Starts,
    rows: usize,
    /// The length of the data, where it can't vary and is all there is to judge.
    width: Option<usize>,
    /// The one member, or 41 to 44, which are given only after the data's refusals.
    member: Result<Member, Answer>,
}

/// The writer's member that the reader finds: its row, and its place in data of a
/// length that can't vary.
#[derive(Clone, Copy)]
struct Member {
    row: usize,
    place: usize,
}

impl<'a> LastWriter<'a> {
    /// No writer yet.
    #[inline(always)]
    pub(crate) fn new() -> Self {
        LastWriter {
            descriptor: None,
            starts: Starts::default(),
            rows: 0,
            width: None,
            member: Err(at_member(42)),
        }
    }

    /// A record's identifier. Refused, in document 01's order: 1 to 12 with
    /// input 1, 20 to 23 or 25 with input 3, 41 with input 1, 42 to 44 with input 2.
    #[inline(always)]
    pub(crate) fn identifier(&mut self, descriptor: &'a [u8], data: &[u8]) -> Result<u32, Answer> {
        if self.descriptor != Some(descriptor) {
            self.learn(descriptor)?;
        }
        let place = match self.width {
            Some(width) if width == data.len() => self.member?.place,
            _ => self.walk(descriptor, data)?,
        };
        let word = data[place..].first_chunk();
        Ok(word.map_or(0, |word| Big.word(*word)))
    }

    /// Judges a descriptor and keeps what a reading of its data needs.
    #[inline(never)]
    fn learn(&mut self, descriptor: &'a [u8]) -> Result<(), Answer> {
        self.descriptor = None;
        let mut scan = Scan::new(descriptor, &mut self.starts);
        let rows = walk(descriptor, &mut scan).map_err(|refusal| refused(refusal, 1))?;
        self.width = (!scan.varies).then_some(scan.width);
        self.member = scan.member();
        self.rows = rows;
        self.descriptor = Some(descriptor);
        Ok(())
    }

    /// Judges data piece by piece. Returns the place of the member in it.
    fn walk(&self, descriptor: &[u8], data: &[u8]) -> Result<usize, Answer> {
        let rows = Rows::new(descriptor, self.starts.first(self.rows));
        let row = self.member.ok().map(|member| member.row);
        let mut spot = Spot { row, place: 0 };
        judge_and_note(rows, data, Big, &mut spot)?;
        self.member?;
        Ok(spot.place)
    }
}

/// Where one row starts in the data.
struct Spot {
    row: Option<usize>,
    place: usize,
}

impl Notes for &mut Spot {
    #[inline(always)]
    fn note(&mut self, row: usize, place: usize) {
        if self.row == Some(row) {
            self.place = place;
        }
    }
}

/// Notes where each row of a descriptor starts, searches the members of its top for
/// the reader's, and measures its data.
struct Scan<'a, 's> {
    descriptor: &'a [u8],
    starts: &'s mut Starts,
    /// The row of the member met last.
    last: usize,
    /// The row of what was found.
    found: Search,
    /// The data before what was found.
    before: usize,
    /// The data of all scalars so far.
    width: usize,
    /// Whether the data's length may vary, or more than that is judged.
    varies: bool,
}

impl<'a, 's> Scan<'a, 's> {
    fn new(descriptor: &'a [u8], starts: &'s mut Starts) -> Self {
        Scan {
            descriptor,
            starts,
            last: 0,
            found: Search::Missing,
            before: 0,
            width: 0,
            varies: false,
        }
    }

    /// Meets a member's name.
    #[inline(always)]
    fn meet(&mut self, row: usize, place: u16, length: u16) {
        let place = usize::from(place);
        if usize::from(length) != NAME.len() || !self.descriptor[place..].starts_with(NAME) {
            return;
        }
        self.before = self.width;
        self.found = match self.found {
            Search::Missing => Search::Found(row),
            Search::Found(_) | Search::Doubled => Search::Doubled,
        };
    }

    /// What an accepted descriptor has for the reader's member: 41 to 44, else that
    /// member. Of its descriptor only the code is left to compare: none that has this
    /// code differs in more than a reserved byte.
    fn member(&self) -> Result<Member, Answer> {
        if self.descriptor[3] != 0x50 {
            let (number, place) = (41, 0);
            return Err(refused(Refusal { number, place }, 1));
        }
        let row = match self.found {
            Search::Missing => return Err(at_member(42)),
            Search::Doubled => return Err(at_member(43)),
            Search::Found(row) => row,
        };
        if Rows::new(self.descriptor, self.starts.first(row + 1)).code(row) != CODE {
            return Err(at_member(44));
        }
        let place = self.before;
        Ok(Member { row, place })
    }
}

impl Visitor for Scan<'_, '_> {
    #[inline(always)]
    fn row(&mut self, index: usize, row: Row) {
        self.starts.row(index, row);
        if row.depth == INSIDE_TOP {
            self.last = index;
            self.meet(index, row.name_place, row.name_length);
        }
        let shape = SHAPES[usize::from(row.code as u8)];
        self.width += usize::from(shape.width);
        self.varies |= !matches!(shape.act, Act::Plain | Act::Cluster);
    }

    /// Of all parents that are closed, a member is the one met last.
    #[inline(always)]
    fn name(&mut self, index: usize, place: u16, length: u16) {
        if index == self.last {
            self.meet(index, place, length);
        }
    }
}

/// A refusal of the reader at its only member.
fn at_member(number: u32) -> Answer {
    let place = 0;
    refused(Refusal { number, place }, 2)
}
