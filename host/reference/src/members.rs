//! The members of an accepted descriptor's top cluster, with their names.

use crate::normal::Starts;
use crate::rows::Rows;
use crate::walk::{Visitor, walk};
use crate::{Answer, MOST_ROWS, Row, refused};

/// The depth of what stands directly in the top descriptor.
pub(crate) const INSIDE_TOP: u16 = 2;

/// What stands directly in the top: its row, and the place of its name's first
/// character, 0 where there is no name.
#[derive(Clone, Copy, Default)]
struct Member {
    row: u16,
    name_place: u16,
}

/// The starts of the descriptors met, and which of them are members.
pub(crate) struct MemberTable {
    starts: Starts,
    members: [Member; MOST_ROWS],
    count: usize,
}

impl Default for MemberTable {
    fn default() -> Self {
        MemberTable {
            starts: Starts::default(),
            members: [Member::default(); MOST_ROWS],
            count: 0,
        }
    }
}

impl Visitor for MemberTable {
    #[inline(always)]
    fn row(&mut self, index: usize, row: Row) {
        self.starts.row(index, row);
        if row.depth == INSIDE_TOP {
            self.members[self.count] = Member {
                row: index as u16,
                name_place: row.name_place,
            };
            self.count += 1;
        }
    }

    /// Of all parents that are closed, a member is the one met last.
    #[inline(always)]
    fn name(&mut self, index: usize, place: u16, _length: u16) {
        if let Some(last) = self.members[..self.count].last_mut()
            && usize::from(last.row) == index
        {
            last.name_place = place;
        }
    }
}

impl MemberTable {
    /// Judges the descriptor as this input and keeps its rows here.
    pub(crate) fn read<'a>(
        &'a mut self,
        descriptor: &'a [u8],
        input: u32,
    ) -> Result<Members<'a>, Answer> {
        match walk(descriptor, self) {
            Ok(rows) => Ok(Members {
                rows: Rows::new(descriptor, self.starts.first(rows)),
                members: &self.members[..self.count],
            }),
            Err(refusal) => Err(refused(refusal, input)),
        }
    }
}

/// The rows of an accepted descriptor, and its members by number.
#[derive(Clone, Copy)]
pub(crate) struct Members<'a> {
    pub(crate) rows: Rows<'a>,
    members: &'a [Member],
}

impl<'a> Members<'a> {
    /// Whether these are members of a cluster, and not what an array or a time stamp
    /// holds.
    #[inline(always)]
    pub(crate) fn of_cluster(self) -> bool {
        self.rows.code(0) == 0x50
    }

    #[inline(always)]
    pub(crate) fn count(self) -> usize {
        self.members.len()
    }

    #[inline(always)]
    pub(crate) fn row(self, member: usize) -> usize {
        usize::from(self.members[member].row)
    }

    /// The row behind a member and all that it holds; none behind the last.
    #[inline(always)]
    pub(crate) fn behind(self, member: usize) -> Option<usize> {
        let next = self.members.get(member + 1);
        next.map(|next| usize::from(next.row))
    }

    /// A member's name; no bytes where it is empty or there is none.
    #[inline(always)]
    pub(crate) fn name(self, member: usize) -> &'a [u8] {
        let place = usize::from(self.members[member].name_place);
        if place == 0 {
            return &[];
        }
        let descriptor = self.rows.descriptor;
        let length = usize::from(descriptor[place - 1]);
        &descriptor[place..place + length]
    }
}
