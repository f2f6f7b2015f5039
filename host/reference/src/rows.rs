//! The rows of an accepted descriptor, by number.

use std::ops::Range;

use crate::normal::{Starts, agree};
use crate::shape::{SHAPES, Shape};
use crate::walk::walk;
use crate::{Answer, refused};

/// An accepted descriptor, and where each of its rows starts in it.
#[derive(Clone, Copy)]
pub(crate) struct Rows<'a> {
    pub(crate) descriptor: &'a [u8],
    starts: &'a [u16],
}

/// Judges the descriptor as input 1, then puts a question to its rows.
#[inline(always)]
pub(crate) fn ask<T>(
    descriptor: &[u8],
    question: impl FnOnce(Rows) -> Result<T, Answer>,
) -> Result<T, Answer> {
    let mut starts = Starts::default();
    match walk(descriptor, &mut starts) {
        Ok(rows) => question(Rows::new(descriptor, starts.first(rows))),
        Err(refusal) => Err(refused(refusal, 1)),
    }
}

impl<'a> Rows<'a> {
    #[inline(always)]
    pub(crate) fn new(descriptor: &'a [u8], starts: &'a [u16]) -> Self {
        Rows { descriptor, starts }
    }

    /// The numbers of all rows.
    #[inline(always)]
    pub(crate) fn all(self) -> Range<usize> {
        0..self.starts.len()
    }

    #[inline(always)]
    pub(crate) fn start(self, row: usize) -> usize {
        usize::from(self.starts[row])
    }

    #[inline(always)]
    pub(crate) fn code(self, row: usize) -> u8 {
        self.descriptor[self.start(row) + 3]
    }

    #[inline(always)]
    pub(crate) fn shape(self, row: usize) -> Shape {
        SHAPES[usize::from(self.code(row))]
    }

    /// Items, pairs, dimensions or members, of a code that has them.
    #[inline(always)]
    pub(crate) fn count(self, row: usize) -> u16 {
        self.half(self.start(row) + 4)
    }

    /// The row behind this one and all that it holds.
    #[inline(always)]
    pub(crate) fn behind(self, row: usize) -> usize {
        let start = self.start(row);
        let end = start + usize::from(self.half(start));
        let mut behind = row + 1;
        while behind < self.starts.len() && self.start(behind) < end {
            behind += 1;
        }
        behind
    }

    /// The bytes of this row's own descriptor.
    #[inline(always)]
    fn own(self, row: usize) -> &'a [u8] {
        let start = self.start(row);
        &self.descriptor[start..start + usize::from(self.half(start))]
    }

    /// Whether this row and one of another descriptor are equal, each with its
    /// name and all that it holds, reserved bytes apart.
    #[inline(always)]
    pub(crate) fn same_type(self, row: usize, other: Rows, other_row: usize) -> bool {
        let (own, others) = (self.own(row), other.own(other_row));
        own == others || agree(own, others, &self.starts[row..], self.start(row))
    }

    #[inline(always)]
    fn half(self, place: usize) -> u16 {
        u16::from_be_bytes([self.descriptor[place], self.descriptor[place + 1]])
    }
}
