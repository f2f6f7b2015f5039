//! The parts of data in order, each with its path and its bytes. The library's
//! answer leads: refused data is followed up to the piece at fault.

use std::ops::Range;

use kerbcanopy::Answer;

use crate::descriptor::Descriptor;

/// Which end of a number comes first.
#[derive(Clone, Copy, Debug, PartialEq, Eq)]
pub enum Order {
    Big,
    Little,
}

/// A number, string, array, cluster or time stamp.
#[derive(Debug, PartialEq, Eq)]
pub struct Part {
    pub row: usize,
    pub path: Vec<u32>,
    /// All that the walk takes for it, what is inside too.
    pub bytes: Range<usize>,
    /// An array's sizes.
    pub sizes: Vec<u32>,
}

/// Elements of an array that are not listed one by one.
#[derive(Debug, PartialEq, Eq)]
pub struct More {
    pub path: Vec<u32>,
    pub count: u64,
    pub bytes: Range<usize>,
}

#[derive(Debug, PartialEq, Eq)]
pub enum Found {
    Part(Part),
    More(More),
}

pub struct Walked {
    pub found: Vec<Found>,
    /// Where the walk ended: behind the last piece, or at the piece at fault.
    pub end: usize,
    /// The piece at fault.
    pub fault: Option<Fault>,
}

/// A piece that is refused, and so has no part.
#[derive(Debug, PartialEq, Eq)]
pub struct Fault {
    pub row: usize,
    pub path: Vec<u32>,
}

/// Follows data that has this answer under an accepted descriptor. Of an array
/// the first `most` elements are listed, and the one at fault.
pub fn walk(
    descriptor: &Descriptor,
    data: &[u8],
    answer: Answer,
    order: Order,
    most: u64,
) -> Walked {
    let rows = 0..descriptor.rows.len();
    let mut walk = Walk {
        descriptor,
        data,
        order,
        most,
        stop: (21..=23)
            .contains(&answer.number)
            .then_some(answer.place as usize),
        widths: rows.clone().map(|row| descriptor.width(row)).collect(),
        inside: rows.map(|row| descriptor.inside(row)).collect(),
        at: 0,
        path: Vec::new(),
        silent: false,
        found: Vec::new(),
        fault: None,
    };
    // Data that is too long is not walked at all.
    if answer.number != 20 {
        walk.value(0);
    }
    Walked {
        fault: walk.fault,
        found: walk.found,
        end: walk.at,
    }
}

struct Walk<'a> {
    descriptor: &'a Descriptor<'a>,
    data: &'a [u8],
    order: Order,
    most: u64,
    /// The start of the piece at fault.
    stop: Option<usize>,
    widths: Vec<Option<usize>>,
    inside: Vec<Vec<usize>>,
    at: usize,
    path: Vec<u32>,
    /// Whether parts are passed without being listed.
    silent: bool,
    found: Vec<Found>,
    fault: Option<Fault>,
}

/// Each step is none where the walk ends.
impl Walk<'_> {
    fn value(&mut self, row: usize) -> Option<()> {
        let start = self.at;
        let code = self.descriptor.rows[row].code;
        // A cluster and a time stamp have no piece of their own.
        if !matches!(code, 0x50 | 0x54) && self.stop == Some(start) {
            let path = self.path.clone();
            self.fault = Some(Fault { row, path });
            return None;
        }
        let slot = self.found.len();
        self.list(Found::Part(Part {
            row,
            path: self.path.clone(),
            bytes: start..start,
            sizes: Vec::new(),
        }));
        let sizes = match code {
            0x50 | 0x54 => {
                self.members(row)?;
                Vec::new()
            }
            0x40 => self.array(row, slot)?,
            0x30 => {
                let length = self.word(start)?;
                self.skip(length as usize, start)?;
                Vec::new()
            }
            _ => {
                let width = self.widths[row]?;
                self.skip(width, start)?;
                Vec::new()
            }
        };
        self.complete(slot, start..self.at, sizes);
        Some(())
    }

    /// What is known of a listed part once it has been passed.
    fn complete(&mut self, slot: usize, bytes: Range<usize>, sizes: Vec<u32>) {
        if !self.silent
            && let Some(Found::Part(part)) = self.found.get_mut(slot)
        {
            part.bytes = bytes;
            part.sizes = sizes;
        }
    }

    /// The members of a cluster, or a time stamp's one part.
    fn members(&mut self, row: usize) -> Option<()> {
        for step in 0..self.inside[row].len() {
            let member = self.inside[row][step];
            self.path.push(step as u32);
            self.value(member)?;
            self.path.pop();
        }
        Some(())
    }

    fn array(&mut self, row: usize, slot: usize) -> Option<Vec<u32>> {
        let start = self.at;
        let mut sizes = Vec::new();
        for _ in 0..self.descriptor.rows[row].count {
            sizes.push(self.word(start)?);
        }
        // Known before the elements, one of which may be at fault.
        self.complete(slot, start..self.at, sizes.clone());
        let count = sizes.iter().map(|size| u64::from(*size));
        self.elements(row + 1, count.fold(1, u64::saturating_mul))?;
        Some(sizes)
    }

    fn elements(&mut self, row: usize, count: u64) -> Option<()> {
        let listed = if self.silent {
            count
        } else {
            count.min(self.most)
        };
        for step in 0..listed {
            self.element(row, step)?;
        }
        match listed == count {
            true => Some(()),
            false => self.unlisted(row, listed..count),
        }
    }

    fn element(&mut self, row: usize, step: u64) -> Option<()> {
        self.path.push(step as u32);
        self.value(row)?;
        self.path.pop();
        Some(())
    }

    /// Passes elements without listing them; the one at fault is listed after all.
    fn unlisted(&mut self, row: usize, steps: Range<u64>) -> Option<()> {
        let first = self.at;
        let path = self.path.clone();
        for step in steps.clone() {
            let before = self.at;
            self.silent = true;
            let passed = self.element(row, step);
            self.silent = false;
            if passed.is_none() {
                self.path.clone_from(&path);
                self.at = before;
                self.more(step - steps.start, first..before);
                return self.element(row, step);
            }
        }
        self.more(steps.end - steps.start, first..self.at);
        Some(())
    }

    fn more(&mut self, count: u64, bytes: Range<usize>) {
        if count > 0 {
            let path = self.path.clone();
            self.list(Found::More(More { path, count, bytes }));
        }
    }

    fn list(&mut self, found: Found) {
        if !self.silent {
            self.found.push(found);
        }
    }

    /// Reads a length or a size. Where the data ends, the walk stays at the piece's
    /// start.
    fn word(&mut self, piece: usize) -> Option<u32> {
        let start = self.at;
        self.skip(4, piece)?;
        let bytes: [u8; 4] = self.data[start..self.at].try_into().ok()?;
        Some(match self.order {
            Order::Big => u32::from_be_bytes(bytes),
            Order::Little => u32::from_le_bytes(bytes),
        })
    }

    fn skip(&mut self, length: usize, piece: usize) -> Option<()> {
        if length > self.data.len() - self.at {
            self.at = piece;
            return None;
        }
        self.at += length;
        Some(())
    }
}
