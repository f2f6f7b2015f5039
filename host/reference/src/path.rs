//! Parts of the data found by a path of steps.

use std::convert::Infallible;

use crate::data::judge_data;
use crate::order::{Big, Order, element_count};
use crate::plan::{Element, Join, Limit, Numbers, Op};
use crate::rows::{Rows, ask};
use crate::tour::{Cursor, walk_elements, walk_rows};
use crate::walk::{Refusal, refuse};
use crate::{Answer, refused};

/// What a view returns: the answer, and the part of the data, empty and at the
/// front after a refusal.
#[derive(Clone, Copy, Debug, Default, PartialEq, Eq)]
pub struct Part {
    pub answer: Answer,
    pub start: usize,
    pub length: usize,
}

/// What a value read returns. The kind is 0 for no value, 1 for an unsigned
/// number, 2 for a signed one (the bits are its 64-bit two's complement), 3 for
/// a single, 4 for a double (their exact bits) and 5 for a flag (0 for a byte of
/// 0, else 1).
#[derive(Clone, Copy, Debug, Default, PartialEq, Eq)]
pub struct Value {
    pub answer: Answer,
    pub kind: u32,
    pub bits: u64,
}

/// Finds a part of the data: each step is a member number in a cluster, a flat
/// element number in an array or 0 in a time stamp. Accepted: the place is 0.
/// Refused: 1 to 12 with input 1, 20 to 23 or 25 with input 3, or 30 with input 4.
pub fn view(descriptor: &[u8], data: &[u8], path: &[u32]) -> Part {
    let found = ask(descriptor, |rows| {
        judge_data(rows, data, Big)?;
        let spot = follow(rows, data, path)?;
        let end = match spot.row {
            0 => data.len(),
            _ => behind(rows, data, spot).start,
        };
        Ok((spot.start, end - spot.start))
    });
    match found {
        Ok((start, length)) => Part {
            answer: Answer::default(),
            start,
            length,
        },
        Err(answer) => Part {
            answer,
            ..Part::default()
        },
    }
}

/// Reads the number that stands at the end of a path. It refuses what a view
/// does, then 31 with input 4 where there is no single number.
pub fn read_value(descriptor: &[u8], data: &[u8], path: &[u32]) -> Value {
    let read = ask(descriptor, |rows| {
        judge_data(rows, data, Big)?;
        let spot = follow(rows, data, path)?;
        let width = usize::from(rows.shape(spot.row).width);
        let bytes = &data[spot.start..spot.start + width];
        value(rows.code(spot.row), bytes).map_err(|refusal| refused(refusal, 4))
    });
    match read {
        Ok((kind, bits)) => Value {
            answer: Answer::default(),
            kind,
            bits,
        },
        Err(answer) => Value {
            answer,
            ..Value::default()
        },
    }
}

/// A number's kind and bits; 31 where the code isn't that of a single number.
fn value(code: u8, bytes: &[u8]) -> Result<(u32, u64), Refusal> {
    let kind = match code {
        0x05..=0x08 | 0x15..=0x17 => 1,
        0x01..=0x04 => 2,
        0x09 | 0x19 => 3,
        0x0A | 0x1A => 4,
        0x21 => 5,
        _ => return refuse(31, 0),
    };
    let bits = (bytes.iter()).fold(0, |bits, &byte| bits << 8 | u64::from(byte));
    let unused = 64 - 8 * bytes.len();
    let bits = match kind {
        2 => ((bits << unused) as i64 >> unused) as u64,
        5 => u64::from(bits != 0),
        _ => bits,
    };
    Ok((kind, bits))
}

/// A row, and where the part of the data that it describes starts.
#[derive(Clone, Copy)]
struct Spot {
    row: usize,
    start: usize,
}

/// Follows a path through accepted data. Refusal 30 gives the step.
fn follow(rows: Rows, data: &[u8], path: &[u32]) -> Result<Spot, Answer> {
    let mut spot = Spot { row: 0, start: 0 };
    for (place, &step) in path.iter().enumerate() {
        let part = match rows.code(spot.row) {
            0x40 => element(rows, data, spot, step),
            0x50 => member(rows, data, spot, step),
            0x54 => held(spot, step),
            _ => None,
        };
        spot = part.ok_or(refused(Refusal { number: 30, place }, 4))?;
    }
    Ok(spot)
}

/// A member of the cluster at a spot.
fn member(rows: Rows, data: &[u8], spot: Spot, step: u32) -> Option<Spot> {
    if step >= u32::from(rows.count(spot.row)) {
        return None;
    }
    let first = Spot {
        row: spot.row + 1,
        ..spot
    };
    Some((0..step).fold(first, |member, _| behind(rows, data, member)))
}

/// What the time stamp at a spot holds: its one part, with the same data.
fn held(spot: Spot, step: u32) -> Option<Spot> {
    let row = spot.row + 1;
    (step == 0).then_some(Spot { row, ..spot })
}

/// An element of the array at a spot.
fn element(rows: Rows, data: &[u8], spot: Spot, step: u32) -> Option<Spot> {
    let start = spot.start;
    let mut measure = Measure { data, start };
    let Ok(count) = measure.sizes(rows.count(spot.row) as u8);
    let step = u64::from(step);
    if step >= count {
        return None;
    }
    let row = spot.row + 1;
    if step > 0 {
        let behind = rows.behind(spot.row);
        let Ok(moved) = walk_elements(rows, row..behind, step, measure);
        measure = moved;
    }
    Some(Spot {
        row,
        start: measure.start,
    })
}

/// The spot behind one, where the next member of a cluster stands.
#[inline(always)]
fn behind(rows: Rows, data: &[u8], spot: Spot) -> Spot {
    let width = rows.shape(spot.row).width;
    if width == 0 {
        return behind_parts(rows, data, spot);
    }
    Spot {
        row: spot.row + 1,
        start: spot.start + usize::from(width),
    }
}

/// The same for a string, an array, a cluster or a time stamp.
#[inline(never)]
fn behind_parts(rows: Rows, data: &[u8], spot: Spot) -> Spot {
    let row = rows.behind(spot.row);
    let start = spot.start;
    let Ok(measure) = walk_rows(rows, spot.row..row, Measure { data, start });
    Spot {
        row,
        start: measure.start,
    }
}

/// The cursor that only measures accepted data.
struct Measure<'a> {
    data: &'a [u8],
    start: usize,
}

impl Cursor for Measure<'_> {
    type Refusal = Infallible;
    const JOIN: Join = Join::All;

    #[inline(always)]
    fn numbers(&mut self, numbers: Numbers) -> Result<(), Infallible> {
        self.start += usize::from(numbers.bytes);
        Ok(())
    }

    #[inline(always)]
    fn limited(&mut self, width: u8, _limit: Limit) -> Result<(), Infallible> {
        self.start += usize::from(width);
        Ok(())
    }

    #[inline(always)]
    fn text(&mut self) -> Result<(), Infallible> {
        let word = self.data[self.start..].first_chunk();
        self.start += 4 + word.map_or(0, |word| Big.word(*word)) as usize;
        Ok(())
    }

    #[inline(always)]
    fn sizes(&mut self, dimensions: u8) -> Result<u64, Infallible> {
        let words = &self.data[self.start..][..4 * usize::from(dimensions)];
        self.start += words.len();
        Ok(element_count(Big, words.as_chunks().0))
    }

    #[inline(always)]
    fn block(&mut self, _ops: &[Op], element: Element, count: u64) -> Result<u64, Infallible> {
        self.start += usize::from(element.width) * count as usize;
        Ok(0)
    }
}
