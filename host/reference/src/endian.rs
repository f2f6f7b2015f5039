//! The little-endian form and the way back. Both reverse each number where it
//! stands; they differ in the order in which lengths and sizes are read.

use std::convert::Infallible;

use crate::copy::{copy, copy_front};
use crate::data::judge_data;
use crate::order::{Big, Little, Order, times};
use crate::plan::{Element, Join, Limit, Numbers, Op};
use crate::reverse;
use crate::rows::{Rows, ask};
use crate::tour::{Cursor, FEW, walk_rows};
use crate::{Answer, accepted, room};

/// Writes the little-endian form. Accepted: the place is the length written,
/// and `out` beyond it keeps its bytes. Refused: 1 to 12 with input 1, 20 to 23 or 25
/// with input 3, or 50 with input 4 and the length needed; nothing is written.
pub fn to_little_endian(descriptor: &[u8], data: &[u8], out: &mut [u8]) -> Answer {
    write(descriptor, data, out, Big)
}

/// Writes the data whose little-endian form is lent. Its answers are those of
/// [`to_little_endian`], with the words of the data read reversed.
pub fn from_little_endian(descriptor: &[u8], data: &[u8], out: &mut [u8]) -> Answer {
    write(descriptor, data, out, Little)
}

#[inline(always)]
fn write(descriptor: &[u8], data: &[u8], out: &mut [u8], order: impl Order) -> Answer {
    let written = ask(descriptor, |rows| {
        judge_data(rows, data, order)?;
        reverse_data(rows, data, room(out, data.len())?, order);
        Ok(data.len())
    });
    written.map_or_else(|refusal| refusal, accepted)
}

/// Writes accepted data reversed; `out` has its length.
#[inline(never)]
fn reverse_data(rows: Rows, data: &[u8], out: &mut [u8], order: impl Order) {
    let reversal = Reversal {
        data,
        out,
        start: 0,
        order,
    };
    let Ok(_) = walk_rows(rows, rows.all(), reversal);
}

/// How much of an array of clusters is reversed at a time, in bytes, so that it
/// stays near while one number after the other is reversed.
const STRETCH: usize = 2048;

/// The cursor of the reversal: everything before `start` is written.
struct Reversal<'a, O> {
    data: &'a [u8],
    out: &'a mut [u8],
    start: usize,
    order: O,
}

impl<O: Order> Cursor for Reversal<'_, O> {
    type Refusal = Infallible;
    const JOIN: Join = Join::SameUnit;

    #[inline(always)]
    fn numbers(&mut self, numbers: Numbers) -> Result<(), Infallible> {
        self.write(numbers.unit, usize::from(numbers.bytes));
        Ok(())
    }

    #[inline(always)]
    fn limited(&mut self, width: u8, _limit: Limit) -> Result<(), Infallible> {
        self.write(width, usize::from(width));
        Ok(())
    }

    #[inline(always)]
    fn text(&mut self) -> Result<(), Infallible> {
        let length = self.word();
        self.copy(length as usize);
        Ok(())
    }

    #[inline(always)]
    fn sizes(&mut self, dimensions: u8) -> Result<u64, Infallible> {
        let mut count = 1;
        for _ in 0..dimensions {
            count = times(count, self.word());
        }
        Ok(count)
    }

    #[inline(always)]
    fn block(&mut self, ops: &[Op], element: Element, count: u64) -> Result<u64, Infallible> {
        let width = usize::from(element.width);
        let length = width * count as usize;
        match ops {
            [Op::Numbers(numbers)] => self.write(numbers.unit, length),
            _ if count < FEW as u64 => return Ok(count),
            _ => {
                let bytes = self.start..self.start + length;
                columns(ops, width, &self.data[bytes.clone()], &mut self.out[bytes]);
                self.start += length;
            }
        }
        Ok(0)
    }
}

impl<O: Order> Reversal<'_, O> {
    /// Writes the next bytes as numbers of this unit.
    #[inline(always)]
    fn write(&mut self, unit: u8, length: usize) {
        if unit == 1 {
            return self.copy(length);
        }
        let bytes = self.start..self.start + length;
        reverse::numbers(unit, &self.data[bytes.clone()], &mut self.out[bytes]);
        self.start += length;
    }

    /// Writes a length or size word. Returns what it says.
    #[inline(always)]
    fn word(&mut self) -> u32 {
        let bytes = self.start..self.start + 4;
        let mut word = [0; 4];
        word.copy_from_slice(&self.data[bytes.clone()]);
        let reversed = u32::from_ne_bytes(word).swap_bytes();
        self.out[bytes].copy_from_slice(&reversed.to_ne_bytes());
        self.start += 4;
        self.order.word(word)
    }

    /// Writes the next bytes as they are.
    #[inline(always)]
    fn copy(&mut self, length: usize) {
        let (data, out) = (&self.data[self.start..], &mut self.out[self.start..]);
        copy_front(data, out, length);
        self.start += length;
    }
}

/// Copies the elements of an array of clusters, then reverses the same number
/// of every element, one number after the other.
fn columns(ops: &[Op], width: usize, data: &[u8], out: &mut [u8]) {
    let stretch = STRETCH.div_ceil(width) * width;
    for (data, out) in data.chunks(stretch).zip(out.chunks_mut(stretch)) {
        copy(data, out);
        let mut offset = 0;
        for op in ops {
            if let Op::Numbers(numbers) = op {
                let behind = offset + usize::from(numbers.bytes);
                while offset < behind {
                    reverse::column(numbers.unit, out, width, offset);
                    offset += usize::from(numbers.unit);
                }
            }
        }
    }
}
