//! The data check: every piece judged in document 01's order.

use crate::judge::first_too_high;
use crate::order::{Big, Order, element_count};
use crate::plan::{Element, Join, Limit, Numbers, Op};
use crate::rows::{Rows, ask};
use crate::tour::{Cursor, FEW, walk_rows};
use crate::walk::{Refusal, refuse};
use crate::{Answer, MOST_ROWS, accepted, refused};

/// The longest data that is read, in bytes.
pub const MOST_DATA: usize = 65536;

/// Walks data by its descriptor. Accepted: the place is the number of pieces.
/// Refused: 1 to 12 with input 1, or 20 to 23 or 25 with input 3.
pub fn check_data(descriptor: &[u8], data: &[u8]) -> Answer {
    ask(descriptor, |rows| judge_data(rows, data, Big)).map_or_else(|refusal| refusal, accepted)
}

/// Judges the whole data as input 3, its words read in this order. Returns the
/// number of pieces.
#[inline(always)]
pub(crate) fn judge_data(rows: Rows, data: &[u8], order: impl Order) -> Result<usize, Answer> {
    judge_and_note(rows, data, order, ())
}

/// The same, with a note of where each row starts in the data.
#[inline(never)]
pub(crate) fn judge_and_note(
    rows: Rows,
    data: &[u8],
    order: impl Order,
    notes: impl Notes,
) -> Result<usize, Answer> {
    match walk_data(rows, data, order, notes) {
        Ok(pieces) => Ok(pieces),
        Err(refusal) => Err(refused(refusal, 3)),
    }
}

/// Is told where each row starts in the data, those of elements apart.
pub(crate) trait Notes {
    fn note(&mut self, row: usize, place: usize);
}

/// Notes nothing.
impl Notes for () {
    #[inline(always)]
    fn note(&mut self, _row: usize, _place: usize) {}
}

/// By row. Every type needs at least one byte, so in accepted data a row starts
/// before byte 65,536.
impl Notes for &mut [u16; MOST_ROWS] {
    #[inline(always)]
    fn note(&mut self, row: usize, place: usize) {
        self[row] = place as u16;
    }
}

#[inline(always)]
fn walk_data(
    rows: Rows,
    data: &[u8],
    order: impl Order,
    notes: impl Notes,
) -> Result<usize, Refusal> {
    if data.len() > MOST_DATA {
        return refuse(20, 0);
    }
    let check = Check {
        rows,
        length: data.len(),
        rest: data,
        pieces: 0,
        order,
        notes,
    };
    let check = walk_rows(rows, rows.all(), check)?;
    if !check.rest.is_empty() {
        return check.refuse(25);
    }
    Ok(check.pieces)
}

/// The cursor of the check: what is left of the data, and the pieces so far.
struct Check<'a, O, N> {
    rows: Rows<'a>,
    length: usize,
    rest: &'a [u8],
    pieces: usize,
    order: O,
    notes: N,
}

impl<O: Order, N: Notes> Cursor for Check<'_, O, N> {
    type Refusal = Refusal;
    const JOIN: Join = Join::Plain;

    #[inline(always)]
    fn meet(&mut self, row: usize) {
        self.notes.note(row, self.place());
    }

    /// 21.
    #[inline(always)]
    fn numbers(&mut self, numbers: Numbers) -> Result<(), Refusal> {
        match self.rest.get(usize::from(numbers.bytes)..) {
            Some(rest) => self.rest = rest,
            None => return Err(cut(self.rows, numbers.row, self.place(), self.length)),
        }
        self.pieces += usize::from(numbers.pieces);
        Ok(())
    }

    #[inline(always)]
    fn limited(&mut self, width: u8, limit: Limit) -> Result<(), Refusal> {
        let order = self.order;
        match width {
            1 => self.number(limit, |[byte]| u32::from(byte)),
            2 => self.number(limit, |bytes| u32::from(order.half(bytes))),
            _ => self.number(limit, |bytes| order.word(bytes)),
        }
    }

    /// 21 for the length word, 22, then 21 for the characters.
    #[inline(always)]
    fn text(&mut self) -> Result<(), Refusal> {
        let Some((word, rest)) = self.rest.split_first_chunk() else {
            return self.refuse(21);
        };
        let length = self.order.word(*word);
        match rest.get(length as usize..) {
            Some(rest) => self.rest = rest,
            None if length >= 1 << 31 => return self.refuse(22),
            None => return self.refuse(21),
        }
        self.pieces += 1;
        Ok(())
    }

    /// 21, then 22.
    #[inline(always)]
    fn sizes(&mut self, dimensions: u8) -> Result<u64, Refusal> {
        let Some((words, rest)) = self.rest.split_at_checked(4 * usize::from(dimensions)) else {
            return self.refuse(21);
        };
        let words = words.as_chunks().0;
        if words.iter().any(|&word| self.order.word(word) >= 1 << 31) {
            return self.refuse(22);
        }
        self.rest = rest;
        self.pieces += 1;
        Ok(element_count(self.order, words))
    }

    #[inline(always)]
    fn block(&mut self, ops: &[Op], element: Element, count: u64) -> Result<u64, Refusal> {
        let whole = self.whole(usize::from(element.width), count);
        let (block, rest) = self.rest.split_at(whole * usize::from(element.width));
        match ops {
            [Op::Numbers(_)] => {}
            _ if whole < FEW => return Ok(count),
            _ => {
                if let Some(place) = first_too_high(self.order, ops, element.width, block) {
                    return refuse(23, self.place() + place);
                }
            }
        }
        self.rest = rest;
        self.pieces += whole * usize::from(element.pieces);
        Ok(count - whole as u64)
    }
}

impl<O: Order, N> Check<'_, O, N> {
    /// The first byte not yet passed.
    #[inline(always)]
    fn place(&self) -> usize {
        self.length - self.rest.len()
    }

    #[inline(always)]
    fn refuse<T>(&self, number: u32) -> Result<T, Refusal> {
        refuse(number, self.place())
    }

    /// How many of the elements are whole.
    #[inline(always)]
    fn whole(&self, width: usize, count: u64) -> usize {
        let left = self.rest.len();
        match usize::try_from(count) {
            Ok(count) if count <= left && count * width <= left => count,
            _ => left / width,
        }
    }

    /// An enumeration: 21, then 23.
    #[inline(always)]
    fn number<const WIDTH: usize>(
        &mut self,
        limit: Limit,
        read: impl Fn([u8; WIDTH]) -> u32,
    ) -> Result<(), Refusal> {
        let Some((bytes, rest)) = self.rest.split_first_chunk() else {
            return self.refuse(21);
        };
        if read(*bytes) > u32::from(limit.most) {
            return self.refuse(23);
        }
        self.rest = rest;
        self.pieces += 1;
        Ok(())
    }
}

/// Refusal 21 somewhere in the scalars that start at this row and place.
#[cold]
fn cut(rows: Rows, row: u16, mut place: usize, length: usize) -> Refusal {
    let mut row = usize::from(row);
    loop {
        let behind = place + usize::from(rows.shape(row).width);
        if behind > length {
            return Refusal { number: 21, place };
        }
        place = behind;
        row += 1;
    }
}
