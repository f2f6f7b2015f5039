//! Enumerations in arrays of a fixed width, many at a time.

use crate::order::Order;
use crate::plan::Op;

/// How much is judged before a refusal is looked for, in bytes: enough for long
/// loops, little enough to stay near.
const STRETCH: usize = 4096;

/// The place of the first number that is too high in a block of whole elements,
/// counted from the block's start.
#[inline(never)]
pub(crate) fn first_too_high(
    order: impl Order,
    ops: &[Op],
    width: u16,
    block: &[u8],
) -> Option<usize> {
    let width = usize::from(width);
    let stretch = STRETCH.div_ceil(width) * width;
    let mut parts = block.chunks(stretch).enumerate();
    parts.find_map(|(index, part)| {
        let place = in_stretch(order, ops, width, part)?;
        Some(index * stretch + place)
    })
}

/// Judges one number of the element after the other. Once one is refused, only
/// the elements before it can still hold an earlier one.
fn in_stretch(order: impl Order, ops: &[Op], width: usize, mut part: &[u8]) -> Option<usize> {
    let mut first = None;
    let mut offset = 0;
    for op in ops {
        let (bytes, _) = op.fixed()?;
        let column = Column {
            part,
            width,
            offset,
        };
        if let Some(index) = column.search(order, op) {
            part = &part[..index * width];
            first = Some(index * width + offset);
        }
        offset += usize::from(bytes);
    }
    first
}

/// The same number of every element.
#[derive(Clone, Copy)]
struct Column<'a> {
    part: &'a [u8],
    /// The element's width.
    width: usize,
    /// Where the number stands in it.
    offset: usize,
}

impl Column<'_> {
    /// The element of the first number that is too high.
    #[inline(always)]
    fn search(self, order: impl Order, op: &Op) -> Option<usize> {
        match op {
            Op::Byte(limit) => {
                let most = u8::try_from(limit.most).unwrap_or(u8::MAX);
                self.find(|[byte]| byte > most)
            }
            Op::Half(limit) => self.find(|bytes| order.half(bytes) > limit.most),
            Op::Word(limit) => {
                let most = u32::from(limit.most);
                self.find(|bytes| order.word(bytes) > most)
            }
            Op::Numbers(_) | Op::Text | Op::Array(..) => None,
        }
    }

    /// The first element whose number is too high. Numbers side by side are
    /// first judged together, in a loop without a way out.
    #[inline(always)]
    fn find<const WIDTH: usize>(self, too_high: impl Fn([u8; WIDTH]) -> bool) -> Option<usize> {
        if self.width > WIDTH {
            let mut elements = self.part.chunks_exact(self.width);
            return elements.position(|element| {
                let number = element[self.offset..].first_chunk();
                number.is_some_and(|bytes| too_high(*bytes))
            });
        }
        let mut numbers = self.part.as_chunks().0.iter();
        let any = (numbers.clone()).fold(false, |any, bytes| any | too_high(*bytes));
        if !any {
            return None;
        }
        numbers.position(|bytes| too_high(*bytes))
    }
}
