//! Buffers to lend, of bytes, a path's steps or places for identifiers: in the middle
//! of a larger buffer whose other items stand guard, or in an allocation of exactly the
//! right length.

use crate::random::Random;

/// What stands around a lent buffer.
#[derive(Clone, Copy)]
pub struct Around {
    lead: usize,
    fill: u8,
    exact: bool,
}

impl Around {
    pub fn new(random: &mut Random, exact: bool) -> Around {
        Around {
            lead: random.between(16, 31),
            fill: random.byte(),
            exact,
        }
    }

    /// Other bytes around, at another place.
    pub fn other(self) -> Around {
        Around {
            lead: self.lead + 3,
            fill: !self.fill,
            exact: self.exact,
        }
    }
}

pub struct Lent<T = u8> {
    buffer: Box<[T]>,
    before: Box<[T]>,
    start: usize,
    length: usize,
}

impl<T: Copy + PartialEq + From<u8>> Lent<T> {
    /// Lends a copy of `items`; `beyond` stands directly behind it.
    pub fn new(items: &[T], beyond: &[T], around: Around) -> Lent<T> {
        let (buffer, start) = if around.exact {
            (Box::from(items), 0)
        } else {
            let length = around.lead + items.len() + beyond.len() + 24;
            let mut buffer = vec![T::from(around.fill); length];
            let end = around.lead + items.len();
            buffer[around.lead..end].copy_from_slice(items);
            buffer[end..end + beyond.len()].copy_from_slice(beyond);
            (buffer.into_boxed_slice(), around.lead)
        };
        Lent {
            before: buffer.clone(),
            buffer,
            start,
            length: items.len(),
        }
    }

    pub fn items(&self) -> &[T] {
        &self.buffer[self.start..self.start + self.length]
    }

    pub fn items_mut(&mut self) -> &mut [T] {
        &mut self.buffer[self.start..self.start + self.length]
    }

    /// Whether every item, lent or guard, is as it was.
    pub fn untouched(&self) -> bool {
        self.buffer == self.before
    }

    /// Whether only the first `written` lent items may have changed.
    pub fn untouched_beyond(&self, written: usize) -> bool {
        let end = self.start + written;
        self.buffer[..self.start] == self.before[..self.start]
            && self.buffer[end..] == self.before[end..]
    }
}

impl Lent {
    /// Lends room of this length, filled with one byte.
    pub fn room(length: usize, fill: u8, around: Around) -> Lent {
        Lent::new(&vec![fill; length], &[], around)
    }

    pub fn bytes(&self) -> &[u8] {
        self.items()
    }

    pub fn bytes_mut(&mut self) -> &mut [u8] {
        self.items_mut()
    }
}
