//! A slow reading of descriptors, one rule after the other as documents 01 and 02
//! have them.

use super::Refusal;

/// What a time stamp holds, reserved bytes apart.
const HELD: [u8; 22] = *b"\0\x16\0\x50\0\x04\0\x04\0\x03\0\x04\0\x03\0\x04\0\x07\0\x04\0\x07";

/// The row count, or the first refusal.
pub fn judge(bytes: &[u8]) -> Result<usize, Refusal> {
    if bytes.len() > 4096 {
        return Err((1, 0));
    }
    let mut reading = Reading { bytes, rows: 0 };
    let end = reading.descriptor(0, bytes.len(), 1, 0)?;
    if end < bytes.len() {
        return Err((12, end));
    }
    Ok(reading.rows)
}

struct Reading<'a> {
    bytes: &'a [u8],
    rows: usize,
}

impl Reading<'_> {
    fn word(&self, place: usize) -> usize {
        usize::from(self.bytes[place]) << 8 | usize::from(self.bytes[place + 1])
    }

    /// Reads the descriptor at `start` and all that it holds. Returns its end.
    fn descriptor(
        &mut self,
        start: usize,
        parent_end: usize,
        depth: usize,
        parent: u8,
    ) -> Result<usize, Refusal> {
        if parent_end - start < 4 {
            return Err((2, start));
        }
        let (size, code) = (self.word(start), self.bytes[start + 3]);
        let end = start + size;
        match code {
            _ if size >= 0x8000 => return Err((3, start)),
            _ if size % 2 == 1 || size < 4 || end > parent_end => return Err((4, start)),
            0x01..=0x0E | 0x15..=0x17 | 0x19..=0x1E => {}
            0x21 | 0x30 | 0x40 | 0x50 | 0x54 => {}
            _ => return Err((5, start + 3)),
        }
        match code {
            _ if depth == 9 => return Err((6, start)),
            _ if self.rows == 256 => return Err((7, start)),
            0x40 if parent == 0x40 => return Err((10, start + 3)),
            _ => self.rows += 1,
        }
        let mut at = self.body(code, start, end)?;
        let children = match code {
            0x40 | 0x54 => 1,
            0x50 => self.word(start + 4),
            _ => 0,
        };
        for _ in 0..children {
            at = self.descriptor(at, end, depth + 1, code)?;
        }
        if code == 0x54 && !is_held(&self.bytes[start + 6..at]) {
            return Err((10, start));
        }
        match is_name(&self.bytes[at..end]) {
            true => Ok(end),
            false => Err((11, at)),
        }
    }

    /// Returns where the body ends, or what it holds begins.
    fn body(&self, code: u8, start: usize, end: usize) -> Result<usize, Refusal> {
        let first = start + 4;
        match code {
            0x15..=0x17 => self.items(self.count(first, end, 0xFFFF)?, first + 2, end),
            0x19..=0x1E => {
                let pairs = self.count(first, end, 9)?;
                self.words(pairs, first + 2, end, |word| word >> 16 <= 8)
            }
            0x30 => self.words(1, first, end, |word| word == 0xFFFF_FFFF),
            0x40 => {
                let dimensions = self.count(first, end, 4)?;
                self.words(dimensions, first + 2, end, |word| word == 0xFFFF_FFFF)
            }
            0x50 => self.count(first, end, 0xFFFF).map(|_| first + 2),
            0x54 if first == end => Err((8, end)),
            0x54 if self.word(first) != 6 => Err((5, start + 3)),
            0x54 => Ok(first + 2),
            _ => Ok(first),
        }
    }

    fn count(&self, place: usize, end: usize, most: usize) -> Result<usize, Refusal> {
        if place == end {
            return Err((8, end));
        }
        match self.word(place) {
            0 => Err((9, place)),
            count if count > most => Err((9, place)),
            count => Ok(count),
        }
    }

    fn words(
        &self,
        count: usize,
        first: usize,
        end: usize,
        right: fn(usize) -> bool,
    ) -> Result<usize, Refusal> {
        let behind = first + 4 * count;
        if behind > end {
            return Err((8, end));
        }
        for place in (first..behind).step_by(4) {
            if !right(self.word(place) << 16 | self.word(place + 2)) {
                return Err((10, place));
            }
        }
        Ok(behind)
    }

    /// Sizes are even, so a fill byte that is needed is there.
    fn items(&self, count: usize, first: usize, end: usize) -> Result<usize, Refusal> {
        let mut at = first;
        for _ in 0..count {
            if at == end {
                return Err((8, end));
            }
            at += 1 + usize::from(self.bytes[at]);
            if at > end {
                return Err((8, end));
            }
        }
        match at % 2 {
            0 => Ok(at),
            _ if self.bytes[at] == 0 => Ok(at + 1),
            _ => Err((10, at)),
        }
    }
}

fn is_held(descriptor: &[u8]) -> bool {
    let reserved = [2, 8, 12, 16, 20];
    let alike = |place: usize| descriptor[place] == HELD[place] || reserved.contains(&place);
    descriptor.len() == HELD.len() && (0..HELD.len()).all(alike)
}

/// Nothing, or a length, so many characters and a zero where the sum is odd.
fn is_name(left: &[u8]) -> bool {
    let Some(length) = left.first() else {
        return true;
    };
    let end = 1 + usize::from(*length);
    left.len() == end.next_multiple_of(2) && left[end..].iter().all(|fill| *fill == 0)
}
