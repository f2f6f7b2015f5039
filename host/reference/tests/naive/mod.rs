//! A slow walk over data, one element after the other and without a shortcut,
//! written straight from document 01.

pub mod book;
pub mod descriptor;
pub mod random;
pub mod record;
pub mod rigs;

/// What a descriptor describes.
pub enum Type {
    Scalar {
        code: u8,
        /// The items of an enumeration, else 0.
        items: u32,
    },
    Text,
    Array {
        dimensions: usize,
        element: Box<Type>,
    },
    Cluster(Vec<Type>),
    /// A time stamp and the cluster in it.
    Stamp(Box<Type>),
}

/// A time stamp.
pub fn stamp() -> Type {
    let halves = [0x03, 0x03, 0x07, 0x07].map(|code| Type::Scalar { code, items: 0 });
    Type::Stamp(Box::new(Type::Cluster(halves.into())))
}

/// A number and a place.
pub type Refusal = (u32, usize);

/// The width of each number of a code, and how many it has.
fn numbers(code: u8) -> (usize, usize) {
    match code {
        0x01 | 0x05 | 0x15 | 0x21 => (1, 1),
        0x02 | 0x06 | 0x16 => (2, 1),
        0x03 | 0x07 | 0x17 | 0x09 | 0x19 => (4, 1),
        0x04 | 0x08 | 0x0A | 0x1A => (8, 1),
        0x0B | 0x1B => (16, 1),
        0x0C | 0x1C => (4, 2),
        0x0D | 0x1D => (8, 2),
        0x0E | 0x1E => (16, 2),
        _ => panic!("not a scalar: {code:02X}"),
    }
}

/// A walk that has come this far.
pub struct Walk<'a> {
    data: &'a [u8],
    /// Whether words are read reversed.
    little: bool,
    at: usize,
    pub pieces: u32,
    /// What was passed, each number reversed.
    pub reversed: Vec<u8>,
}

impl<'a> Walk<'a> {
    fn new(data: &'a [u8], little: bool) -> Self {
        Walk {
            data,
            little,
            at: 0,
            pieces: 0,
            reversed: Vec::new(),
        }
    }

    /// Walks the whole data.
    pub fn whole(of: &Type, data: &'a [u8], little: bool) -> Result<Self, Refusal> {
        if data.len() > 65536 {
            return Err((20, 0));
        }
        let mut walk = Walk::new(data, little);
        walk.part(of)?;
        if walk.at < data.len() {
            return Err((25, walk.at));
        }
        Ok(walk)
    }

    /// Whether so many more bytes are there.
    fn has(&self, bytes: u64) -> bool {
        (self.data.len() - self.at) as u64 >= bytes
    }

    /// Passes a number of this width. Returns its low 64 bits.
    fn number(&mut self, width: usize) -> u64 {
        let mut bytes = self.data[self.at..self.at + width].to_vec();
        self.at += width;
        let mut reversed = bytes.clone();
        reversed.reverse();
        if self.little {
            bytes.reverse();
        }
        self.reversed.extend(reversed);
        bytes
            .iter()
            .fold(0, |value, byte| value << 8 | u64::from(*byte))
    }

    fn part(&mut self, of: &Type) -> Result<(), Refusal> {
        match of {
            Type::Scalar { code, items } => self.scalar(*code, *items),
            Type::Text => self.text(),
            Type::Array {
                dimensions,
                element,
            } => {
                let mut left = self.sizes(*dimensions)?;
                while left > 0 {
                    self.part(element)?;
                    left -= 1;
                }
                Ok(())
            }
            Type::Cluster(members) => members.iter().try_for_each(|member| self.part(member)),
            Type::Stamp(cluster) => self.part(cluster),
        }
    }

    fn scalar(&mut self, code: u8, items: u32) -> Result<(), Refusal> {
        let start = self.at;
        let (width, count) = numbers(code);
        if !self.has((width * count) as u64) {
            return Err((21, start));
        }
        let mut last = 0;
        for _ in 0..count {
            last = self.number(width);
        }
        if matches!(code, 0x15..=0x17) && last >= u64::from(items) {
            return Err((23, start));
        }
        self.pieces += 1;
        Ok(())
    }

    fn text(&mut self) -> Result<(), Refusal> {
        let start = self.at;
        if !self.has(4) {
            return Err((21, start));
        }
        let length = self.number(4);
        if length >= 1 << 31 {
            return Err((22, start));
        }
        if !self.has(length) {
            return Err((21, start));
        }
        for _ in 0..length {
            self.reversed.push(self.data[self.at]);
            self.at += 1;
        }
        self.pieces += 1;
        Ok(())
    }

    /// Passes the size words. Returns how many elements follow.
    fn sizes(&mut self, dimensions: usize) -> Result<u128, Refusal> {
        let start = self.at;
        if !self.has(4 * dimensions as u64) {
            return Err((21, start));
        }
        let sizes: Vec<u64> = (0..dimensions).map(|_| self.number(4)).collect();
        if sizes.iter().any(|size| *size >= 1 << 31) {
            return Err((22, start));
        }
        self.pieces += 1;
        Ok(sizes.iter().map(|size| u128::from(*size)).product())
    }
}

/// A part of the data that a path leads to.
pub struct Found<'a> {
    pub of: &'a Type,
    pub start: usize,
    pub end: usize,
}

/// Follows a path through accepted data, or gives the step that is refused.
pub fn find<'a>(top: &'a Type, data: &[u8], path: &[u32]) -> Result<Found<'a>, u32> {
    let mut walk = Walk::new(data, false);
    let mut of = top;
    for (number, step) in path.iter().enumerate() {
        let before = match of {
            Type::Array {
                dimensions,
                element,
            } => {
                if u128::from(*step) >= walk.sizes(*dimensions).unwrap() {
                    return Err(number as u32);
                }
                of = element;
                (0..*step).map(|_| &**element).collect::<Vec<&Type>>()
            }
            Type::Cluster(members) if (*step as usize) < members.len() => {
                of = &members[*step as usize];
                members[..*step as usize].iter().collect()
            }
            Type::Stamp(cluster) if *step == 0 => {
                of = cluster;
                vec![]
            }
            _ => return Err(number as u32),
        };
        before.iter().for_each(|part| walk.part(part).unwrap());
    }
    let start = walk.at;
    walk.part(of).unwrap();
    let end = walk.at;
    Ok(Found { of, start, end })
}

/// The kind and bits of the single number that this part is, if it is one.
pub fn value(of: &Type, bytes: &[u8]) -> Option<(u32, u64)> {
    let Type::Scalar { code, .. } = of else {
        return None;
    };
    let unsigned = || {
        bytes
            .iter()
            .fold(0, |all, byte| all << 8 | u64::from(*byte))
    };
    let signed = match *bytes {
        [a] => i64::from(a as i8),
        [a, b] => i64::from(i16::from_be_bytes([a, b])),
        [a, b, c, d] => i64::from(i32::from_be_bytes([a, b, c, d])),
        [a, b, c, d, e, f, g, h] => i64::from_be_bytes([a, b, c, d, e, f, g, h]),
        _ => 0,
    };
    match code {
        0x01..=0x04 => Some((2, signed as u64)),
        0x05..=0x08 | 0x15..=0x17 => Some((1, unsigned())),
        0x09 | 0x19 => Some((3, unsigned())),
        0x0A | 0x1A => Some((4, unsigned())),
        0x21 => Some((5, u64::from(unsigned() != 0))),
        _ => None,
    }
}
