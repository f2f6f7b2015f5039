//! What each code looks like in data: its width, and the numbers it is made of.

/// What a code asks of a walk over data.
#[derive(Clone, Copy, PartialEq, Eq)]
pub(crate) enum Act {
    /// A scalar that can't be refused.
    Plain,
    /// An enumeration, which may be too high.
    Limited,
    Text,
    Array,
    /// Nothing, as for a time stamp: what it holds follows.
    Cluster,
}

/// A code's width in data and that of each number in it (a complex number has
/// two); both are 0 where the code has no fixed width.
#[derive(Clone, Copy)]
pub(crate) struct Shape {
    pub(crate) act: Act,
    pub(crate) width: u8,
    pub(crate) unit: u8,
}

const fn shape(act: Act, width: u8, unit: u8) -> Shape {
    Shape { act, width, unit }
}

const fn shape_of(code: usize) -> Shape {
    match code {
        0x01 | 0x05 | 0x21 => shape(Act::Plain, 1, 1),
        0x02 | 0x06 => shape(Act::Plain, 2, 2),
        0x03 | 0x07 | 0x09 | 0x19 => shape(Act::Plain, 4, 4),
        0x04 | 0x08 | 0x0A | 0x1A => shape(Act::Plain, 8, 8),
        0x0B | 0x1B => shape(Act::Plain, 16, 16),
        0x0C | 0x1C => shape(Act::Plain, 8, 4),
        0x0D | 0x1D => shape(Act::Plain, 16, 8),
        0x0E | 0x1E => shape(Act::Plain, 32, 16),
        0x15 => shape(Act::Limited, 1, 1),
        0x16 => shape(Act::Limited, 2, 2),
        0x17 => shape(Act::Limited, 4, 4),
        0x30 => shape(Act::Text, 0, 0),
        0x40 => shape(Act::Array, 0, 0),
        _ => shape(Act::Cluster, 0, 0),
    }
}

/// The shape of every low code byte.
pub(crate) const SHAPES: [Shape; 256] = {
    let mut shapes = [shape(Act::Cluster, 0, 0); 256];
    let mut code = 0;
    while code < shapes.len() {
        shapes[code] = shape_of(code);
        code += 1;
    }
    shapes
};
