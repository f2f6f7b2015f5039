//! Which codes are carried, and what kind of body each has.

/// The kind of a descriptor's body, by its low code byte.
#[derive(Clone, Copy, PartialEq, Eq)]
pub(crate) enum Kind {
    /// The code is not carried.
    Foreign,
    /// No body: numbers and Booleans.
    Plain,
    Enumeration,
    Quantity,
    Text,
    Array,
    Cluster,
    /// A time stamp, or another of the types that share its code.
    Stamp,
}

const fn kind_of(code: usize) -> Kind {
    match code {
        0x01..=0x0E | 0x21 => Kind::Plain,
        0x15..=0x17 => Kind::Enumeration,
        0x19..=0x1E => Kind::Quantity,
        0x30 => Kind::Text,
        0x40 => Kind::Array,
        0x50 => Kind::Cluster,
        0x54 => Kind::Stamp,
        _ => Kind::Foreign,
    }
}

/// The kind of every low code byte.
pub(crate) const KINDS: [Kind; 256] = {
    let mut kinds = [Kind::Foreign; 256];
    let mut code = 0;
    while code < kinds.len() {
        kinds[code] = kind_of(code);
        code += 1;
    }
    kinds
};
