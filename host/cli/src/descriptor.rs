//! An accepted descriptor and the rows that the library made of it.

use kerbcanopy::Row;

/// Where a descriptor's low code byte stands, from its own start.
pub const CODE: usize = 3;
/// Where a descriptor's body starts, from its own start: behind size and code.
pub const BODY: usize = 4;
/// Where the contents behind a count word start.
const CONTENTS: usize = BODY + 2;

pub struct Descriptor<'a> {
    pub bytes: &'a [u8],
    pub rows: Vec<Row>,
}

impl<'a> Descriptor<'a> {
    /// The rows of an accepted descriptor; none where it is refused.
    pub fn of(bytes: &'a [u8]) -> Option<Descriptor<'a>> {
        let checked = kerbcanopy::check_descriptor(bytes);
        // Where it is refused, the place is no row count.
        (checked.answer.number == 0).then(|| Descriptor {
            bytes,
            rows: checked.rows[..checked.answer.place as usize].to_vec(),
        })
    }

    /// The row's own descriptor, which can be read by itself.
    pub fn own(&self, row: usize) -> &'a [u8] {
        let start = usize::from(self.rows[row].start);
        &self.bytes[start..start + usize::from(self.rows[row].size)]
    }

    /// The rows of the descriptors directly inside this one.
    pub fn inside(&self, row: usize) -> Vec<usize> {
        let depth = self.rows[row].depth;
        let behind = self.rows[row + 1..].iter();
        let subtree = behind.take_while(|other| other.depth > depth);
        let inside = subtree.enumerate();
        inside
            .filter(|(_, other)| other.depth == depth + 1)
            .map(|(index, _)| row + 1 + index)
            .collect()
    }

    /// The name; none where there is none, which an empty one is not.
    pub fn name(&self, row: usize) -> Option<&'a [u8]> {
        let of = &self.rows[row];
        let start = usize::from(of.name_place);
        (start > 0).then(|| &self.bytes[start..start + usize::from(of.name_length)])
    }

    /// An enumeration's items; none of another type.
    pub fn items(&self, row: usize) -> Vec<&'a [u8]> {
        let count = match self.rows[row].code {
            0x15..=0x17 => usize::from(self.rows[row].count),
            _ => 0,
        };
        let mut rest = self.own(row).get(CONTENTS..).unwrap_or_default();
        let mut items = Vec::new();
        for _ in 0..count {
            let Some((length, characters)) = rest.split_first() else {
                break;
            };
            let (item, behind) = characters.split_at(usize::from(*length).min(characters.len()));
            items.push(item);
            rest = behind;
        }
        items
    }

    /// A physical quantity's pairs of base index and exponent; none of another type.
    pub fn pairs(&self, row: usize) -> Vec<(u16, i16)> {
        let count = match self.rows[row].code {
            0x19..=0x1E => usize::from(self.rows[row].count),
            _ => 0,
        };
        let contents = self.own(row).get(CONTENTS..).unwrap_or_default();
        let pairs = contents.as_chunks::<4>().0.iter().take(count);
        pairs
            .map(|&[a, b, c, d]| (u16::from_be_bytes([a, b]), i16::from_be_bytes([c, d])))
            .collect()
    }

    /// How many bytes a scalar's data has, asked of the library: zeros are data of
    /// every scalar. None for a type with parts or a string.
    pub fn width(&self, row: usize) -> Option<usize> {
        if matches!(self.rows[row].code, 0x30 | 0x40 | 0x50 | 0x54) {
            return None;
        }
        let accepted = |width: &usize| {
            let zeros = &[0; 32][..*width];
            kerbcanopy::check_data(self.own(row), zeros).number == 0
        };
        [1, 2, 4, 8, 16, 32].into_iter().find(accepted)
    }
}

#[cfg(test)]
mod tests {
    use super::*;

    const RIG: &[u8] = b"\x00\x1C\x00\x50\x00\x03\x00\x06\x00\x02\x01t\x00\x0A\x00\x50\x00\x01\x00\x04\x00\x0C\x00\x06\x00\x07\x00\x00";

    #[test]
    fn rows_inside_and_names() {
        let rig = Descriptor::of(RIG).expect("it is accepted");
        assert_eq!(rig.inside(0), [1, 2, 4]);
        assert_eq!(rig.inside(2), [3]);
        assert_eq!(rig.inside(1), [0; 0]);
        let names: Vec<_> = (0..5).map(|row| rig.name(row)).collect();
        assert_eq!(names, [None, Some(&b"t"[..]), None, None, Some(b"")]);
        assert_eq!(rig.own(3), [0, 4, 0, 0x0C]);
    }

    #[test]
    fn widths_are_the_library_s() {
        let rig = Descriptor::of(RIG).expect("it is accepted");
        let widths: Vec<_> = (0..5).map(|row| rig.width(row)).collect();
        assert_eq!(widths, [None, Some(2), None, Some(8), Some(4)]);
    }

    #[test]
    fn items_and_pairs() {
        let modes = b"\x00\x0E\x00\x15\x00\x03\x02on\x00\x03off";
        let modes = Descriptor::of(modes).expect("it is accepted");
        assert_eq!(modes.items(0), [&b"on"[..], b"", b"off"]);
        assert_eq!(modes.pairs(0), []);
        let speed = b"\x00\x0E\x00\x1A\x00\x02\x00\x02\xFF\xFF\x00\x03\x00\x01";
        let speed = Descriptor::of(speed).expect("it is accepted");
        assert_eq!(speed.pairs(0), [(2, -1), (3, 1)]);
        assert!(speed.items(0).is_empty());
    }
}
