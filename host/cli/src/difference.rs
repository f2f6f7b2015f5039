//! Where two accepted descriptors first differ, and how. Whether they differ at
//! all is the library's to say.

use crate::descriptor::{BODY, Descriptor};
use crate::words::{code, counted, quoted, thing, unit};

pub struct Difference {
    /// The steps to the type that differs, the same in both.
    pub path: Vec<u32>,
    pub what: String,
    pub first: Side,
    pub second: Side,
}

/// What one of the two has there, and at which byte.
pub struct Side {
    pub place: usize,
    pub text: String,
}

/// The first difference, in the order in which a descriptor is read.
pub fn first(first: &Descriptor, second: &Descriptor) -> Option<Difference> {
    Pair { first, second }.at(0, 0, &[])
}

struct Pair<'a> {
    first: &'a Descriptor<'a>,
    second: &'a Descriptor<'a>,
}

impl Pair<'_> {
    fn at(&self, one: usize, other: usize, path: &[u32]) -> Option<Difference> {
        let found = |(what, first, second)| Difference {
            path: path.to_vec(),
            what,
            first,
            second,
        };
        let head = self.head(one, other).or_else(|| self.body(one, other));
        head.map(found)
            .or_else(|| self.inside(one, other, path))
            .or_else(|| self.name(one, other).map(found))
    }

    fn head(&self, one: usize, other: usize) -> Option<(String, Side, Side)> {
        let (row, twin) = (&self.first.rows[one], &self.second.rows[other]);
        let side = |row: &kerbcanopy::Row, behind: usize, text: String| Side {
            place: usize::from(row.start) + behind,
            text,
        };
        if row.code != twin.code {
            let low = |row: &kerbcanopy::Row| side(row, BODY - 1, code(row.code));
            return Some(("the type".into(), low(row), low(twin)));
        }
        let thing = thing(row.code);
        let count = |row: &kerbcanopy::Row| {
            let text = counted(usize::from(row.count), thing);
            side(row, BODY, text)
        };
        (row.count != twin.count)
            .then(|| (format!("the number of {thing}s"), count(row), count(twin)))
    }

    /// Items and pairs, whose numbers are the same.
    fn body(&self, one: usize, other: usize) -> Option<(String, Side, Side)> {
        let (items, twins) = (self.first.items(one), self.second.items(other));
        if let Some(number) = unlike(&items, &twins) {
            let side = |descriptor: &Descriptor, row: usize, items: &[&[u8]]| Side {
                place: contents(descriptor, row)
                    + items[..number]
                        .iter()
                        .map(|item| 1 + item.len())
                        .sum::<usize>(),
                text: quoted(items[number]),
            };
            let first = side(self.first, one, &items);
            return Some((
                format!("item {number}"),
                first,
                side(self.second, other, &twins),
            ));
        }
        let (pairs, twins) = (self.first.pairs(one), self.second.pairs(other));
        let number = unlike(&pairs, &twins)?;
        let side = |descriptor: &Descriptor, row: usize, pairs: &[(u16, i16)]| Side {
            place: contents(descriptor, row) + 4 * number,
            text: unit(pairs[number]),
        };
        let first = side(self.first, one, &pairs);
        Some((
            format!("unit pair {number}"),
            first,
            side(self.second, other, &twins),
        ))
    }

    fn inside(&self, one: usize, other: usize, path: &[u32]) -> Option<Difference> {
        let twins = self.second.inside(other);
        let pairs = self.first.inside(one).into_iter().zip(twins).enumerate();
        let mut pairs = pairs.map(|(step, (one, other))| {
            let path = [path, &[step as u32]].concat();
            self.at(one, other, &path)
        });
        pairs.find_map(|difference| difference)
    }

    fn name(&self, one: usize, other: usize) -> Option<(String, Side, Side)> {
        let (name, twin) = (self.first.name(one), self.second.name(other));
        let side = |descriptor: &Descriptor, row: usize, name: Option<&[u8]>| {
            let of = &descriptor.rows[row];
            match name {
                // Its length byte.
                Some(name) => Side {
                    place: usize::from(of.name_place) - 1,
                    text: quoted(name),
                },
                None => Side {
                    place: usize::from(of.start) + usize::from(of.size),
                    text: "none".into(),
                },
            }
        };
        let sides = || (side(self.first, one, name), side(self.second, other, twin));
        (name != twin).then(|| {
            let (first, second) = sides();
            ("the name".into(), first, second)
        })
    }
}

/// Where the contents behind the count word start.
fn contents(descriptor: &Descriptor, row: usize) -> usize {
    usize::from(descriptor.rows[row].start) + BODY + 2
}

/// The first place where two lists differ.
fn unlike<T: PartialEq>(first: &[T], second: &[T]) -> Option<usize> {
    first
        .iter()
        .zip(second)
        .position(|(one, other)| one != other)
}

#[cfg(test)]
mod tests {
    use super::*;

    fn words(one: &[u8], other: &[u8]) -> Option<String> {
        let [one, other] = [one, other].map(|bytes| Descriptor::of(bytes).expect("it is accepted"));
        let found = first(&one, &other)?;
        let Side { place, text } = found.first;
        let Side {
            place: at,
            text: twin,
        } = found.second;
        Some(format!(
            "{:?} {}: {text} at {place}, {twin} at {at}",
            found.path, found.what
        ))
    }

    #[test]
    fn each_kind_of_difference_is_named() {
        let cases: [(&[u8], &[u8], &str); 6] = [
            (
                b"\x00\x04\x00\x03",
                b"\x00\x04\x00\x07",
                "[] the type: signed 32-bit integer at 3, unsigned 32-bit integer at 3",
            ),
            (
                b"\x00\x0A\x00\x50\x00\x01\x00\x04\x00\x03",
                b"\x00\x0E\x00\x50\x00\x02\x00\x04\x00\x03\x00\x04\x00\x03",
                "[] the number of members: 1 member at 4, 2 members at 4",
            ),
            (
                b"\x00\x0A\x00\x15\x00\x02\x01a\x01b",
                b"\x00\x0A\x00\x15\x00\x02\x01a\x01c",
                "[] item 1: \"b\" at 8, \"c\" at 8",
            ),
            (
                b"\x00\x0A\x00\x19\x00\x01\x00\x02\x00\x01",
                b"\x00\x0A\x00\x19\x00\x01\x00\x02\x00\x02",
                "[] unit pair 0: s at 6, s^2 at 6",
            ),
            (
                b"\x00\x10\x00\x50\x00\x02\x00\x04\x00\x03\x00\x06\x00\x03\x01a",
                b"\x00\x10\x00\x50\x00\x02\x00\x04\x00\x03\x00\x06\x00\x03\x01b",
                "[1] the name: \"a\" at 14, \"b\" at 14",
            ),
            (
                b"\x00\x06\x00\x03\x00\x00",
                b"\x00\x04\x00\x03",
                "[] the name: \"\" at 4, none at 4",
            ),
        ];
        for (one, other, expected) in cases {
            assert_eq!(words(one, other).as_deref(), Some(expected));
        }
        assert_eq!(words(b"\x00\x04\x40\x03", b"\x00\x04\x00\x03"), None);
    }
}
