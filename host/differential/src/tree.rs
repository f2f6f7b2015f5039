//! Descriptors as trees, and their encoder, which also says what the table's
//! rows must be. It shares no code with either implementation.

use reference::{MOST_BYTES, MOST_DEPTH, MOST_ROWS};

/// A row as the generator states it: code, start, size, depth, count, name
/// place, name length.
pub type StatedRow = [u16; 7];

#[derive(Clone, PartialEq, Eq)]
pub struct Tree {
    pub body: Body,
    pub name: Option<Vec<u8>>,
}

#[derive(Clone, PartialEq, Eq)]
pub enum Body {
    Plain(u8),
    /// A code and the items.
    Enumeration(u8, Vec<Vec<u8>>),
    /// A code and the pairs of base index and exponent.
    Quantity(u8, Vec<[u16; 2]>),
    Text,
    /// A dimension count and the element.
    Array(u16, Box<Tree>),
    Cluster(Vec<Tree>),
    /// A time stamp: a subtype and what it holds.
    Stamp(u16, Box<Tree>),
}

/// A tree's bytes and the rows that its table must have.
#[derive(Clone, Default)]
pub struct Encoded {
    pub bytes: Vec<u8>,
    pub rows: Vec<StatedRow>,
}

impl Tree {
    pub fn unnamed(body: Body) -> Tree {
        Tree { body, name: None }
    }

    /// Whether every count and index keeps its limits, no array is an array's element
    /// and every time stamp is one.
    pub fn is_lawful(&self) -> bool {
        match &self.body {
            Body::Plain(_) | Body::Text => true,
            Body::Enumeration(_, items) => !items.is_empty(),
            Body::Quantity(_, pairs) => {
                (1..=9).contains(&pairs.len()) && pairs.iter().all(|[base, _]| *base <= 8)
            }
            Body::Array(dimensions, element) => {
                (1..=4).contains(dimensions)
                    && !matches!(element.body, Body::Array(..))
                    && element.is_lawful()
            }
            Body::Cluster(members) => !members.is_empty() && members.iter().all(Tree::is_lawful),
            Body::Stamp(subtype, held) => *subtype == 6 && **held == halves(),
        }
    }

    /// Encodes the tree, asking `reserved` for each reserved byte.
    pub fn encode(&self, reserved: &mut dyn FnMut() -> u8) -> Encoded {
        let mut encoded = Encoded::default();
        self.append(&mut encoded, 1, reserved);
        encoded
    }

    /// Encodes the tree with every reserved byte zero.
    pub fn normal_form(&self) -> Encoded {
        self.encode(&mut || 0)
    }

    fn append(&self, to: &mut Encoded, depth: u16, reserved: &mut dyn FnMut() -> u8) {
        let start = to.bytes.len();
        let row = to.rows.len();
        to.bytes.extend([0, 0, reserved(), self.body.code()]);
        to.rows.push([0; 7]);
        self.body.append(to, depth, reserved);
        let (name_place, name_length) = append_name(&self.name, &mut to.bytes);
        let size = (to.bytes.len() - start) as u16;
        to.bytes[start..start + 2].copy_from_slice(&size.to_be_bytes());
        let code = u16::from(self.body.code());
        let count = self.body.count();
        to.rows[row] = [
            code,
            start as u16,
            size,
            depth,
            count,
            name_place,
            name_length,
        ];
    }
}

/// Whether a tree that breaks no other rule keeps the limits of bytes, rows and
/// depth.
pub fn fits(tree: &Tree) -> bool {
    let encoded = tree.normal_form();
    let deepest = encoded.rows.iter().map(|row| row[3]).max();
    encoded.bytes.len() <= MOST_BYTES
        && encoded.rows.len() <= MOST_ROWS
        && usize::from(deepest.unwrap_or(0)) <= MOST_DEPTH
}

/// What a time stamp holds: the halves of its seconds and of its fraction.
pub fn halves() -> Tree {
    let members = [0x03, 0x03, 0x07, 0x07].map(|code| Tree::unnamed(Body::Plain(code)));
    Tree::unnamed(Body::Cluster(members.into()))
}

impl Body {
    pub fn stamp() -> Body {
        Body::Stamp(6, Box::new(halves()))
    }

    pub fn code(&self) -> u8 {
        match self {
            Body::Plain(code) | Body::Enumeration(code, _) | Body::Quantity(code, _) => *code,
            Body::Text => 0x30,
            Body::Array(..) => 0x40,
            Body::Cluster(_) => 0x50,
            Body::Stamp(..) => 0x54,
        }
    }

    fn count(&self) -> u16 {
        match self {
            Body::Plain(_) | Body::Text | Body::Stamp(..) => 0,
            Body::Enumeration(_, items) => items.len() as u16,
            Body::Quantity(_, pairs) => pairs.len() as u16,
            Body::Array(dimensions, _) => *dimensions,
            Body::Cluster(members) => members.len() as u16,
        }
    }

    fn append(&self, to: &mut Encoded, depth: u16, reserved: &mut dyn FnMut() -> u8) {
        if !matches!(self, Body::Plain(_) | Body::Text | Body::Stamp(..)) {
            to.bytes.extend(self.count().to_be_bytes());
        }
        match self {
            Body::Plain(_) => {}
            Body::Text => to.bytes.extend([0xFF; 4]),
            Body::Enumeration(_, items) => append_items(items, &mut to.bytes),
            Body::Quantity(_, pairs) => {
                let words = pairs.iter().flatten();
                to.bytes.extend(words.flat_map(|word| word.to_be_bytes()));
            }
            Body::Array(dimensions, element) => {
                to.bytes.extend(vec![0xFF; 4 * usize::from(*dimensions)]);
                element.append(to, depth + 1, reserved);
            }
            Body::Cluster(members) => {
                for member in members {
                    member.append(to, depth + 1, reserved);
                }
            }
            Body::Stamp(subtype, held) => {
                to.bytes.extend(subtype.to_be_bytes());
                held.append(to, depth + 1, reserved);
            }
        }
    }
}

/// The strings packed, then the fill byte. Descriptors start at even places, so
/// the length so far is odd exactly when the place is.
fn append_items(items: &[Vec<u8>], bytes: &mut Vec<u8>) {
    for item in items {
        bytes.push(item.len() as u8);
        bytes.extend(item);
    }
    if bytes.len() % 2 == 1 {
        bytes.push(0);
    }
}

/// Appends the name if there is one. Returns its place and length.
fn append_name(name: &Option<Vec<u8>>, bytes: &mut Vec<u8>) -> (u16, u16) {
    let Some(name) = name else {
        return (0, 0);
    };
    bytes.push(name.len() as u8);
    let place = bytes.len() as u16;
    bytes.extend(name);
    if bytes.len() % 2 == 1 {
        bytes.push(0);
    }
    (place, name.len() as u16)
}
