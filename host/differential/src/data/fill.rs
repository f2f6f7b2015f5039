//! Well-formed data for a tree, at random, with what the generator knows of it:
//! both byte orders, the pieces, and some of the parts with their values.

use std::slice;

use super::both::Both;
use super::scalar::{self, Value};
use crate::random::Random;
use crate::tree::{Body, Tree};

/// The most parts that are noted.
const MOST_PARTS: usize = 300;

pub struct Flattened {
    pub data: Both,
    pub pieces: Vec<Piece>,
    /// The whole data comes last.
    pub parts: Vec<Part>,
}

/// One piece: a scalar, a whole string, or the size words of an array.
#[derive(Clone, Copy)]
pub struct Piece {
    pub start: usize,
    pub length: usize,
    pub of: Of,
    pub depth: usize,
}

#[derive(Clone, Copy)]
pub enum Of {
    /// Numbers of this many bytes with nothing to judge.
    Numbers(usize),
    /// A number below this many items.
    Enumeration(usize),
    Text,
    Sizes,
}

/// How a part stands in the one around it.
#[derive(Clone, Copy)]
pub enum Standing {
    Top,
    Member,
    Element,
}

/// A part, how many steps lead on from it, and its value if it has one.
pub struct Part {
    pub code: u8,
    pub standing: Standing,
    pub path: Vec<u32>,
    pub start: usize,
    pub length: usize,
    pub steps: u32,
    pub value: Value,
}

/// The bytes that data of this type has at least.
pub fn least(tree: &Tree) -> usize {
    match &tree.body {
        Body::Plain(code) | Body::Quantity(code, _) | Body::Enumeration(code, _) => {
            scalar::width(*code)
        }
        Body::Text => 4,
        Body::Array(dimensions, _) => 4 * usize::from(*dimensions),
        Body::Cluster(members) => members.iter().map(least).sum(),
        Body::Stamp(_, held) => least(held),
    }
}

/// Data of this many bytes at most, if the tree allows so few.
pub fn fill(random: &mut Random, tree: &Tree, most: usize) -> Flattened {
    fill_up(random, tree, most, None)
}

/// The same, but the string or array at this path takes all that it can.
pub fn fill_up(random: &mut Random, tree: &Tree, most: usize, greedy: Option<&[u32]>) -> Flattened {
    let mut filler = Filler {
        random,
        spare: most.saturating_sub(least(tree)),
        greedy,
        path: Vec::new(),
        noted: true,
        filled: Flattened {
            data: Both::new(),
            pieces: Vec::new(),
            parts: Vec::new(),
        },
    };
    filler.tree(tree, Standing::Top);
    filler.filled
}

struct Filler<'a> {
    random: &'a mut Random,
    /// The bytes that may be taken beyond what the tree needs at least.
    spare: usize,
    /// The path of what takes them all.
    greedy: Option<&'a [u32]>,
    path: Vec<u32>,
    /// Whether the part that is being filled is noted.
    noted: bool,
    filled: Flattened,
}

impl Filler<'_> {
    fn tree(&mut self, tree: &Tree, standing: Standing) {
        let start = self.filled.data.len();
        let (steps, value) = match &tree.body {
            Body::Plain(0x21) => (0, self.flag()),
            Body::Plain(code) | Body::Quantity(code, _) => (0, self.numbers(*code)),
            Body::Enumeration(code, items) => (0, self.enumeration(*code, items.len())),
            Body::Text => (0, self.text()),
            Body::Array(dimensions, element) => {
                (self.array(usize::from(*dimensions), element), None)
            }
            Body::Cluster(members) => (self.members(members), None),
            Body::Stamp(_, held) => (self.members(slice::from_ref(held)), None),
        };
        let room = self.filled.parts.len() < MOST_PARTS || self.path.is_empty();
        if self.noted && room {
            self.filled.parts.push(Part {
                code: tree.body.code(),
                standing,
                path: self.path.clone(),
                start,
                length: self.filled.data.len() - start,
                steps,
                value,
            });
        }
    }

    /// Notes the piece that ends where the data does now.
    fn piece(&mut self, length: usize, of: Of) {
        let start = self.filled.data.len() - length;
        let depth = self.path.len() + 1;
        self.filled.pieces.push(Piece {
            start,
            length,
            of,
            depth,
        });
    }

    /// Any byte; those at which a reading may go wrong come more often.
    fn flag(&mut self) -> Value {
        let any = self.random.byte();
        let byte = self.random.pick(&[0, 1, 2, 0xFF, any]);
        self.filled.data.push_plain(&[byte]);
        self.piece(1, Of::Numbers(1));
        scalar::value(0x21, &[byte])
    }

    fn numbers(&mut self, code: u8) -> Value {
        let (bytes, count) = scalar::numbers(code);
        let mut all = Vec::new();
        for _ in 0..count {
            let number = scalar::any(self.random, bytes);
            self.filled.data.push_number(&number);
            all.extend(number);
        }
        self.piece(all.len(), Of::Numbers(bytes));
        scalar::value(code, &all)
    }

    fn enumeration(&mut self, code: u8, items: usize) -> Value {
        let bytes = scalar::width(code);
        let highest = (items - 1).min((1 << (8 * bytes)) - 1);
        let number = match self.random.below(4) {
            0 => highest,
            1 => 0,
            _ => self.random.between(0, highest),
        };
        let number = &(number as u32).to_be_bytes()[4 - bytes..];
        self.filled.data.push_number(number);
        self.piece(bytes, Of::Enumeration(items));
        scalar::value(code, number)
    }

    fn text(&mut self) -> Value {
        let length = match self.random.below(6) {
            _ if self.is_greedy() => self.spare,
            0 => 0,
            1 => self.random.below(300),
            2 => self.random.pick(&[30, 31, 32, 33, 255, 256]),
            _ => self.random.below(9),
        };
        let length = length.min(self.spare);
        self.spare -= length;
        let characters = self.random.bytes(length);
        self.filled.data.push_number(&(length as u32).to_be_bytes());
        self.filled.data.push_plain(&characters);
        self.piece(4 + length, Of::Text);
        None
    }

    fn is_greedy(&self) -> bool {
        self.greedy == Some(&self.path[..])
    }

    /// Fills each member. Returns how many there are.
    fn members(&mut self, members: &[Tree]) -> u32 {
        for (step, member) in (0..).zip(members) {
            self.path.push(step);
            self.tree(member, Standing::Member);
            self.path.pop();
        }
        members.len() as u32
    }

    /// Fills the elements, of which the first two, the last and one by chance are
    /// noted. Returns how many there are.
    fn array(&mut self, dimensions: usize, element: &Tree) -> u32 {
        let sizes = self.sizes(dimensions, element);
        for size in &sizes {
            self.filled.data.push_number(&size.to_be_bytes());
        }
        self.piece(4 * dimensions, Of::Sizes);
        if sizes.contains(&0) {
            return 0;
        }
        let count = sizes.iter().product();
        self.spare -= count as usize * least(element);
        let (noted, chosen) = (self.noted, self.random.below(count as usize) as u32);
        for step in 0..count {
            self.noted = noted && (step < 2 || step == count - 1 || step == chosen);
            self.path.push(step);
            self.tree(element, Standing::Element);
            self.path.pop();
        }
        self.noted = noted;
        count
    }

    /// Sizes of no elements, or of as many as there is room for at most.
    fn sizes(&mut self, dimensions: usize, element: &Tree) -> Vec<u32> {
        let most = self.spare / least(element);
        if most == 0 || (self.random.once_in(6) && !self.is_greedy()) {
            return self.sizes_of_none(dimensions);
        }
        let target = match self.random.below(8) {
            _ if self.is_greedy() => most,
            0 => most,
            2 => self.random.pick(&[254, 255, 256]).min(most),
            1 => 1,
            _ => self.random.between(1, 9).min(most),
        };
        let mut sizes = vec![1; dimensions];
        if dimensions == 1 {
            sizes[0] = target as u32;
            return sizes;
        }
        let mut count = 1;
        for _ in 0..12 {
            let factor = self.random.between(2, 5);
            if count * factor <= target {
                count *= factor;
                sizes[self.random.below(dimensions)] *= factor as u32;
            }
        }
        sizes
    }

    /// Sizes of which one is 0 and the others may be anything.
    fn sizes_of_none(&mut self, dimensions: usize) -> Vec<u32> {
        let choices = [0, 1, 2, 3, 0xFFFF, 0x1_0000, 0x7FFF_FFFF];
        let mut sizes: Vec<u32> = (0..dimensions)
            .map(|_| self.random.pick(&choices))
            .collect();
        sizes[self.random.below(dimensions)] = 0;
        sizes
    }
}
