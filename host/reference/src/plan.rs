//! An array's element turned into the steps of a walk over its data, so that
//! many elements are walked in little time. Clusters and time stamps leave no trace,
//! since what they hold simply follows, and neighbouring scalars are joined.

use std::ops::Range;

use crate::MOST_DEPTH;
use crate::rows::Rows;
use crate::shape::{Act, Shape};

/// One step of a walk.
#[derive(Clone, Copy)]
pub(crate) enum Op {
    Numbers(Numbers),
    /// A number of one byte with a limit.
    Byte(Limit),
    /// A number of two bytes with a limit.
    Half(Limit),
    /// A number of four bytes with a limit.
    Word(Limit),
    Text,
    /// An array of so many dimensions; its element's steps follow.
    Array(u8, Element),
}

/// Scalars side by side that are passed at once.
#[derive(Clone, Copy)]
pub(crate) struct Numbers {
    /// The width of each number in the first scalar.
    pub(crate) unit: u8,
    pub(crate) pieces: u8,
    pub(crate) bytes: u16,
    /// The row of the first scalar.
    pub(crate) row: u16,
}

/// The highest number of an enumeration; a higher one is refused with 23.
#[derive(Clone, Copy)]
pub(crate) struct Limit {
    pub(crate) most: u16,
}

/// What is known of an element: how many steps it takes, and its pieces and
/// bytes, which are 0 where they vary.
#[derive(Clone, Copy, Default)]
pub(crate) struct Element {
    pub(crate) pieces: u8,
    pub(crate) steps: u16,
    pub(crate) width: u16,
}

/// Which neighbouring scalars a walk can pass at once.
#[derive(Clone, Copy, PartialEq, Eq)]
pub(crate) enum Join {
    /// Those with nothing to judge.
    Plain,
    /// Those made of numbers of one width.
    SameUnit,
    /// Any: only lengths matter.
    All,
}

impl Op {
    /// The step of an enumeration.
    fn limited(width: u8, limit: Limit) -> Op {
        match width {
            1 => Op::Byte(limit),
            2 => Op::Half(limit),
            _ => Op::Word(limit),
        }
    }

    /// The bytes and pieces of a step of fixed width.
    pub(crate) fn fixed(&self) -> Option<(u16, u8)> {
        match self {
            Op::Numbers(numbers) => Some((numbers.bytes, numbers.pieces)),
            Op::Byte(_) => Some((1, 1)),
            Op::Half(_) => Some((2, 1)),
            Op::Word(_) => Some((4, 1)),
            Op::Text | Op::Array(..) => None,
        }
    }
}

impl Numbers {
    /// The scalar of this shape and row alone.
    #[inline(always)]
    pub(crate) fn of(shape: Shape, row: usize) -> Numbers {
        Numbers {
            unit: shape.unit,
            pieces: 1,
            bytes: u16::from(shape.width),
            row: row as u16,
        }
    }
}

impl Limit {
    /// That of an enumeration's row.
    #[inline(always)]
    pub(crate) fn of(rows: Rows, row: usize) -> Limit {
        let most = rows.count(row) - 1;
        Limit { most }
    }
}

impl Element {
    /// What is known of the element with these steps.
    fn of(ops: &[Op]) -> Element {
        let mut element = Element {
            steps: ops.len() as u16,
            ..Element::default()
        };
        for op in ops {
            let Some((bytes, pieces)) = op.fixed() else {
                (element.width, element.pieces) = (0, 0);
                break;
            };
            element.width += bytes;
            element.pieces += pieces;
        }
        element
    }
}

/// Turns an element's rows into steps, at most one for each. `ops` has room.
#[inline(never)]
pub(crate) fn plan(rows: Rows, range: Range<usize>, join: Join, ops: &mut [Op]) -> Element {
    let mut planner = Planner {
        ops,
        used: 0,
        bound: 0,
        join,
    };
    // The steps of the arrays whose element is being read, and the rows behind
    // these arrays.
    let mut arrays = [(0, 0); MOST_DEPTH / 2];
    let mut depth = 0;
    for row in range {
        while depth > 0 && arrays[depth - 1].1 == row {
            depth -= 1;
            planner.end_array(arrays[depth].0);
        }
        let shape = rows.shape(row);
        match shape.act {
            Act::Cluster => {}
            Act::Limited if join == Join::Plain => {
                planner.push(Op::limited(shape.width, Limit::of(rows, row)));
            }
            Act::Plain | Act::Limited => planner.join(shape, row),
            Act::Text => planner.push(Op::Text),
            Act::Array => {
                arrays[depth] = (planner.used, rows.behind(row));
                depth += 1;
                planner.push(Op::Array(rows.count(row) as u8, Element::default()));
            }
        }
    }
    while depth > 0 {
        depth -= 1;
        planner.end_array(arrays[depth].0);
    }
    Element::of(&planner.ops[..planner.used])
}

/// Adds one step after the other.
struct Planner<'a> {
    ops: &'a mut [Op],
    used: usize,
    /// Nothing is joined to steps before this one.
    bound: usize,
    join: Join,
}

impl Planner<'_> {
    #[inline(always)]
    fn push(&mut self, op: Op) {
        self.ops[self.used] = op;
        self.used += 1;
    }

    /// Adds a scalar, or joins it to the step before if the walk allows that.
    #[inline(always)]
    fn join(&mut self, shape: Shape, row: usize) {
        let any_unit = self.join != Join::SameUnit;
        match self.ops[self.bound..self.used].last_mut() {
            Some(Op::Numbers(before)) if any_unit || before.unit == shape.unit => {
                before.bytes += u16::from(shape.width);
                before.pieces += 1;
            }
            _ => self.push(Op::Numbers(Numbers::of(shape, row))),
        }
    }

    /// Ends the array whose own step is this one.
    fn end_array(&mut self, step: usize) {
        let known = Element::of(&self.ops[step + 1..self.used]);
        if let Op::Array(_, element) = &mut self.ops[step] {
            *element = known;
        }
        self.bound = self.used;
    }
}
