//! The way along the data that every walk takes. A row is met once unless it
//! belongs to an element, so rows are walked as they are and only elements are
//! planned. Outer arrays wait on a small stack, so there is no recursion.

use std::mem::replace;
use std::ops::Range;

use crate::plan::{Element, Join, Limit, Numbers, Op, plan};
use crate::rows::Rows;
use crate::shape::Act;
use crate::{MOST_DEPTH, MOST_ROWS};

/// So few elements are walked one by one if they aren't joined scalars.
pub(crate) const FEW: usize = 4;

/// The cursor of a walk: how far it is, and what it does on its way.
pub(crate) trait Cursor: Sized {
    type Refusal;
    const JOIN: Join;
    /// Is told of each row before it is passed, those of elements apart.
    #[inline(always)]
    fn meet(&mut self, _row: usize) {}
    /// Passes scalars that are joined.
    fn numbers(&mut self, numbers: Numbers) -> Result<(), Self::Refusal>;
    /// Passes a scalar of one, two or four bytes with a limit.
    fn limited(&mut self, width: u8, limit: Limit) -> Result<(), Self::Refusal>;
    fn text(&mut self) -> Result<(), Self::Refusal>;
    /// Passes an array's size words. Returns how many elements it has.
    fn sizes(&mut self, dimensions: u8) -> Result<u64, Self::Refusal>;
    /// Passes elements of a fixed width as far as it can at once. Returns how
    /// many are left to be walked.
    fn block(&mut self, ops: &[Op], element: Element, count: u64) -> Result<u64, Self::Refusal>;
}

/// Walks rows once, each with all that it holds.
#[inline(always)]
pub(crate) fn walk_rows<C: Cursor>(
    rows: Rows,
    range: Range<usize>,
    mut cursor: C,
) -> Result<C, C::Refusal> {
    let mut row = range.start;
    while row < range.end {
        cursor.meet(row);
        let shape = rows.shape(row);
        match shape.act {
            Act::Plain => cursor.numbers(Numbers::of(shape, row))?,
            Act::Limited => cursor.limited(shape.width, Limit::of(rows, row))?,
            Act::Text => cursor.text()?,
            Act::Cluster => {}
            Act::Array => {
                let behind = rows.behind(row);
                let count = cursor.sizes(rows.count(row) as u8)?;
                if count > 0 {
                    cursor = walk_elements(rows, row + 1..behind, count, cursor)?;
                }
                row = behind;
                continue;
            }
        }
        row += 1;
    }
    Ok(cursor)
}

/// Walks that many elements with these rows, at least one. The table for their
/// steps is the smallest that is surely large enough.
#[inline(always)]
pub(crate) fn walk_elements<C: Cursor>(
    rows: Rows,
    range: Range<usize>,
    count: u64,
    mut cursor: C,
) -> Result<C, C::Refusal> {
    let (mut one, mut few, mut many);
    let ops: &mut [Op] = match range.len() {
        0..=1 => {
            one = [Op::Text; 1];
            &mut one
        }
        2..=16 => {
            few = [Op::Text; 16];
            &mut few
        }
        _ => {
            many = [Op::Text; MOST_ROWS];
            &mut many
        }
    };
    let element = plan(rows, range, C::JOIN, ops);
    let ops = &ops[..usize::from(element.steps)];
    match left_to_walk(ops, element, count, &mut cursor)? {
        0 => Ok(cursor),
        left => tour(ops, left, cursor),
    }
}

/// Elements with these steps, at least one.
#[derive(Clone, Copy)]
struct Round<'a> {
    ops: &'a [Op],
    left: u64,
    /// What is left of this element's steps while an inner array is walked.
    behind: &'a [Op],
}

impl<'a> Round<'a> {
    fn new(ops: &'a [Op], left: u64) -> Self {
        let behind = &[];
        Round { ops, left, behind }
    }
}

/// No array holds an array, so at most every second level is one.
const MOST_ARRAYS: usize = MOST_DEPTH / 2;

/// Walks that many elements, at least one, step by step. Every element takes at
/// least one byte, so a cursor that refuses at the end of the data ends this.
#[inline(never)]
fn tour<C: Cursor>(ops: &[Op], left: u64, mut cursor: C) -> Result<C, C::Refusal> {
    let mut round = Round::new(ops, left);
    let mut steps = ops.iter();
    let mut outer = [round; MOST_ARRAYS];
    let mut depth = 0;
    loop {
        while let Some(op) = steps.next() {
            let Some((dimensions, element)) = step(*op, &mut cursor)? else {
                continue;
            };
            let (ops, behind) = steps.as_slice().split_at(usize::from(element.steps));
            steps = behind.iter();
            let left = enter(dimensions, ops, element, &mut cursor)?;
            if left > 0 {
                steps = ops.iter();
                round.behind = behind;
                outer[depth] = replace(&mut round, Round::new(ops, left));
                depth += 1;
            }
        }
        if round.left > 1 {
            round.left -= 1;
            steps = round.ops.iter();
        } else if depth == 0 {
            return Ok(cursor);
        } else {
            depth -= 1;
            round = outer[depth];
            steps = round.behind.iter();
        }
    }
}

/// Walks a step, or hands back the array that it is. The most common steps are
/// asked for first: a machine foresees that better than one jump with many ends.
#[inline(always)]
fn step<C: Cursor>(op: Op, cursor: &mut C) -> Result<Option<(u8, Element)>, C::Refusal> {
    if let Op::Numbers(numbers) = op {
        cursor.numbers(numbers)?;
        return Ok(None);
    }
    if let Op::Text = op {
        cursor.text()?;
        return Ok(None);
    }
    match op {
        Op::Byte(limit) => cursor.limited(1, limit)?,
        Op::Half(limit) => cursor.limited(2, limit)?,
        Op::Word(limit) => cursor.limited(4, limit)?,
        Op::Array(dimensions, element) => return Ok(Some((dimensions, element))),
        Op::Numbers(_) | Op::Text => {}
    }
    Ok(None)
}

/// Passes an inner array as far as that can be done at once. Returns how many
/// elements are left to be walked.
#[inline(always)]
fn enter<C: Cursor>(
    dimensions: u8,
    ops: &[Op],
    element: Element,
    cursor: &mut C,
) -> Result<u64, C::Refusal> {
    let count = cursor.sizes(dimensions)?;
    left_to_walk(ops, element, count, cursor)
}

/// Passes elements as far as that can be done at once. Returns how many are left
/// to be walked.
#[inline(always)]
fn left_to_walk<C: Cursor>(
    ops: &[Op],
    element: Element,
    count: u64,
    cursor: &mut C,
) -> Result<u64, C::Refusal> {
    if count == 0 || element.width == 0 {
        return Ok(count);
    }
    cursor.block(ops, element, count)
}
