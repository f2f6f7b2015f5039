//! The walk over a descriptor: each rule of building, judged in document 01's
//! order, with the places of document 02's request 3. Parents wait on a small
//! stack, so the walk has one loop and no recursion; every place counts from the
//! first lent byte.

use std::mem::replace;

use crate::kind::{KINDS, Kind};
use crate::{MOST_BYTES, MOST_DEPTH, MOST_ROWS, Row};

/// The first thing found wrong, and where.
pub(crate) struct Refusal {
    pub(crate) number: u32,
    pub(crate) place: usize,
}

/// Is told of each descriptor as it is met.
pub(crate) trait Visitor {
    /// A descriptor whose body is in order. A parent's row comes without its
    /// name, since that stands behind the children.
    fn row(&mut self, index: usize, row: Row);
    /// The name of a parent met earlier.
    fn name(&mut self, index: usize, place: u16, length: u16);
}

/// Visits nothing: the walk only judges.
impl Visitor for () {
    #[inline(always)]
    fn row(&mut self, _index: usize, _row: Row) {}
    #[inline(always)]
    fn name(&mut self, _index: usize, _place: u16, _length: u16) {}
}

/// A descriptor whose children are being read; the lent bytes stand as the
/// parent of the top descriptor.
#[derive(Clone, Copy)]
struct Parent {
    start: u16,
    end: u16,
    row: u16,
    /// Children not yet read to their end.
    left: u16,
    code: u8,
}

impl Parent {
    /// Stands where no parent waits.
    const NONE: Parent = Parent {
        start: 0,
        end: 0,
        row: 0,
        left: 0,
        code: 0,
    };

    /// The lent bytes, which hold one descriptor.
    fn lent(length: usize) -> Parent {
        Parent {
            end: length as u16,
            left: 1,
            ..Parent::NONE
        }
    }
}

/// A size and code that passed 2 to 5.
struct Header {
    size: u16,
    code: u8,
    kind: Kind,
}

/// Where a body ends, counted from the first lent byte, and the count it gave.
struct Body {
    end: usize,
    count: u16,
}

/// A name's place and length, both 0 where there is none.
struct Name {
    place: u16,
    length: u16,
}

/// Walks the whole descriptor. Returns its row count or the first refusal.
pub(crate) fn walk<V: Visitor>(bytes: &[u8], visitor: &mut V) -> Result<usize, Refusal> {
    if bytes.len() > MOST_BYTES {
        return refuse(1, 0);
    }
    let mut parent = Parent::lent(bytes.len());
    let mut outer = [Parent::NONE; MOST_DEPTH];
    let (mut depth, mut start, mut index) = (1, 0, 0);
    loop {
        let inside = &bytes[..usize::from(parent.end)];
        let header = read_header(inside, start)?;
        check_standing(&header, start, depth, index, parent.code)?;
        let own = &inside[..start + usize::from(header.size)];
        let body = read_body(header.kind, own, start)?;
        let mut row = row_of(&header, start, depth, body.count);
        if let Kind::Array | Kind::Cluster | Kind::Stamp = header.kind {
            visitor.row(index, row);
            outer[depth - 1] = replace(&mut parent, parent_of(&row, index));
            depth += 1;
            start = body.end;
        } else {
            let name = read_name(own, body.end)?;
            (row.name_place, row.name_length) = (name.place, name.length);
            visitor.row(index, row);
            start = own.len();
            parent.left -= 1;
            while parent.left == 0 && depth > 1 {
                start = close(bytes, &parent, start, visitor)?;
                depth -= 1;
                parent = outer[depth - 1];
                parent.left -= 1;
            }
            if parent.left == 0 {
                return finish(bytes, start, index + 1);
            }
        }
        index += 1;
    }
}

#[inline(always)]
pub(crate) fn refuse<T>(number: u32, place: usize) -> Result<T, Refusal> {
    Err(Refusal { number, place })
}

/// Refusals 2 to 5 of the descriptor at `start`, 5 at its low code byte; `inside`
/// ends where its parent does.
#[inline(always)]
fn read_header(inside: &[u8], start: usize) -> Result<Header, Refusal> {
    let left = &inside[start..];
    let Some(&[high, low, _reserved, code]) = left.first_chunk::<4>() else {
        return refuse(2, start);
    };
    let size = u16::from_be_bytes([high, low]);
    if size >= 0x8000 {
        return refuse(3, start);
    }
    if size % 2 == 1 || size < 4 || usize::from(size) > left.len() {
        return refuse(4, start);
    }
    let kind = KINDS[usize::from(code)];
    if kind == Kind::Foreign {
        return refuse(5, start + 3);
    }
    Ok(Header { size, code, kind })
}

/// Refusals 6 and 7, then 10 for an array in an array, at its low code byte.
#[inline(always)]
fn check_standing(
    header: &Header,
    start: usize,
    depth: usize,
    index: usize,
    parent: u8,
) -> Result<(), Refusal> {
    if depth > MOST_DEPTH {
        return refuse(6, start);
    }
    if index >= MOST_ROWS {
        return refuse(7, start);
    }
    if parent == 0x40 && header.kind == Kind::Array {
        return refuse(10, start + 3);
    }
    Ok(())
}

/// Refusals 8 to 10 of a body, and 5 for a subtype; `own` ends where the descriptor
/// does. Most have none, and the rest stay out of the walk's loop to keep it small.
#[inline(always)]
fn read_body(kind: Kind, own: &[u8], start: usize) -> Result<Body, Refusal> {
    if kind == Kind::Plain {
        return Ok(Body {
            end: start + 4,
            count: 0,
        });
    }
    read_long_body(kind, own, start)
}

/// What an array, a cluster or a time stamp holds is left to the walk.
#[inline(never)]
fn read_long_body(kind: Kind, own: &[u8], start: usize) -> Result<Body, Refusal> {
    match kind {
        Kind::Foreign | Kind::Plain => Ok(Body {
            end: start + 4,
            count: 0,
        }),
        Kind::Enumeration => enumeration(own, start),
        Kind::Quantity => quantity(own, start),
        Kind::Text => text(own, start),
        Kind::Array => array(own, start),
        Kind::Cluster => cluster(own, start),
        Kind::Stamp => stamp(own, start),
    }
}

/// The count word; 8 at the descriptor's end where it is missing, 9 at the word
/// where it is outside its limits.
#[inline(always)]
fn counted(own: &[u8], start: usize, least: u16, most: u16) -> Result<u16, Refusal> {
    let Some(word) = own[start + 4..].first_chunk() else {
        return refuse(8, own.len());
    };
    let count = u16::from_be_bytes(*word);
    if count < least || count > most {
        return refuse(9, start + 4);
    }
    Ok(count)
}

/// A count and that many words of four bytes; 10 at the first that is not right.
#[inline(always)]
fn counted_words(
    own: &[u8],
    start: usize,
    most: u16,
    right: impl Fn(&[u8; 4]) -> bool,
) -> Result<Body, Refusal> {
    let count = counted(own, start, 1, most)?;
    let first = start + 6;
    let end = first + 4 * usize::from(count);
    let Some(words) = own.get(first..end) else {
        return refuse(8, own.len());
    };
    match words.as_chunks().0.iter().position(|word| !right(word)) {
        None => Ok(Body { end, count }),
        Some(wrong) => refuse(10, first + 4 * wrong),
    }
}

/// An enumeration's items, and the fill byte where the length so far is odd.
fn enumeration(own: &[u8], start: usize) -> Result<Body, Refusal> {
    let count = counted(own, start, 1, u16::MAX)?;
    let mut end = start + 6;
    for _ in 0..count {
        let Some(length) = own.get(end) else {
            return refuse(8, own.len());
        };
        end += 1 + usize::from(*length);
        if end > own.len() {
            return refuse(8, own.len());
        }
    }
    if (end - start) % 2 == 1 {
        // The size is even, so this byte is there.
        if own[end] != 0 {
            return refuse(10, end);
        }
        end += 1;
    }
    Ok(Body { end, count })
}

/// A physical quantity's pairs, each a base index before its exponent.
fn quantity(own: &[u8], start: usize) -> Result<Body, Refusal> {
    counted_words(own, start, 9, |[high, low, ..]| {
        u16::from_be_bytes([*high, *low]) <= 8
    })
}

/// A string's length word.
fn text(own: &[u8], start: usize) -> Result<Body, Refusal> {
    match own[start + 4..].first_chunk() {
        None => refuse(8, own.len()),
        Some([0xFF, 0xFF, 0xFF, 0xFF]) => Ok(Body {
            end: start + 8,
            count: 0,
        }),
        Some(_) => refuse(10, start + 4),
    }
}

/// An array's dimensions.
fn array(own: &[u8], start: usize) -> Result<Body, Refusal> {
    counted_words(own, start, 4, |word| *word == [0xFF; 4])
}

/// A cluster's member count.
fn cluster(own: &[u8], start: usize) -> Result<Body, Refusal> {
    counted(own, start, 1, u16::MAX).map(|count| Body {
        end: start + 6,
        count,
    })
}

/// A time stamp's subtype word, which stands where others have a count. Another
/// subtype is a type that is not carried.
fn stamp(own: &[u8], start: usize) -> Result<Body, Refusal> {
    match own[start + 4..].first_chunk() {
        None => refuse(8, own.len()),
        Some([0, 6]) => Ok(Body {
            end: start + 6,
            count: 0,
        }),
        Some(_) => refuse(5, start + 3),
    }
}

/// Whether this accepted descriptor, reserved bytes apart, is what a time stamp
/// holds: a cluster of the four halves of its two numbers, all without names.
fn in_stamp(held: &[u8]) -> bool {
    let Some(([0, 0x16, _, 0x50, 0, 4], members)) = held.split_first_chunk() else {
        return false;
    };
    let (members, _) = members.as_chunks();
    matches!(
        members,
        [[0, 4, _, 3], [0, 4, _, 3], [0, 4, _, 7], [0, 4, _, 7]]
    )
}

/// What is left of a descriptor from `at`, where its body and what it holds end:
/// nothing or a name, else 11 there.
#[inline(always)]
fn read_name(own: &[u8], at: usize) -> Result<Name, Refusal> {
    let left = &own[at..];
    let Some((&length, behind)) = left.split_first() else {
        return Ok(Name {
            place: 0,
            length: 0,
        });
    };
    let fill = match behind.get(usize::from(length)..) {
        Some(fill) => fill,
        None => return refuse(11, at),
    };
    // With its length byte, a name of odd length needs no fill byte.
    match (length % 2, fill) {
        (1, []) | (0, [0]) => {}
        _ => return refuse(11, at),
    }
    Ok(Name {
        place: (at + 1) as u16,
        length: u16::from(length),
    })
}

/// Judges what a time stamp holds, then reads the name behind a parent's last child.
/// Returns the parent's end.
#[inline(always)]
fn close<V: Visitor>(
    bytes: &[u8],
    parent: &Parent,
    at: usize,
    visitor: &mut V,
) -> Result<usize, Refusal> {
    let own = &bytes[..usize::from(parent.end)];
    let start = usize::from(parent.start);
    if parent.code == 0x54 && !in_stamp(&own[start + 6..at]) {
        return refuse(10, start);
    }
    let name = read_name(own, at)?;
    visitor.name(usize::from(parent.row), name.place, name.length);
    Ok(own.len())
}

/// Refusal 12, or the row count.
fn finish(bytes: &[u8], end: usize, rows: usize) -> Result<usize, Refusal> {
    if end < bytes.len() {
        return refuse(12, end);
    }
    Ok(rows)
}

#[inline(always)]
fn row_of(header: &Header, start: usize, depth: usize, count: u16) -> Row {
    Row {
        code: u16::from(header.code),
        start: start as u16,
        size: header.size,
        depth: depth as u16,
        count,
        name_place: 0,
        name_length: 0,
    }
}

/// An array waits for one element, a time stamp for its cluster, a cluster for as
/// many members as it counts.
#[inline(always)]
fn parent_of(row: &Row, index: usize) -> Parent {
    Parent {
        start: row.start,
        end: row.start + row.size,
        row: index as u16,
        left: if row.code == 0x50 { row.count } else { 1 },
        code: row.code as u8,
    }
}
