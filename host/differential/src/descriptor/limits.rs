//! Every limit of document 01 with its neighbour on each side, and what comes
//! first where two refusals would do. Each case states its answer.

mod combined;
mod places;
mod stamps;

use reference::Answer;

use crate::tree::{Body, Tree};

/// A case with the answer that documents 01 and 02 give.
pub struct Limit {
    pub what: String,
    pub bytes: Vec<u8>,
    pub answer: Answer,
}

/// All limits, always in the same order.
pub fn all() -> Vec<Limit> {
    let mut limits = Vec::new();
    lengths(&mut limits);
    sizes(&mut limits);
    codes(&mut limits);
    rows_and_depth(&mut limits);
    dimensions(&mut limits);
    pairs(&mut limits);
    items(&mut limits);
    members(&mut limits);
    strings(&mut limits);
    names(&mut limits);
    stamps::add(&mut limits);
    places::add(&mut limits);
    combined::add(&mut limits);
    limits
}

/// Collects cases with their answers.
trait Collect {
    fn add(&mut self, what: impl Into<String>, bytes: Vec<u8>, answer: [u32; 3]);

    fn accepted(&mut self, what: impl Into<String>, bytes: Vec<u8>, rows: usize) {
        self.add(what, bytes, [0, 0, rows as u32]);
    }

    fn refused(&mut self, what: impl Into<String>, bytes: Vec<u8>, number: u32, place: usize) {
        self.add(what, bytes, [number, 1, place as u32]);
    }
}

impl Collect for Vec<Limit> {
    fn add(&mut self, what: impl Into<String>, bytes: Vec<u8>, answer: [u32; 3]) {
        let [number, input, place] = answer;
        self.push(Limit {
            what: what.into(),
            bytes,
            answer: Answer {
                number,
                input,
                place,
            },
        });
    }
}

/// A header with any size word, and bytes behind it.
fn raw(size: usize, code: u8, behind: &[u8]) -> Vec<u8> {
    let mut bytes = vec![(size >> 8) as u8, size as u8, 0, code];
    bytes.extend(behind);
    bytes
}

/// A descriptor whose size word fits what stands behind the header.
fn whole(code: u8, behind: &[u8]) -> Vec<u8> {
    raw(4 + behind.len(), code, behind)
}

fn encode(body: Body) -> Vec<u8> {
    Tree::unnamed(body).normal_form().bytes
}

fn integer() -> Tree {
    Tree::unnamed(Body::Plain(0x03))
}

/// An enumeration of exactly this many bytes, an even number.
fn long_enumeration(size: usize) -> Vec<u8> {
    let mut items = vec![vec![b'i'; 255]; (size - 6) / 256];
    let left = (size - 6) % 256;
    if left > 0 {
        items.push(vec![b'i'; left - 1]);
    }
    encode(Body::Enumeration(0x16, items))
}

fn lengths(limits: &mut Vec<Limit>) {
    for length in 0..4 {
        let bytes = raw(4, 0x03, &[])[..length].to_vec();
        limits.refused(format!("{length} bytes"), bytes, 2, 0);
    }
    limits.accepted("4,094 bytes", long_enumeration(4094), 1);
    limits.accepted("4,096 bytes", long_enumeration(4096), 1);
    limits.refused("4,098 bytes", long_enumeration(4098), 1, 0);
    let mut bytes = long_enumeration(4096);
    bytes.pop();
    limits.refused("4,096 bytes less one", bytes.clone(), 4, 0);
    bytes.extend([b'i', 0]);
    limits.refused("4,096 bytes and one", bytes, 1, 0);
    let mut bytes = long_enumeration(4094);
    bytes.push(0);
    limits.refused("4,094 bytes and one", bytes.clone(), 12, 4094);
    bytes.push(0);
    limits.refused("4,094 bytes and two", bytes.clone(), 12, 4094);
    bytes.push(0);
    limits.refused("4,094 bytes and three", bytes, 1, 0);
    limits.refused("no descriptor in 4,096 bytes", vec![0; 4096], 4, 0);
    limits.refused("no descriptor in 4,097 bytes", vec![0; 4097], 1, 0);
    limits.refused("65,536 bytes", vec![0xFF; 65536], 1, 0);
}

fn sizes(limits: &mut Vec<Limit>) {
    for size in [0, 1, 2, 3, 5, 6, 7, 4096, 4098, 32766, 32767] {
        let bytes = raw(size, 0x03, &[]);
        limits.refused(format!("size {size} of 4 bytes"), bytes, 4, 0);
    }
    for size in [32768, 32769, 32772, 65535] {
        let bytes = raw(size, 0x03, &[]);
        limits.refused(format!("size {size} of 4 bytes"), bytes, 3, 0);
    }
    for (size, number) in [(32766, 4), (32768, 3)] {
        let bytes = raw(size, 0x03, &[0; 4092]);
        limits.refused(format!("size {size} of 4,096 bytes"), bytes, number, 0);
        let member = raw(size, 0x03, &[]);
        let bytes = whole(0x50, &[vec![0, 1], member].concat());
        limits.refused(format!("a member's size {size}"), bytes, number, 6);
    }
    wrong_sizes_and_more(limits);
}

/// What comes first when a size is not the only thing wrong.
fn wrong_sizes_and_more(limits: &mut Vec<Limit>) {
    for behind in 1..4 {
        let bytes = raw(4, 0x21, &vec![0; behind]);
        limits.refused(format!("{behind} bytes behind"), bytes, 12, 4);
    }
    let odd_and_foreign = raw(5, 0x00, &[0]);
    limits.refused("odd size and unknown code", odd_and_foreign, 4, 0);
    let foreign_and_behind = raw(4, 0x00, &[0]);
    limits.refused("unknown code and bytes behind", foreign_and_behind, 5, 3);
    let member = [0, 1, 0, 6, 0, 3];
    let bytes = [whole(0x50, &member), vec![1, b'n']].concat();
    limits.refused("a member past its parent's end", bytes, 4, 6);
}

fn codes(limits: &mut Vec<Limit>) {
    for code in 0..=255 {
        let what = format!("code {code:02X} alone");
        let bytes = whole(code, &[]);
        match code {
            0x01..=0x0E | 0x21 => limits.accepted(what, bytes, 1),
            0x15..=0x17 | 0x19..=0x1E | 0x30 | 0x40 | 0x50 | 0x54 => {
                limits.refused(what, bytes, 8, 4)
            }
            _ => limits.refused(what, bytes, 5, 3),
        }
    }
}

/// A leaf inside clusters, so that the leaf stands at this depth.
fn nested(leaf: Tree, depth: usize) -> Tree {
    (1..depth).fold(leaf, |inner, _| Tree::unnamed(Body::Cluster(vec![inner])))
}

fn rows_and_depth(limits: &mut Vec<Limit>) {
    for rows in [2, 3, 255, 256] {
        let bytes = encode(Body::Cluster(vec![integer(); rows - 1]));
        limits.accepted(format!("{rows} rows"), bytes, rows);
    }
    let start = 6 + 255 * 4;
    let bytes = encode(Body::Cluster(vec![integer(); 256]));
    limits.refused("257 rows", bytes.clone(), 7, start);
    let mut foreign = bytes.clone();
    foreign[start + 3] = 0;
    limits.refused("row 257 of unknown code", foreign, 5, start + 3);
    let counted_only = [whole(0x50, &bytes[4..start])].concat();
    limits.refused("row 257 counted but absent", counted_only, 2, start);
    for depth in 2..9 {
        let bytes = nested(integer(), depth).normal_form().bytes;
        limits.accepted(format!("depth {depth}"), bytes, depth);
    }
    for depth in [9, 10, 20] {
        let bytes = nested(integer(), depth).normal_form().bytes;
        limits.refused(format!("depth {depth}"), bytes, 6, 48);
    }
    let mut foreign = nested(integer(), 9).normal_form().bytes;
    foreign[51] = 0x55;
    limits.refused("depth 9 of unknown code", foreign, 5, 51);
    let mut members = vec![integer(); 248];
    members.push(nested(integer(), 8));
    let bytes = encode(Body::Cluster(members.clone()));
    limits.refused("row 257 at depth 9", bytes, 6, 6 + 248 * 4 + 42);
    members[248] = nested(integer(), 7);
    let bytes = encode(Body::Cluster(members));
    limits.accepted("row 256 at depth 8", bytes, 256);
}

/// An array's words before its element, with this dimension count.
fn array_words(count: u8, dimensions: usize) -> Vec<u8> {
    [vec![0, count], vec![0xFF; 4 * dimensions]].concat()
}

fn dimensions(limits: &mut Vec<Limit>) {
    let element = raw(4, 0x0A, &[]);
    for count in 0..=6 {
        let words = array_words(count, usize::from(count));
        let bytes = whole(0x40, &[words, element.clone()].concat());
        let what = format!("{count} dimensions");
        match count {
            1..=4 => limits.accepted(what, bytes, 2),
            _ => limits.refused(what, bytes, 9, 4),
        }
        let what = format!("{count} dimensions, no words");
        let (number, place) = match count {
            1..=4 => (8, 6),
            _ => (9, 4),
        };
        limits.refused(what, whole(0x40, &[0, count]), number, place);
    }
    limits.refused("256 dimensions", whole(0x40, &[1, 0]), 9, 4);
    let three_of_four = whole(0x40, &array_words(4, 3));
    limits.refused("the fourth word missing", three_of_four, 8, 18);
    let no_element = whole(0x40, &array_words(2, 2));
    limits.refused("no element", no_element, 2, 14);
    let mut wrong = whole(0x40, &[array_words(4, 4), element].concat());
    wrong[21] = 0xFE;
    limits.refused("the fourth word wrong", wrong, 10, 18);
    let wrong_and_missing = whole(0x40, &[0, 2, 0, 0, 0, 0]);
    limits.refused("a word wrong, one missing", wrong_and_missing, 8, 10);
    arrays_in_arrays(limits);
}

fn arrays_in_arrays(limits: &mut Vec<Limit>) {
    let array_of = |element: Tree| Tree::unnamed(Body::Array(1, Box::new(element)));
    let twice = array_of(array_of(integer())).normal_form().bytes;
    limits.refused("array in array", twice.clone(), 10, 13);
    let mut odd = twice.clone();
    odd[11] += 1;
    limits.refused("array in array of odd size", odd, 4, 10);
    let mut uncounted = twice;
    uncounted[15] = 0;
    limits.refused("array in array, no dimensions", uncounted, 10, 13);
    let between = Tree::unnamed(Body::Cluster(vec![array_of(integer())]));
    let apart = array_of(between).normal_form().bytes;
    limits.accepted("array in cluster in array", apart, 4);
    let deep = nested(array_of(array_of(integer())), 8).normal_form().bytes;
    limits.refused("inner array at depth 9", deep, 6, 52);
    let mut members = vec![integer(); 254];
    members.push(array_of(array_of(integer())));
    let late = encode(Body::Cluster(members));
    limits.refused("inner array as row 257", late, 7, 6 + 254 * 4 + 10);
}

fn pairs(limits: &mut Vec<Limit>) {
    for count in 0..=11 {
        let bytes = encode(Body::Quantity(0x1A, vec![[3, 0xFFFF]; count]));
        let what = format!("{count} pairs");
        match count {
            1..=9 => limits.accepted(what, bytes, 1),
            _ => limits.refused(what, bytes, 9, 4),
        }
        let what = format!("{count} pairs, none there");
        let (number, place) = match count {
            1..=9 => (8, 6),
            _ => (9, 4),
        };
        limits.refused(what, whole(0x1E, &[0, count as u8]), number, place);
    }
    for base in [0, 8, 9, 10, 256, 264, 0x8000, 0xFFFF] {
        for pair in [0, 4, 8] {
            let mut pairs = vec![[8, 1]; 9];
            pairs[pair][0] = base;
            let what = format!("base {base} in pair {pair}");
            let bytes = encode(Body::Quantity(0x19, pairs));
            match base {
                0..=8 => limits.accepted(what, bytes, 1),
                _ => limits.refused(what, bytes, 10, 6 + 4 * pair),
            }
        }
    }
    let half_a_pair = whole(0x1B, &[0, 2, 0, 9, 0, 0, 0, 1]);
    limits.refused("base 9 and half a pair missing", half_a_pair, 8, 12);
}

fn items(limits: &mut Vec<Limit>) {
    limits.refused("no items", whole(0x15, &[0, 0]), 9, 4);
    limits.refused("no items, bytes behind", whole(0x15, &[0, 0, 0, 0]), 9, 4);
    for length in [0, 1, 2, 254, 255] {
        let bytes = encode(Body::Enumeration(0x15, vec![vec![b'x'; length]]));
        limits.accepted(format!("an item of {length}"), bytes.clone(), 1);
        let mut over = bytes;
        over[6] = over[6].wrapping_add(2);
        if length < 254 {
            let (what, end) = (format!("an item of {length} that runs over"), over.len());
            limits.refused(what, over, 8, end);
        }
    }
    for count in [2, 254, 255, 256, 257, 4000, 4090] {
        let bytes = encode(Body::Enumeration(0x17, vec![Vec::new(); count]));
        limits.accepted(format!("{count} empty items"), bytes, 1);
    }
    items_and_fill(limits);
}

/// Items that are counted but not there, and the byte behind the last.
fn items_and_fill(limits: &mut Vec<Limit>) {
    let mut one_more = encode(Body::Enumeration(0x17, vec![Vec::new(); 4]));
    one_more[5] = 5;
    limits.refused("an item's length byte missing", one_more, 8, 10);
    limits.refused("65,535 items", whole(0x16, &[0xFF, 0xFF, 0, 0]), 8, 8);
    for fill in [1, 0x80, 0xFF] {
        let bytes = whole(0x16, &[0, 1, 0, fill]);
        limits.refused(format!("fill byte {fill}"), bytes, 10, 7);
    }
    let fill_and_name = whole(0x16, &[0, 1, 0, 1, 9, 9]);
    limits.refused("fill byte and name wrong", fill_and_name, 10, 7);
    let over_and_fill = whole(0x16, &[0, 2, 0, 1]);
    limits.refused("the second item runs over", over_and_fill, 8, 8);
}

fn members(limits: &mut Vec<Limit>) {
    limits.refused("no members", whole(0x50, &[0, 0]), 9, 4);
    limits.refused("no members, a name", whole(0x50, &[0, 0, 1, b'n']), 9, 4);
    limits.refused("one member, none there", whole(0x50, &[0, 1]), 2, 6);
    let half = whole(0x50, &[0, 1, 0, 4]);
    limits.refused("one member, half there", half, 2, 6);
    let second = whole(0x50, &[0, 2, 0, 4, 0, 3]);
    limits.refused("the second member missing", second, 2, 10);
    let beside = [whole(0x50, &[0, 2, 0, 4, 0, 3]), raw(4, 0x03, &[])].concat();
    limits.refused("the second member outside", beside, 2, 10);
    let extra = whole(0x50, &[0, 1, 0, 4, 0, 3, 0, 4, 0, 3]);
    limits.refused("a member more than counted", extra, 11, 10);
    let inner = whole(0x50, &[0, 1, 0, 4, 0, 3, 9, 9]);
    let inner_name = whole(0x50, &[vec![0, 1], inner, vec![9, 9]].concat());
    limits.refused("both names wrong", inner_name, 11, 16);
    let most = encode(Body::Cluster(vec![integer(); 256]));
    let many = [&most[..4], &[0xFF, 0xFF], &most[6..]].concat();
    limits.refused("65,535 members", many, 7, 6 + 255 * 4);
}

fn strings(limits: &mut Vec<Limit>) {
    limits.accepted("a string", whole(0x30, &[0xFF; 4]), 1);
    for length in [0, 2] {
        let bytes = whole(0x30, &vec![0xFF; length]);
        limits.refused(
            format!("{length} bytes of the length word"),
            bytes,
            8,
            4 + length,
        );
    }
    for byte in 0..4 {
        let mut word = [0xFF; 4];
        word[byte] = 0x7F;
        let bytes = whole(0x30, &word);
        limits.refused(format!("byte {byte} of the length word"), bytes, 10, 4);
    }
}

fn names(limits: &mut Vec<Limit>) {
    for length in [0, 1, 2, 3, 253, 254, 255] {
        for body in [
            Body::Plain(0x21),
            Body::Text,
            Body::Cluster(vec![integer()]),
        ] {
            let name = Some(vec![b'n'; length]);
            let rows = if let Body::Cluster(_) = body { 2 } else { 1 };
            let body_end = encode(body.clone()).len();
            let mut bytes = Tree { body, name }.normal_form().bytes;
            let what = format!("a name of {length} under {:02X}", bytes[3]);
            limits.accepted(what.clone(), bytes.clone(), rows);
            let last = bytes.len() - 1;
            if length % 2 == 0 {
                bytes[last] = 1;
                limits.refused(format!("{what}, fill byte 1"), bytes.clone(), 11, body_end);
                bytes[last] = 0;
            }
            bytes.extend([0, 0]);
            let size = (bytes.len() as u16).to_be_bytes();
            bytes[..2].copy_from_slice(&size);
            limits.refused(format!("{what}, two bytes more"), bytes, 11, body_end);
        }
    }
    for left in [[1, 0], [0, 0], [0, 1], [2, 0], [3, 0], [255, 255]] {
        let bytes = whole(0x07, &left);
        let what = format!("{left:?} left");
        match left {
            [0, 0] | [1, _] => limits.accepted(what, bytes, 1),
            _ => limits.refused(what, bytes, 11, 4),
        }
    }
    let name_and_behind = [whole(0x07, &[9, 9]), vec![0]].concat();
    limits.refused("no name and bytes behind", name_and_behind, 11, 4);
}
