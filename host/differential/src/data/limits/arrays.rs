//! Size words: of no elements, too high, cut, and as many as there are.

use super::{Both, Limits, array, cluster, enumeration, plain, text};
use crate::tree::Tree;

pub const HIGHEST: u32 = 0x7FFF_FFFF;

/// An element's type, one element and its pieces.
pub struct Element {
    pub tree: Tree,
    pub data: Both,
    pub pieces: usize,
}

pub fn elements() -> Vec<Element> {
    let double = [0x40, 1, 2, 3, 4, 5, 6, 7];
    let pair = Both::new().number(&double).number(&double);
    let mixed = Both::new()
        .plain(&[0xFF])
        .number(&[1, 2, 3, 4])
        .number(&[5, 6, 7, 8]);
    let element = |tree, data, pieces| Element { tree, data, pieces };
    vec![
        element(plain(0x0A), Both::new().number(&double), 1),
        element(plain(0x05), Both::new().plain(&[9]), 1),
        element(plain(0x21), Both::new().plain(&[0xFF]), 1),
        element(enumeration(0x16, 3), Both::new().number(&[0, 2]), 1),
        element(text(), Both::new().word(2).plain(b"ab"), 1),
        element(cluster(vec![plain(0x0A), plain(0x0A)]), pair, 2),
        element(cluster(vec![plain(0x21), plain(0x0C)]), mixed, 2),
        element(
            cluster(vec![plain(0x02), text()]),
            Both::new().number(&[1, 2]).word(0),
            2,
        ),
    ]
}

pub fn add(limits: &mut Limits) {
    for dimensions in 1..=4 {
        for element in elements() {
            empty(limits, dimensions, &element);
            too_high(limits, dimensions, &element);
            cut(limits, dimensions, &element);
            whole(limits, dimensions, &element);
        }
    }
}

/// An array's sizes and this many elements.
pub fn several(element: &Element, sizes: &[u32], count: usize) -> Both {
    let sizes = Both::new().words(sizes);
    (0..count).fold(sizes, |data, _| data.then(&element.data))
}

/// One size is 0, whatever the others are.
fn empty(limits: &mut Limits, dimensions: usize, element: &Element) {
    let tree = array(dimensions as u16, element.tree.clone());
    for other in [0, 1, 0x1_0000, HIGHEST] {
        for zero in 0..dimensions {
            let mut sizes = vec![other; dimensions];
            sizes[zero] = 0;
            let what = format!("sizes {sizes:X?}");
            let data = Both::new().words(&sizes);
            limits.accepted(what.clone(), &tree, data, 1);
            limits.part(&[], 0, 4 * dimensions, None);
            limits.nowhere(&[0], 0);
            let more = several(element, &sizes, 1);
            let what = format!("{what} and an element");
            limits.refused(what, &tree, more, 25, 4 * dimensions);
        }
    }
}

/// One size has its high bit set, whatever the others are.
fn too_high(limits: &mut Limits, dimensions: usize, element: &Element) {
    let tree = array(dimensions as u16, element.tree.clone());
    for other in [0, 1, HIGHEST] {
        for high in 0..dimensions {
            let mut sizes = vec![other; dimensions];
            sizes[high] = HIGHEST + 1;
            for count in [0, 1] {
                let what = format!("sizes {sizes:X?}, {count} elements");
                limits.refused(what, &tree, several(element, &sizes, count), 22, 0);
            }
        }
    }
}

/// All size words are there before one is judged.
fn cut(limits: &mut Limits, dimensions: usize, element: &Element) {
    let tree = array(dimensions as u16, element.tree.clone());
    for size in [0, HIGHEST, HIGHEST + 1, u32::MAX] {
        let sizes = Both::new().words(&vec![size; dimensions]);
        for length in 0..sizes.len() {
            let what = format!("{length} bytes of {dimensions} sizes {size:X}");
            limits.refused(what, &tree, sizes.cut(length), 21, 0);
        }
    }
}

/// As many elements as the sizes say, one fewer and one more.
fn whole(limits: &mut Limits, dimensions: usize, element: &Element) {
    let tree = array(dimensions as u16, element.tree.clone());
    let mut sizes = vec![2; dimensions];
    sizes[0] = 3;
    let count = sizes.iter().product::<u32>();
    let start = |index| 4 * dimensions + index * element.data.len();
    let data = several(element, &sizes, count as usize);
    let pieces = 1 + count as usize * element.pieces;
    limits.accepted(format!("sizes {sizes:?}"), &tree, data.clone(), pieces);
    limits.nowhere(&[count], 0);
    limits.nowhere(&[count | 1 << 16], 0);
    limits.nowhere(&[1 << 31], 0);
    let end = data.len();
    let what = format!("sizes {sizes:?}, one fewer");
    let fewer = several(element, &sizes, count as usize - 1);
    limits.refused(what, &tree, fewer, 21, start(count as usize - 1));
    let what = format!("sizes {sizes:?}, one more");
    let more = several(element, &sizes, count as usize + 1);
    limits.refused(what, &tree, more, 25, end);
}
