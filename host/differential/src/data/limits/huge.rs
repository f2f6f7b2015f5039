//! Sizes whose product no data and no machine word holds, and refusals in the
//! first element of such an array.

use super::arrays::{Element, HIGHEST, elements, several};
use super::{Both, Limits, array, cluster, enumeration, plain, text};
use crate::tree::Tree;

pub fn add(limits: &mut Limits) {
    for dimensions in 1..=4 {
        for element in elements() {
            huge(limits, dimensions, &element);
        }
        for wrong in wrong_scalars().into_iter().chain(wrong_clusters()) {
            first_element(limits, dimensions, wrong);
        }
    }
    products(limits);
}

/// More elements than any data holds: the first that is not there is missing.
fn huge(limits: &mut Limits, dimensions: usize, element: &Element) {
    let tree = array(dimensions as u16, element.tree.clone());
    for count in [0, 1, 2, 33] {
        let data = several(element, &vec![HIGHEST; dimensions], count);
        let what = format!("{dimensions} highest sizes, {count} elements");
        let end = data.len();
        limits.refused(what, &tree, data, 21, end);
    }
}

/// A wrong element: what it is, its type, its bytes, its number and the place
/// in it.
type Wrong = (&'static str, Tree, Both, u32, usize);

const HIGH_WORD: u32 = 0x8000_0000;

fn wrong_scalars() -> Vec<Wrong> {
    let bytes = |bytes: &[u8]| Both::new().plain(bytes);
    let states = enumeration(0x15, 9);
    vec![
        ("missing Boolean", plain(0x21), bytes(&[2]), 21, 1),
        ("enumeration", states.clone(), bytes(&[9]), 23, 0),
        ("second enumeration", states, bytes(&[8, 9]), 23, 1),
        (
            "4-byte enumeration",
            enumeration(0x17, 9),
            Both::new().word(9),
            23,
            0,
        ),
        ("high length", text(), Both::new().word(HIGH_WORD), 22, 0),
        ("cut string", text(), Both::new().word(1), 21, 0),
        ("cut double", plain(0x0A), bytes(&[0; 7]), 21, 0),
    ]
}

fn wrong_clusters() -> Vec<Wrong> {
    let double = Both::new().number(&[0; 8]);
    let number = Both::new().number(&[0, 1]);
    let behind_double = cluster(vec![plain(0x0A), enumeration(0x15, 2)]);
    let behind_number = |tree| cluster(vec![plain(0x02), tree]);
    let bytes = array(1, plain(0x05));
    let high = number.clone().word(HIGH_WORD);
    vec![
        (
            "enumeration behind a double",
            behind_double,
            double.plain(&[2]),
            23,
            8,
        ),
        (
            "high length behind a number",
            behind_number(text()),
            high.clone(),
            22,
            2,
        ),
        (
            "high size behind a number",
            behind_number(bytes.clone()),
            high,
            22,
            2,
        ),
        (
            "huge size behind a number",
            behind_number(bytes),
            number.word(HIGHEST),
            21,
            6,
        ),
    ]
}

/// The first element of a huge array is looked at before the end of the data is.
fn first_element(limits: &mut Limits, dimensions: usize, wrong: Wrong) {
    let (what, element, first, number, place) = wrong;
    let data = Both::new().words(&vec![HIGHEST; dimensions]).then(&first);
    let what = format!("{what} in {dimensions} highest sizes");
    let tree = array(dimensions as u16, element);
    limits.refused(what, &tree, data, number, 4 * dimensions + place);
}

/// Sizes whose product is 0 or small when only its low 32 or 64 bits are kept,
/// with as many elements as those bits say.
fn products(limits: &mut Limits) {
    let sizes: [(&[u32], usize); 8] = [
        (&[0x1_0000, 0x1_0000], 0),
        (&[641, 6_700_417], 1),
        (&[7, 613_566_757], 3),
        (&[0x1_0000; 4], 0),
        (&[1 << 30, 1 << 30, 16, 3], 0),
        (&[1 << 22, 1 << 21, 1 << 21], 0),
        (&[34_724, 27_905, 49_477, 384_773], 4),
        (&[14_953, 1_499, 13_309, 61_836_419], 21),
    ];
    for (sizes, count) in sizes {
        for element in elements() {
            let tree = array(sizes.len() as u16, element.tree.clone());
            let data = several(&element, sizes, count);
            let end = data.len();
            limits.refused(format!("sizes {sizes:?}"), &tree, data, 21, end);
        }
    }
}
