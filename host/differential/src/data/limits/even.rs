//! Arrays of clusters that hold no string and no array, so that every element
//! takes the same bytes: of one width and of several, nested, with complex
//! numbers; a few elements, about 8,192 bytes of them, and as many as fit.

use reference::MOST_DATA;

use super::{Both, Limits, array, cluster, enumeration, every_scalar};
use super::{fill, plain, quantity, stamp};
use crate::random::Random;
use crate::tree::Tree;

pub fn add(limits: &mut Limits) {
    for element in elements() {
        let size = fill::least(&element);
        let near = 8192 / size;
        let most = (MOST_DATA - 4) / size;
        for count in (1..=9).chain(near - 1..=near + 3).chain([most]) {
            several(limits, &element, count);
        }
    }
}

fn elements() -> Vec<Tree> {
    let every = every_scalar().into_iter().map(|(_, tree)| tree).collect();
    let inner = cluster(vec![plain(0x0A), plain(0x21)]);
    let middle = cluster(vec![plain(0x02), inner, plain(0x0C)]);
    vec![
        cluster(vec![plain(0x01), plain(0x05), plain(0x21)]),
        cluster(vec![plain(0x02), enumeration(0x16, 3)]),
        cluster(vec![plain(0x0A), plain(0x0D), quantity(0x1D)]),
        cluster(vec![plain(0x0B), plain(0x0E)]),
        cluster(vec![plain(0x0A), cluster(vec![plain(0x0A)])]),
        cluster(vec![plain(0x0D), plain(0x09)]),
        cluster(vec![plain(0x07), middle, enumeration(0x16, 3)]),
        stamp(),
        cluster(vec![plain(0x21), stamp(), plain(0x06)]),
        cluster(every),
    ]
}

/// Elements by chance, but always the same.
fn several(limits: &mut Limits, element: &Tree, count: usize) {
    let mut random = Random::for_case(0, count as u64);
    let mut data = Both::new().word(count as u32);
    let mut pieces = 1;
    for _ in 0..count {
        let one = fill::fill(&mut random, element, 0);
        data = data.then(&one.data);
        pieces += one.pieces.len();
    }
    let what = format!("{count} clusters of {} bytes", fill::least(element));
    limits.accepted(what, &array(1, element.clone()), data, pieces);
}
